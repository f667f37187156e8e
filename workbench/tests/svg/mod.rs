//! What tests ask of a picture.

/// The elements of a picture by their names, with the attributes of each. Fails
/// unless every element that begins ends, inside that in which it began.
pub fn elements(svg: &str) -> Vec<(String, String)> {
    let (mut open, mut found) = (vec![], vec![]);
    for part in svg.split('<').skip(1) {
        let (tag, content) = part.split_once('>').expect("the end of a tag");
        assert!(!content.contains('>'), "{content}");
        for entity in content.split('&').skip(1) {
            let name = entity.split_once(';').expect("the end of an entity").0;
            assert!(["amp", "lt", "gt", "quot", "#39"].contains(&name), "{name}");
        }
        if let Some(name) = tag.strip_prefix('/') {
            assert_eq!(open.pop().as_deref(), Some(name));
            continue;
        }
        let inner = tag.strip_suffix('/');
        let (name, attributes) = inner.unwrap_or(tag).split_once(' ').unwrap_or((tag, ""));
        assert_eq!(attributes.matches('"').count() % 2, 0, "{attributes}");
        found.push((name.to_string(), attributes.to_string()));
        if inner.is_none() {
            open.push(name.to_string());
        }
    }
    assert!(open.is_empty(), "{open:?}");
    found
}

/// How many elements have a class.
pub fn of_class(elements: &[(String, String)], class: &str) -> usize {
    let class = format!("class=\"{class}\"");
    let has = |(_, attributes): &&(String, String)| attributes.contains(&class);
    elements.iter().filter(has).count()
}

/// Fails unless a picture stands alone and has a title and a description.
pub fn stands_alone(svg: &str) {
    let found = elements(svg);
    assert_eq!(found[0].0, "svg");
    for attribute in [
        "width=",
        "height=",
        "viewBox=",
        "role=\"img\"",
        "aria-labelledby=",
    ] {
        assert!(found[0].1.contains(attribute), "{attribute}");
    }
    assert_eq!([&*found[1].0, &*found[2].0], ["title", "desc"]);
    for word in [
        "<script",
        "href",
        "@import",
        "url(http",
        "<image",
        "font-face",
    ] {
        assert!(!svg.contains(word), "{word}");
    }
    assert_eq!(svg.matches("http").count(), 1, "the name of the language");
}
