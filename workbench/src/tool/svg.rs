//! What the pictures share: an SVG that stands alone, with a title and a
//! description for screen readers.

/// What is around a picture.
pub struct Frame<'a> {
    /// The picture's title, not yet escaped.
    pub title: &'a str,
    /// What the picture shows, in sentences, not yet escaped.
    pub description: &'a str,
    pub width: usize,
    pub height: usize,
    pub style: &'a str,
}

impl Frame<'_> {
    /// The whole picture with what is drawn in it.
    pub fn around(&self, drawn: &str) -> String {
        let (width, height, style) = (self.width, self.height, self.style);
        let (title, description) = (escaped(self.title), escaped(self.description));
        format!(
            "<svg xmlns=\"http://www.w3.org/2000/svg\" width=\"{width}\" height=\"{height}\" \
             viewBox=\"0 0 {width} {height}\" role=\"img\" aria-labelledby=\"title desc\">\n\
             <title id=\"title\">{title}</title>\n\
             <desc id=\"desc\">{description}</desc>\n\
             <style>{style}</style>\n\
             <rect width=\"{width}\" height=\"{height}\" fill=\"#fff\"/>\n\
             {drawn}</svg>\n"
        )
    }
}

/// Text as it may stand in a picture.
pub fn escaped(text: &str) -> String {
    let mut escaped = String::new();
    for character in text.chars() {
        match character {
            '&' => escaped += "&amp;",
            '<' => escaped += "&lt;",
            '>' => escaped += "&gt;",
            '"' => escaped += "&quot;",
            '\'' => escaped += "&#39;",
            // XML has no place for these.
            '\u{fffe}' | '\u{ffff}' => escaped.push('\u{fffd}'),
            _ if character.is_control() => escaped.push('\u{fffd}'),
            _ => escaped.push(character),
        }
    }
    escaped
}

/// Some things, counted in words: `1 row`, `2 rows`.
pub fn counted(count: usize, what: &str) -> String {
    let plural = if count == 1 { "" } else { "s" };
    format!("{count} {what}{plural}")
}

#[cfg(test)]
mod tests {
    use super::*;

    #[test]
    fn text_is_escaped() {
        assert_eq!(escaped("a<b>&\"'"), "a&lt;b&gt;&amp;&quot;&#39;");
        assert_eq!(escaped("a\u{1}b\u{ffff}"), "a\u{fffd}b\u{fffd}");
    }
}
