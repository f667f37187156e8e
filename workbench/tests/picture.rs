//! The pictures of a file's rows: what is drawn is what the reference says, and it
//! stays legible at 160 rows.

mod svg;

use svg::{elements, of_class, stands_alone};
use workbench::explain::explain_judged;
use workbench::generate::{chain, full_document, nested, wide_document, Random, Size};
use workbench::reference::check::{judge, load};
use workbench::reference::document::{Document, Form};
use workbench::reference::infer::infer;
use workbench::reference::steps::{reached_from, steps};
use workbench::samples::{a_with, A, LOOP, RELAY, SERVER, TWO_SENDERS};
use workbench::tool::picture::{grid, tree};

fn loaded(file: &str) -> Document {
    load(file.as_bytes()).expect("load takes it")
}

/// The tree of a document with what judge has against it.
fn drawn(document: &Document) -> String {
    let svg = tree("f", document, judge(document).err());
    stands_alone(&svg);
    svg
}

/// A number in an attribute of an element.
fn number(attributes: &str, name: &str) -> f64 {
    let attributes = format!(" {attributes}");
    let from = attributes.split_once(&format!(" {name}=\""));
    let from = from.expect("the attribute").1;
    from.split_once('"').unwrap().0.parse().expect("a number")
}

#[test]
fn the_tree_has_each_row_as_in_the_file_and_each_thread() {
    let svg = drawn(&loaded(A));
    let rows = A.lines().filter(|line| line.starts_with("[row"));
    for row in rows {
        assert!(svg.contains(&format!("\">{row}</text>")), "{row}");
    }
    let found = elements(&svg);
    assert_eq!(of_class(&found, "row"), 9);
    assert_eq!(of_class(&found, "thread"), 2);
    assert_eq!(of_class(&found, "one"), 0);
    for told in [
        "f: rows and threads</title>",
        "The tree of 9 rows, written in 2 threads, with 1 channel.",
        ">channel, one-shot</text>",
        ">receives on row 1</text>",
        ">sends on row 1</text>",
    ] {
        assert!(svg.contains(told), "{told}");
    }
}

#[test]
fn the_links_are_those_of_the_program() {
    for file in [RELAY, SERVER] {
        let document = infer(&loaded(file));
        let found = elements(&drawn(&document));
        let forms = (0..document.rows.len()).filter_map(|row| document.form(row));
        let forms: Vec<&Form> = forms.collect();
        let count = |of: fn(&Form) -> usize| forms.iter().map(|form| of(form)).sum::<usize>();
        let spawned = count(|form| usize::from(matches!(form, Form::Spawn { .. })));
        let bodies = count(|form| usize::from(matches!(form, Form::Fun { .. })));
        let branches = count(|form| 2 * usize::from(matches!(form, Form::Case { .. })));
        // One more of each stands in the key.
        assert_eq!(of_class(&found, "rest"), forms.len() + 1);
        assert_eq!(of_class(&found, "spawned"), spawned + 1);
        assert_eq!(of_class(&found, "body"), bodies + 1);
        assert_eq!(of_class(&found, "branch"), branches + 1);
    }
}

#[test]
fn a_claim_that_fails_has_two_walks_in_two_colours_and_lines() {
    for (file, walks, ends) in [
        (TWO_SENDERS.replace("fan-in", "fan-out"), [4, 4], [3, 5]),
        (format!("{LOOP}[claim 0 one-shot]\n"), [5, 8], [3, 3]),
    ] {
        let document = loaded(&file);
        let refused = judge(&document).unwrap_err();
        let explanation = explain_judged(&document, refused).unwrap();
        let [one, other] = explanation.walks.unwrap();
        assert_eq!([one.len(), other.len()], walks);
        assert_eq!([one[one.len() - 1], other[other.len() - 1]], ends);
        let svg = drawn(&document);
        let found = elements(&svg);
        // A line for each step, and one in the key.
        assert_eq!(of_class(&found, "one"), one.len());
        assert_eq!(of_class(&found, "other"), other.len());
        assert_eq!(of_class(&found, "wrong"), 2);
        let rows = |walk: &[usize]| {
            let rows: Vec<String> = walk.iter().map(usize::to_string).collect();
            rows.join(", ")
        };
        assert!(svg.contains(&format!("Walk 1 goes through rows {}.", rows(&one))));
        assert!(svg.contains(&format!("<title>walk 2: rows {}</title>", rows(&other))));
        assert!(svg.contains(&format!("(refused 11 at line {})", refused.line)));
        // In grey the lines and the marks differ too.
        assert!(svg.contains(".other{stroke:#d35400;stroke-width:2.5;fill:none;stroke-dasharray"));
        assert!(of_class(&found, "mark-one") > 1 && of_class(&found, "mark-other") > 1);
    }
}

#[test]
fn a_rule_that_fails_is_marked_at_its_row() {
    let svg = drawn(&loaded(&a_with("[flow 4 [u]]", "")));
    let marked = "<text class=\"wrong\"";
    assert_eq!(svg.matches(marked).count(), 1);
    let line = svg.lines().find(|line| line.contains(marked)).unwrap();
    assert!(line.contains("[row 4 [bind 4 [sync 3] 5]]"), "{line}");
}

#[test]
fn the_grid_is_filled_where_a_row_is_reached() {
    let mut random = Random::new(91);
    let mut documents = vec![loaded(A), infer(&loaded(RELAY))];
    for rows in [30, 60, 160] {
        documents.push(wide_document(&mut random, Size { rows, names: 160 }));
    }
    for document in documents {
        let svg = grid("f", &document);
        stands_alone(&svg);
        let found = elements(&svg);
        let rows = document.rows.len();
        let side = found
            .iter()
            .filter(|(_, attributes)| attributes.contains("class=\"same\""));
        let side = side
            .map(|(_, attributes)| attributes.clone())
            .next()
            .unwrap();
        let side: usize = side
            .split_once("L")
            .unwrap()
            .1
            .split_once(',')
            .unwrap()
            .0
            .parse()
            .unwrap();
        let cell = side / rows;
        let mut shown = vec![vec![false; rows]; rows];
        // The first two are the key's.
        for (_, attributes) in found.iter().filter(|(name, _)| name == "rect").skip(3) {
            let [x, y, width] =
                ["x", "y", "width"].map(|name| number(attributes, name) as usize / cell);
            shown[y][x..x + width].fill(true);
        }
        let steps = steps(&document);
        for row in 0..rows {
            let reached = reached_from(&steps, steps[row].iter().copied());
            for (other, filled) in shown[row].iter().enumerate() {
                assert_eq!(*filled, reached.contains(&other), "{row} {other}");
            }
        }
        let filled = shown.iter().flatten().filter(|filled| **filled).count();
        assert!(svg.contains(&format!("{filled} of {} cells are filled", rows * rows)));
    }
}

#[test]
fn at_160_rows_nothing_stands_on_another_or_outside() {
    let mut random = Random::new(92);
    let size = Size {
        rows: 160,
        names: 160,
    };
    let mut documents = vec![
        full_document(&mut random),
        chain(160),
        wide_document(&mut random, size),
    ];
    documents.extend(nested(160).into_iter().map(|(_, document)| document));
    for document in documents {
        let document = infer(&document);
        let svg = drawn(&document);
        let found = elements(&svg);
        let (width, height) = (number(&found[0].1, "width"), number(&found[0].1, "height"));
        let rows: Vec<&String> = found
            .iter()
            .filter(|(_, attributes)| attributes.contains("class=\"row\""))
            .map(|(_, attributes)| attributes)
            .collect();
        assert_eq!(rows.len(), document.rows.len());
        for pair in rows.windows(2) {
            assert!(number(pair[1], "y") - number(pair[0], "y") >= 16.0);
        }
        let texts = found.iter().filter(|(name, _)| name == "text");
        for (_, attributes) in texts {
            assert!(number(attributes, "x") < width && number(attributes, "y") < height);
        }
        let svg = grid("f", &document);
        stands_alone(&svg);
        let size = svg.split_once("<g font-size=\"").unwrap().1;
        let size: usize = size.split_once('"').unwrap().0.parse().unwrap();
        assert!(size >= 9, "the numbers are {size} high");
    }
}

#[test]
fn file_names_are_escaped() {
    let document = loaded(A);
    for svg in [
        tree("a<b>&\"c'", &document, None),
        grid("a<b>&\"c'", &document),
    ] {
        elements(&svg);
        assert!(svg.contains("a&lt;b&gt;&amp;&quot;c&#39;"), "{svg}");
    }
}
