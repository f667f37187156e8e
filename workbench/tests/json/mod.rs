//! JSON as the tool prints it, read: a value to a line.

use std::collections::BTreeMap;

/// A value of JSON.
#[derive(Clone, Debug, PartialEq)]
pub enum Json {
    Null,
    Bool(bool),
    Number(usize),
    Text(String),
    List(Vec<Json>),
    Object(BTreeMap<String, Json>),
}

impl Json {
    /// Reads one value that is all of a line.
    pub fn read(line: &str) -> Json {
        let mut rest = line;
        let value = Json::value(&mut rest);
        assert_eq!(rest, "", "after {value:?}");
        value
    }

    fn take(rest: &mut &str, word: &str) -> bool {
        let after = rest.strip_prefix(word);
        *rest = after.unwrap_or(rest);
        after.is_some()
    }

    fn value(rest: &mut &str) -> Json {
        for (word, value) in [
            ("null", Json::Null),
            ("true", Json::Bool(true)),
            ("false", Json::Bool(false)),
        ] {
            if Json::take(rest, word) {
                return value;
            }
        }
        if Json::take(rest, "[") {
            return Json::List(Json::items(rest, "]", Json::value));
        }
        if Json::take(rest, "{") {
            let field = |rest: &mut &str| {
                let key = Json::string(rest);
                assert!(Json::take(rest, ": "), "{rest}");
                (key, Json::value(rest))
            };
            let fields = Json::items(rest, "}", field);
            let object: BTreeMap<_, _> = fields.iter().cloned().collect();
            assert_eq!(object.len(), fields.len(), "a field twice");
            return Json::Object(object);
        }
        if rest.starts_with('"') {
            return Json::Text(Json::string(rest));
        }
        let digits = rest.len() - rest.trim_start_matches(|c: char| c.is_ascii_digit()).len();
        let (number, after) = rest.split_at(digits);
        *rest = after;
        Json::Number(
            number
                .parse()
                .unwrap_or_else(|_| panic!("no value: {rest}")),
        )
    }

    fn items<T>(rest: &mut &str, end: &str, item: impl Fn(&mut &str) -> T) -> Vec<T> {
        let mut items = vec![];
        while !Json::take(rest, end) {
            assert!(items.is_empty() || Json::take(rest, ", "), "{rest}");
            items.push(item(rest));
        }
        items
    }

    fn string(rest: &mut &str) -> String {
        assert!(Json::take(rest, "\""), "{rest}");
        let mut text = String::new();
        loop {
            let mut characters = rest.chars();
            match characters.next().expect("the end of a string") {
                '"' => break,
                '\\' => match characters.next() {
                    Some(character @ ('"' | '\\')) => text.push(character),
                    Some('u') => {
                        let (digits, after) = characters.as_str().split_at(4);
                        let number = u32::from_str_radix(digits, 16).unwrap();
                        text.push(char::from_u32(number).unwrap());
                        characters = after.chars();
                    }
                    other => panic!("\\{other:?}"),
                },
                character => {
                    assert!(!character.is_control());
                    text.push(character);
                }
            }
            *rest = characters.as_str();
        }
        assert!(Json::take(rest, "\""));
        text
    }

    pub fn get(&self, key: &str) -> &Json {
        match self {
            Json::Object(fields) => fields
                .get(key)
                .unwrap_or_else(|| panic!("no {key}: {self:?}")),
            _ => panic!("no object: {self:?}"),
        }
    }

    pub fn text(&self, key: &str) -> &str {
        match self.get(key) {
            Json::Text(text) => text,
            other => panic!("{key} is {other:?}"),
        }
    }

    pub fn list(&self, key: &str) -> &[Json] {
        match self.get(key) {
            Json::List(items) => items,
            other => panic!("{key} is {other:?}"),
        }
    }
}

/// The values of some lines.
pub fn json_lines(shown: &str) -> Vec<Json> {
    shown.lines().map(Json::read).collect()
}
