//! A strict reader of JSON (RFC 8259) whose numbers are whole. It shares no code
//! with the program's writer.

use std::iter::Peekable;
use std::str::Chars;

#[derive(Clone, Debug, PartialEq)]
pub enum Json {
    Null,
    Bool(bool),
    Number(i128),
    Text(String),
    Array(Vec<Json>),
    Object(Vec<(String, Json)>),
}

impl Json {
    /// The value below these keys, one in the other; panics if there is none.
    pub fn at(&self, keys: &str) -> &Json {
        keys.split('.').fold(self, |value, key| {
            let Json::Object(pairs) = value else {
                panic!("no object that has {keys}: {value:?}")
            };
            let found = pairs.iter().find(|(name, _)| name == key);
            &found.unwrap_or_else(|| panic!("no {keys}: {self:?}")).1
        })
    }

    /// Whether it is an object that has this key.
    pub fn has(&self, key: &str) -> bool {
        matches!(self, Json::Object(pairs) if pairs.iter().any(|(name, _)| name == key))
    }

    pub fn number(&self, keys: &str) -> i128 {
        match self.at(keys) {
            Json::Number(number) => *number,
            other => panic!("{keys} is no number: {other:?}"),
        }
    }

    pub fn text(&self, keys: &str) -> &str {
        match self.at(keys) {
            Json::Text(text) => text,
            other => panic!("{keys} is no string: {other:?}"),
        }
    }

    pub fn array(&self, keys: &str) -> &[Json] {
        match self.at(keys) {
            Json::Array(values) => values,
            other => panic!("{keys} is no array: {other:?}"),
        }
    }
}

/// One value and nothing behind it.
pub fn read(text: &str) -> Json {
    let mut rest = text.chars().peekable();
    let value = value(&mut rest);
    assert_eq!(rest.next(), None, "behind the value in {text}");
    value
}

type Rest<'a> = Peekable<Chars<'a>>;

fn value(rest: &mut Rest) -> Json {
    match rest.peek() {
        Some('{') => object(rest),
        Some('[') => Json::Array(list(rest, '[', ']', value)),
        Some('"') => Json::Text(string(rest)),
        Some('-' | '0'..='9') => number(rest),
        _ => word(rest),
    }
}

fn object(rest: &mut Rest) -> Json {
    let pairs = list(rest, '{', '}', |rest| {
        let key = string(rest);
        expect(rest, ':');
        (key, value(rest))
    });
    for (index, (key, _)) in pairs.iter().enumerate() {
        let twice = pairs[..index].iter().any(|(other, _)| other == key);
        assert!(!twice, "{key} stands twice");
    }
    Json::Object(pairs)
}

fn list<T>(rest: &mut Rest, open: char, close: char, item: fn(&mut Rest) -> T) -> Vec<T> {
    expect(rest, open);
    let mut items = Vec::new();
    while rest.peek() != Some(&close) {
        if !items.is_empty() {
            expect(rest, ',');
        }
        items.push(item(rest));
    }
    expect(rest, close);
    items
}

fn string(rest: &mut Rest) -> String {
    expect(rest, '"');
    let mut text = String::new();
    loop {
        match rest.next().expect("the end of a string") {
            '"' => return text,
            '\\' => text.push(escaped(rest)),
            '\0'..='\x1f' => panic!("a control character in a string"),
            character => text.push(character),
        }
    }
}

/// Of the escapes, those that the program writes.
fn escaped(rest: &mut Rest) -> char {
    match rest.next() {
        Some(character @ ('"' | '\\')) => character,
        Some('u') => {
            let digits: String = rest.take(4).collect();
            let code = u32::from_str_radix(&digits, 16).expect("four hex digits");
            char::from_u32(code).expect("a character")
        }
        other => panic!("no escape: {other:?}"),
    }
}

fn number(rest: &mut Rest) -> Json {
    let mut digits = String::new();
    while let Some(character) = rest.next_if(|c| *c == '-' || c.is_ascii_digit()) {
        digits.push(character);
    }
    let number: i128 = digits.parse().expect("a whole number");
    assert_eq!(number.to_string(), digits, "zeros in front");
    Json::Number(number)
}

fn word(rest: &mut Rest) -> Json {
    let mut word = String::new();
    while let Some(letter) = rest.next_if(char::is_ascii_lowercase) {
        word.push(letter);
    }
    match &word[..] {
        "null" => Json::Null,
        "true" => Json::Bool(true),
        "false" => Json::Bool(false),
        _ => panic!("no value: {word}"),
    }
}

fn expect(rest: &mut Rest, character: char) {
    assert_eq!(rest.next(), Some(character));
}
