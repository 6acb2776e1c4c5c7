//! JSON (RFC 8259), as far as it is written here: one line, keys in the order in
//! which they were set, and numbers that are whole and exact, also those that a
//! reader with 64-bit floating point would round.

use std::fmt::{self, Display, Formatter, Write};

#[derive(Clone, Debug, PartialEq, Eq)]
pub enum Value {
    Null,
    Bool(bool),
    /// Wide enough for every number of 64 bits, with or without a sign.
    Number(i128),
    Text(String),
    Array(Vec<Value>),
    Object(Object),
}

#[derive(Clone, Debug, Default, PartialEq, Eq)]
pub struct Object(Vec<(&'static str, Value)>);

impl Object {
    pub fn new() -> Object {
        Object::default()
    }

    /// Sets a key, for the chain of a whole object.
    pub fn with(mut self, key: &'static str, value: impl Into<Value>) -> Object {
        self.set(key, value);
        self
    }

    /// Sets a key, which has no value yet.
    pub fn set(&mut self, key: &'static str, value: impl Into<Value>) {
        debug_assert!(self.0.iter().all(|(set, _)| *set != key), "{key} twice");
        self.0.push((key, value.into()));
    }

    /// Sets the keys of another object too.
    pub fn extend(&mut self, other: Object) {
        for (key, value) in other.0 {
            self.set(key, value);
        }
    }
}

impl Display for Value {
    fn fmt(&self, f: &mut Formatter) -> fmt::Result {
        match self {
            Value::Null => f.write_str("null"),
            Value::Bool(value) => write!(f, "{value}"),
            Value::Number(value) => write!(f, "{value}"),
            Value::Text(text) => string(f, text),
            Value::Array(values) => {
                f.write_char('[')?;
                for (index, value) in values.iter().enumerate() {
                    separated(f, index)?;
                    write!(f, "{value}")?;
                }
                f.write_char(']')
            }
            Value::Object(object) => write!(f, "{object}"),
        }
    }
}

impl Display for Object {
    fn fmt(&self, f: &mut Formatter) -> fmt::Result {
        f.write_char('{')?;
        for (index, (key, value)) in self.0.iter().enumerate() {
            separated(f, index)?;
            string(f, key)?;
            write!(f, ":{value}")?;
        }
        f.write_char('}')
    }
}

fn separated(f: &mut Formatter, index: usize) -> fmt::Result {
    if index == 0 {
        return Ok(());
    }
    f.write_char(',')
}

/// What section 7 of RFC 8259 wants escaped is escaped, and nothing else.
fn string(f: &mut Formatter, text: &str) -> fmt::Result {
    f.write_char('"')?;
    for character in text.chars() {
        match character {
            '"' | '\\' => write!(f, "\\{character}")?,
            '\0'..='\x1f' => write!(f, "\\u{:04x}", u32::from(character))?,
            _ => f.write_char(character)?,
        }
    }
    f.write_char('"')
}

impl From<bool> for Value {
    fn from(value: bool) -> Value {
        Value::Bool(value)
    }
}

impl From<usize> for Value {
    fn from(value: usize) -> Value {
        Value::Number(value as i128)
    }
}

impl From<&str> for Value {
    fn from(text: &str) -> Value {
        Value::Text(text.to_string())
    }
}

impl From<String> for Value {
    fn from(text: String) -> Value {
        Value::Text(text)
    }
}

impl From<Object> for Value {
    fn from(object: Object) -> Value {
        Value::Object(object)
    }
}

impl<T: Into<Value>> From<Option<T>> for Value {
    fn from(value: Option<T>) -> Value {
        value.map_or(Value::Null, Into::into)
    }
}

impl<T: Into<Value>> From<Vec<T>> for Value {
    fn from(values: Vec<T>) -> Value {
        Value::Array(values.into_iter().map(Into::into).collect())
    }
}

/// Numbers of a fixed width.
macro_rules! numbers {
    ($($number:ty),*) => {$(
        impl From<$number> for Value {
            fn from(value: $number) -> Value {
                Value::Number(value.into())
            }
        }
    )*};
}

numbers!(u8, u32, u64, i32);

#[cfg(test)]
mod tests {
    use super::*;

    fn written(value: impl Into<Value>) -> String {
        value.into().to_string()
    }

    #[test]
    fn numbers_are_exact() {
        assert_eq!(written(u64::MAX), "18446744073709551615");
        assert_eq!(written((1_u64 << 53) + 1), "9007199254740993");
        assert_eq!(written(i32::MIN), "-2147483648");
        assert_eq!(written(0_u8), "0");
    }

    /// The escapes of RFC 8259: quotation mark, reverse solidus, U+0000 to U+001F.
    #[test]
    fn strings_are_escaped() {
        assert_eq!(written("a \"b\" \\ /"), r#""a \"b\" \\ /""#);
        assert_eq!(written("\0\n\x1f"), r#""\u0000\u000a\u001f""#);
        assert_eq!(written("\x7f \u{fffd} å"), "\"\x7f \u{fffd} å\"");
        assert_eq!(written(""), "\"\"");
    }

    #[test]
    fn structures() {
        assert_eq!(written(Object::new()), "{}");
        assert_eq!(written(Vec::<u8>::new()), "[]");
        let object = Object::new()
            .with("b", vec![1_u8, 2])
            .with("a", None::<u8>)
            .with("c", Object::new().with("d", true));
        assert_eq!(written(object), r#"{"b":[1,2],"a":null,"c":{"d":true}}"#);
    }
}
