//! The fields of a certificate or message with their offsets, and its fault.

use super::Lines;
use crate::json::{Object, Value};
use crate::reading::{Fault, Field, Reading};
use crate::verdict;

const INDENT: usize = 2;
const NAME_WIDTH: usize = 44;

impl Lines {
    /// The octet of the first fault and the fields before it, if this tool's
    /// reading arrives at the library's number; else only that it does not. The
    /// same as an object.
    pub fn reading<T>(&mut self, reading: &Reading<T>, library: u8) -> Object {
        let number = reading.number();
        let own = verdict::own(library, number);
        if let Some(unfit) = verdict::unfit("this tool's own reading", library, number) {
            self.label("layout", &unfit);
            self.label("", "No fields and no octet offset are given.");
            let own = own.with("fault", Value::Null);
            return own.with("fields", Value::Null);
        }
        let fault = reading.outcome.as_ref().err();
        let fault = fault.map(|fault| self.fault(fault));
        let own = own.with("fault", fault);
        own.with("fields", self.fields(&reading.fields))
    }

    fn fault(&mut self, fault: &Fault) -> Object {
        let place = format!("at octet {}: {}", fault.offset, fault.reason);
        self.label("fault", &place);
        let number = fault.number;
        let backed = format!(
            "(place and reason: this tool's own reading, which arrives at {number} as the library does)"
        );
        self.label("", &backed);
        let object = Object::new().with("offset", fault.offset);
        object.with("reason", &fault.reason[..])
    }

    fn fields(&mut self, fields: &[Field]) -> Vec<Object> {
        self.plain("");
        self.plain("offset length  field");
        fields.iter().map(|field| self.field(field)).collect()
    }

    fn field(&mut self, field: &Field) -> Object {
        let (offset, length, value) = (field.offset, field.length, &field.value);
        let indent = INDENT * field.depth;
        let name = format!("{:indent$}{}", "", field.name);
        let line = format!(
            "{offset:>6} {length:>6}  {name:<NAME_WIDTH$} {}",
            value.words
        );
        self.plain(line.trim_end());
        Object::new()
            .with("offset", offset)
            .with("length", length)
            .with("depth", field.depth)
            .with("name", field.name)
            .with("value", value.value.clone())
            .with("words", &value.words[..])
    }
}

#[cfg(test)]
mod tests {
    use super::*;
    use crate::reading;

    /// The text, and the object.
    fn shown(library: u8) -> (String, String) {
        let mut lines = Lines::about("certificate", &[]);
        let own = lines.reading(&reading::certificate(&[2, 0, 3]), library);
        (lines.text, own.to_string())
    }

    #[test]
    fn a_fault_that_fits() {
        let (text, json) = shown(6);
        let fault = "subject_type 3 is not read here";
        assert!(text.contains(&format!("at octet 2: {fault}")), "{text}");
        assert!(text.contains("subject_info.subject_type"));
        let start = r#"{"number":6,"fits":true,"fault":{"offset":2,"reason":""#;
        assert!(json.starts_with(&format!("{start}{fault}")), "{json}");
        assert!(json.contains("subject_info.subject_type"));
    }

    /// Neither an offset nor a field is given.
    #[test]
    fn a_fault_that_does_not_fit() {
        for library in [0, 4, 5] {
            let (text, json) = shown(library);
            let said = format!("own reading arrives at 6, the library at {library}.");
            assert!(text.contains(&said), "{text}");
            assert!(
                !text.contains("at octet") && !text.contains("subject"),
                "{text}"
            );
            let nothing = r#"{"number":6,"fits":false,"fault":null,"fields":null}"#;
            assert_eq!(json, nothing);
        }
    }
}
