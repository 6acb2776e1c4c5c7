//! The keys that docs/INSPECT-JSON.md gives, and whether an object has them.

use std::collections::{BTreeMap, BTreeSet};
use std::path::Path;

use super::json::Json;

/// The heading of the keys that every command has.
const COMMON: &str = "Every command";

/// Each table by its heading: keys and their types.
pub struct Keys {
    tables: BTreeMap<String, Vec<(String, String)>>,
    /// The commands, whose tables go on from the common one.
    commands: BTreeSet<String>,
    /// Keys that had a value other than null, as `table.key`.
    met: BTreeSet<String>,
}

impl Keys {
    pub fn documented() -> Keys {
        let path = Path::new(env!("CARGO_MANIFEST_DIR")).join("../../docs/INSPECT-JSON.md");
        let text = std::fs::read_to_string(path).expect("the document");
        let mut keys = Keys {
            tables: BTreeMap::new(),
            commands: BTreeSet::new(),
            met: BTreeSet::new(),
        };
        let mut headings = Vec::new();
        for line in text.lines() {
            if let Some(heading) = line.strip_prefix("#") {
                headings = keys.headings(heading.trim_start_matches('#').trim());
            } else if let Some(row) = line.strip_prefix("| `") {
                let cells: Vec<&str> = row.split('|').map(str::trim).collect();
                let [key, kind, ..] = cells[..] else {
                    panic!("no key and type: {line}")
                };
                let key = key.trim_end_matches('`');
                for heading in &headings {
                    let table = keys.tables.entry(heading.to_string()).or_default();
                    table.push((key.to_string(), kind.to_string()));
                }
            }
        }
        keys
    }

    /// The tables that a heading is of. A command stands between backticks, and
    /// some have their table in common.
    fn headings(&mut self, heading: &str) -> Vec<String> {
        if !heading.starts_with('`') || heading.contains(' ') && !heading.contains("` and `") {
            return vec![heading.to_string()];
        }
        let names = heading.split(" and ").map(|name| name.trim_matches('`'));
        let names: Vec<String> = names.map(str::to_string).collect();
        self.commands.extend(names.iter().cloned());
        names
    }

    /// The keys of a table and their types.
    fn of(&self, table: &str) -> Vec<(String, String)> {
        let own = self.tables.get(table);
        let own = own.unwrap_or_else(|| panic!("no table {table}"));
        let common = self.commands.contains(table).then(|| &self.tables[COMMON]);
        common.into_iter().flatten().chain(own).cloned().collect()
    }

    pub fn commands(&self) -> Vec<&str> {
        self.commands.iter().map(String::as_str).collect()
    }

    /// Fails unless an object has the keys of its command's table and no other,
    /// with values of their types.
    pub fn check(&mut self, json: &Json) {
        let table = match json.has("results") {
            true => "several",
            false => json.text("command"),
        };
        let fault = self.fault(table, json);
        assert_eq!(fault, None);
    }

    /// Why a value is not of a type.
    fn fault(&mut self, kind: &str, json: &Json) -> Option<String> {
        if let Some((first, other)) = kind.split_once(" or ") {
            let fault = self.fault(first, json)?;
            return self
                .fault(other, json)
                .map(|other| format!("{fault}; {other}"));
        }
        if let Some(kind) = kind.strip_prefix("array of ") {
            let Json::Array(values) = json else {
                return Some(format!("{json:?} is no array of {kind}"));
            };
            return values.iter().find_map(|value| self.fault(kind, value));
        }
        let is_hex = |text: &str| {
            let digit = |c: char| c.is_ascii_digit() || ('a'..='f').contains(&c);
            text.len().is_multiple_of(2) && text.chars().all(digit)
        };
        let fits = match (kind, json) {
            ("null" | "value", Json::Null) => true,
            ("number" | "value", Json::Number(_)) => true,
            ("boolean", Json::Bool(_)) => true,
            ("words" | "name", Json::Text(_)) => true,
            ("hex" | "value", Json::Text(text)) => is_hex(text),
            ("value", Json::Array(_)) => return self.fault("array of number", json),
            ("null" | "number" | "value" | "boolean" | "words" | "name" | "hex", _) => false,
            ("result", _) => return self.fault("certificate or message or unreadable", json),
            (table, _) => return self.table_fault(table, json),
        };
        (!fits).then(|| format!("{json:?} is no {kind}"))
    }

    fn table_fault(&mut self, table: &str, json: &Json) -> Option<String> {
        let Json::Object(pairs) = json else {
            return Some(format!("{json:?} is no {table}"));
        };
        let wanted = self.of(table);
        let keys = |keys: &mut dyn Iterator<Item = &String>| -> BTreeSet<String> {
            keys.cloned().collect()
        };
        let documented = keys(&mut wanted.iter().map(|(key, _)| key));
        let given = keys(&mut pairs.iter().map(|(key, _)| key));
        let apart: Vec<&String> = documented.symmetric_difference(&given).collect();
        if !apart.is_empty() {
            return Some(format!("{table}: {apart:?} stand on one side alone"));
        }
        wanted.iter().find_map(|(key, kind)| {
            let value = json.at(key);
            if *value != Json::Null {
                self.met.insert(format!("{table}.{key}"));
            }
            let fault = self.fault(kind, value)?;
            Some(format!("{table}.{key}: {fault}"))
        })
    }

    /// Keys of the document that had no value in anything that was checked.
    pub fn unmet(&self) -> Vec<String> {
        let tables = self.tables.keys().filter(|table| *table != COMMON);
        let keys = tables.flat_map(|table| {
            let keys = self.of(table).into_iter();
            keys.map(move |(key, _)| format!("{table}.{key}"))
        });
        let types = |key: &String| key.starts_with("Types.");
        keys.filter(|key| !types(key) && !self.met.contains(key))
            .collect()
    }
}
