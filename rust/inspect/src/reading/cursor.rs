//! A place in the octets, the end of the container there, and the fields so far.

use super::number::{CUT, MALFORMED, UNSUPPORTED};
use super::{Fault, Field, Reading};
use crate::fact::Fact;
use crate::text::count;

pub struct Cursor<'a> {
    octets: &'a [u8],
    at: usize,
    end: usize,
    depth: usize,
    fields: Vec<Field>,
}

/// The container that was left for an inner one.
pub struct Outer {
    end: usize,
}

impl<'a> Cursor<'a> {
    pub fn new(octets: &'a [u8]) -> Cursor<'a> {
        Cursor {
            octets,
            at: 0,
            end: octets.len(),
            depth: 0,
            fields: Vec::new(),
        }
    }

    pub fn at(&self) -> usize {
        self.at
    }

    /// Whether octets are left in the container.
    pub fn any_left(&self) -> bool {
        self.at < self.end
    }

    pub fn left(&self) -> usize {
        self.end - self.at
    }

    /// The next octet of the container, which is not passed.
    pub fn peek(&self) -> Option<u8> {
        self.any_left().then(|| self.octets[self.at])
    }

    pub fn end(&self) -> usize {
        self.end
    }

    /// A run of octets. One that passes the container's end is cut at its first
    /// octet.
    pub fn run(&mut self, name: &'static str, length: usize) -> Result<&'a [u8], Fault> {
        if length > self.left() {
            return Err(self.cut(name, length));
        }
        let octets = &self.octets[self.at..self.at + length];
        self.note(name, length, Fact::octets(octets));
        Ok(octets)
    }

    pub fn octet(&mut self, name: &'static str) -> Result<u8, Fault> {
        let octet = self.run(name, 1)?[0];
        self.describe(Fact::number(octet));
        Ok(octet)
    }

    /// Passes a field and keeps it.
    pub fn note(&mut self, name: &'static str, length: usize, value: Fact) {
        self.fields.push(Field {
            offset: self.at,
            length,
            depth: self.depth,
            name,
            value,
        });
        self.at += length;
    }

    /// Says what the last field means.
    pub fn describe(&mut self, value: Fact) {
        if let Some(field) = self.fields.last_mut() {
            field.value = value;
        }
    }

    /// A rule about the last field: a fault counts at its first octet.
    pub fn need(&self, kept: bool, number: u8, reason: &str) -> Result<(), Fault> {
        if kept {
            return Ok(());
        }
        let offset = self.fields.last().map_or(0, |field| field.offset);
        Err(fault(number, offset, reason))
    }

    /// An octet that must be this one. Any other is unsupported.
    pub fn exactly(&mut self, name: &'static str, value: u8, word: &str) -> Result<(), Fault> {
        let octet = self.octet(name)?;
        let reason = format!("{name} is {octet}, and only {value} is read here");
        self.need(octet == value, UNSUPPORTED, &reason)?;
        self.describe(Fact::spelled(octet, word));
        Ok(())
    }

    /// The type octet of an element, if it announces this type.
    pub fn element(&mut self, name: &'static str, value: u8, word: &str) -> Result<bool, Fault> {
        if self.peek() != Some(value) {
            return Ok(false);
        }
        self.exactly(name, value, word)?;
        Ok(true)
    }

    /// An element that is not expected where it stands: malformed if its type
    /// is named in document 01, else unsupported.
    pub fn no_stray(&mut self, name: &'static str, named: &[u8]) -> Result<(), Fault> {
        if !self.any_left() {
            return Ok(());
        }
        let octet = self.octet(name)?;
        if named.contains(&octet) {
            let reason = format!("{name} {octet} is out of order, repeated or barred here");
            return self.need(false, MALFORMED, &reason);
        }
        let reason = format!("{name} {octet} is not read here");
        self.need(false, UNSUPPORTED, &reason)
    }

    /// Octets left over are found at the container's end.
    pub fn nothing_left(&mut self, container: &str) -> Result<(), Fault> {
        if !self.any_left() {
            return Ok(());
        }
        let (first, count) = (self.at, self.left());
        let octets = Fact::octets(&self.octets[first..self.end]);
        self.note("octets left over", count, octets);
        let octets = count::octets(count);
        let reason =
            format!("{octets} left over from octet {first} on, found at the end of {container}");
        Err(fault(MALFORMED, self.end, &reason))
    }

    /// Goes into a container that ends there.
    pub fn enter(&mut self, end: usize) -> Outer {
        self.depth += 1;
        Outer {
            end: std::mem::replace(&mut self.end, end),
        }
    }

    pub fn leave(&mut self, outer: Outer) {
        self.depth -= 1;
        self.end = outer.end;
    }

    /// A structure without a container of its own.
    pub fn inside<T>(
        &mut self,
        read: impl FnOnce(&mut Self) -> Result<T, Fault>,
    ) -> Result<T, Fault> {
        self.depth += 1;
        let value = read(self)?;
        self.depth -= 1;
        Ok(value)
    }

    pub fn cut(&self, name: &str, length: usize) -> Fault {
        let (takes, left) = (count::octets(length), count::left(self.left()));
        let reason = format!("{name} takes {takes}, and {left} in what holds it");
        fault(CUT, self.at, &reason)
    }

    pub fn finish<T>(self, outcome: Result<T, Fault>) -> Reading<T> {
        Reading {
            fields: self.fields,
            outcome,
        }
    }
}

pub fn fault(number: u8, offset: usize, reason: &str) -> Fault {
    Fault {
        number,
        offset,
        reason: reason.to_string(),
    }
}
