//! A reader that walks a container of the caller's input, field by field.

use crate::constants::{CUT, UNSUPPORTED};

/// A run of octets of the caller's input.
#[derive(Clone, Copy, Debug, PartialEq, Eq, Default)]
pub struct Part {
    pub start: usize,
    pub length: usize,
}

impl Part {
    pub(crate) const EMPTY: Part = Part {
        start: 0,
        length: 0,
    };

    /// The offset just behind the last octet.
    pub(crate) fn end(self) -> usize {
        self.start + self.length
    }
}

/// A position in a container. Reading in the order of the octets finds the earliest fault first.
#[derive(Clone, Copy)]
pub(crate) struct Reader<'a> {
    /// The caller's input up to the container's end, so that positions are the caller's.
    octets: &'a [u8],
    /// At most `octets.len()`.
    position: usize,
}

impl<'a> Reader<'a> {
    /// The container is all of `octets`.
    pub(crate) fn new(octets: &'a [u8]) -> Self {
        Reader {
            octets,
            position: 0,
        }
    }

    pub(crate) fn position(&self) -> usize {
        self.position
    }

    pub(crate) fn remaining(&self) -> usize {
        self.octets.len() - self.position
    }

    pub(crate) fn is_at_end(&self) -> bool {
        self.remaining() == 0
    }

    /// What is left of the container.
    pub(crate) fn rest(&self) -> Part {
        Part {
            start: self.position,
            length: self.remaining(),
        }
    }

    /// The octets from `start` up to here.
    pub(crate) fn since(&self, start: usize) -> Part {
        Part {
            start,
            length: self.position - start,
        }
    }

    /// The next `N` octets, without passing them.
    #[inline]
    fn peek<const N: usize>(&self) -> Result<[u8; N], u8> {
        match self.octets[self.position..].first_chunk::<N>() {
            Some(field) => Ok(*field),
            None => Err(CUT),
        }
    }

    #[inline]
    pub(crate) fn array<const N: usize>(&mut self) -> Result<[u8; N], u8> {
        let field = self.peek()?;
        self.position += N;
        Ok(field)
    }

    #[inline]
    pub(crate) fn peek_octet(&self) -> Result<u8, u8> {
        self.peek::<1>().map(|[octet]| octet)
    }

    #[inline]
    pub(crate) fn octet(&mut self) -> Result<u8, u8> {
        self.array::<1>().map(|[octet]| octet)
    }

    #[inline]
    pub(crate) fn u16(&mut self) -> Result<u16, u8> {
        self.array().map(u16::from_be_bytes)
    }

    #[inline]
    pub(crate) fn u32(&mut self) -> Result<u32, u8> {
        self.array().map(u32::from_be_bytes)
    }

    #[inline]
    pub(crate) fn u64(&mut self) -> Result<u64, u8> {
        self.array().map(u64::from_be_bytes)
    }

    #[inline]
    pub(crate) fn i32(&mut self) -> Result<i32, u8> {
        self.array().map(i32::from_be_bytes)
    }

    /// A version, type or algorithm octet; one that is not named for this place is unsupported.
    #[inline]
    pub(crate) fn one_of(&mut self, named: &[u8]) -> Result<u8, u8> {
        let octet = self.octet()?;
        if named.contains(&octet) {
            Ok(octet)
        } else {
            Err(UNSUPPORTED)
        }
    }

    /// A field of `length` octets.
    #[inline]
    pub(crate) fn run(&mut self, length: usize) -> Result<Part, u8> {
        self.container(length).map(|field| field.rest())
    }

    /// The next `length` octets as a container of their own, which this reader passes.
    #[inline]
    pub(crate) fn container(&mut self, length: usize) -> Result<Reader<'a>, u8> {
        if length > self.remaining() {
            return Err(CUT);
        }
        let start = self.position;
        self.position += length;
        Ok(Reader {
            octets: &self.octets[..self.position],
            position: start,
        })
    }
}
