//! subject_attributes (001, clauses 6.4, 6.5, 6.6 and 6.9).

use super::cursor::{fault, Cursor};
use super::number::{CUT, MALFORMED, UNSUPPORTED};
use super::points::Lacking;
use super::Fault;
use crate::fact::Fact;
use crate::text::kind::TICKET;

const TYPE: &str = "subject_attribute.type";
const MOST_PERMISSIONS: usize = 16;
const LONGEST_SSP: usize = 31;

impl Cursor<'_> {
    /// The vector, and what it lacks.
    pub fn attributes(&mut self, kind: u8) -> Result<Option<Lacking>, Fault> {
        let end = self.length("subject_attributes.length")?;
        let outer = self.enter(end);
        let has_key = self.element(TYPE, 0, "verification_key")?;
        if has_key {
            self.inside(Cursor::verification_key)?;
        }
        if self.element(TYPE, 1, "encryption_key")? {
            self.inside(Cursor::encryption_key)?;
        }
        if self.element(TYPE, 2, "assurance_level")? {
            self.inside(Cursor::assurance)?;
        }
        let has_permissions = self.permission_list(kind)?;
        self.no_stray(TYPE, &[0, 1, 2, 32, 33])?;
        self.leave(outer);
        let what = match (has_key, has_permissions) {
            (true, true) => return Ok(None),
            (false, _) => "verification_key (0)",
            (true, false) if kind == TICKET => "its_aid_ssp_list (33)",
            (true, false) => "its_aid_list (32)",
        };
        Ok(Some(Lacking { what, end }))
    }

    fn assurance(&mut self) -> Result<(), Fault> {
        let octet = self.octet("assurance_level")?;
        // Table 5: bits 7 to 5 the level, bits 1 and 0 the confidence.
        let (level, confidence) = (octet >> 5, octet & 3);
        let words = format!("level {level}, confidence {confidence}");
        self.describe(Fact::spelled(octet, &words));
        Ok(())
    }

    /// Whether the list of this kind is there.
    fn permission_list(&mut self, kind: u8) -> Result<bool, Fault> {
        let (octet, word) = match kind {
            TICKET => (33, "its_aid_ssp_list"),
            _ => (32, "its_aid_list"),
        };
        if !self.element(TYPE, octet, word)? {
            return Ok(false);
        }
        self.inside(|cursor| cursor.permissions(kind))?;
        Ok(true)
    }

    fn permissions(&mut self, kind: u8) -> Result<(), Fault> {
        let end = self.length(match kind {
            TICKET => "its_aid_ssp_list.length",
            _ => "its_aid_list.length",
        })?;
        let outer = self.enter(end);
        for count in 0.. {
            if !self.any_left() {
                break;
            }
            self.permission(kind, count)?;
        }
        self.leave(outer);
        Ok(())
    }

    fn permission(&mut self, kind: u8, count: usize) -> Result<(), Fault> {
        let offset = self.at();
        let its_aid = self.its_aid();
        if count == MOST_PERMISSIONS {
            return Err(seventeenth(its_aid.err(), offset));
        }
        its_aid?;
        if kind != TICKET {
            return Ok(());
        }
        let end = self.length("service_specific_permissions.length")?;
        let length = end - self.at();
        let reason = format!("an SSP of {length} octets, and at most {LONGEST_SSP} are allowed");
        self.need(length <= LONGEST_SSP, MALFORMED, &reason)?;
        if length > 0 {
            self.run("service_specific_permissions", length)?;
        }
        Ok(())
    }
}

/// A seventeenth permission counts at its own first octet: cut if its IntX is
/// cut there, else unsupported, also if that is otherwise faulty.
fn seventeenth(own: Option<Fault>, offset: usize) -> Fault {
    match own {
        Some(own) if own.number == CUT => own,
        _ => fault(UNSUPPORTED, offset, "a seventeenth permission"),
    }
}
