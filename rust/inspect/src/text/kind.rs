//! Kinds of certificates.

use nattveldi::Kind;

pub const TICKET: u8 = Kind::Ticket as u8;
const AUTHORITY: u8 = Kind::Authority as u8;
pub const ROOT: u8 = Kind::Root as u8;

/// The project's word.
pub fn word(kind: u8) -> &'static str {
    match kind {
        TICKET => "ticket",
        AUTHORITY => "authority",
        ROOT => "root",
        _ => "no kind that is read",
    }
}

/// SubjectType (001, clause 6.3).
pub fn standard(kind: u8) -> &'static str {
    match kind {
        0 => "enrollment_credential",
        1 => "authorization_ticket",
        2 => "authorization_authority",
        3 => "enrollment_authority",
        4 => "root_ca",
        5 => "crl_signer",
        _ => "not in the standard",
    }
}
