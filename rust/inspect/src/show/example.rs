//! An example: hex text, and the same as an object.

use super::{head, Page};
use crate::arguments::Example;
use crate::text::hex;
use crate::verdict::{self, PASSED};

/// With what the library says of its octets.
pub fn example(asked: Example, octets: &[u8], text: String, remark: Option<&str>) -> Page {
    let number = match asked {
        Example::Root | Example::Authority | Example::Ticket => verdict::certificate(octets),
        Example::Store => verdict::store(octets),
        Example::MessageById | Example::MessageWithCertificate => verdict::message(octets),
    };
    let mut json = head("example");
    json.extend(verdict::object(number, PASSED));
    json.set("length", octets.len());
    json.set("octets", hex::digits(octets));
    json.set("remark", remark.map(str::to_string));
    Page {
        text,
        json,
        number,
        accepted: number == 0,
    }
}
