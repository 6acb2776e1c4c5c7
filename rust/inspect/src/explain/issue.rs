//! Whether a certificate is stored (7), and whether it is issued within the
//! limits of its issuer (10, 11, 12 and 13).

use nattveldi::Refusal::{NotPermitted, OutsidePeriod, OutsidePlace, Unknown, WrongKind};

use super::steps::Steps;
use crate::store::{scope, Record, Slots};
use crate::text::kind::TICKET;
use crate::text::{degrees, hex, its_aid};

/// The certificate that is stored under an id; `whose` it is stands before it.
pub fn stored<'a>(
    steps: &mut Steps,
    slots: &'a Slots,
    whose: &str,
    id: &[u8; 8],
) -> Result<&'a Record, u8> {
    let found = slots.find(id);
    let place = found.map_or("it is not".to_string(), |(slot, _)| format!("slot {slot}"));
    let text = format!("{whose} {} is stored: {place}", hex::text(id));
    steps.test(Unknown, found.is_some(), text)?;
    found.map(|(_, record)| record).ok_or(Unknown.number())
}

pub fn issued_by(steps: &mut Steps, subject: &Record, issuer: &Record) -> Result<(), u8> {
    steps.test(
        WrongKind,
        issuer.kind != TICKET,
        "the issuer is not a ticket",
    )?;
    permissions(steps, subject, issuer)?;
    let inside = subject.start >= issuer.start && subject.end <= issuer.end;
    let text = format!(
        "its period, {} to {}, lies inside the issuer's, {} to {}",
        subject.start, subject.end, issuer.start, issuer.end
    );
    steps.test(OutsidePeriod, inside, text)?;
    let inside = scope::lies_inside(&subject.rectangles, &issuer.rectangles);
    let text = format!(
        "its region, {}, lies inside the issuer's, {}",
        region(subject),
        region(issuer)
    );
    steps.test(OutsidePlace, inside, text)
}

fn permissions(steps: &mut Steps, subject: &Record, issuer: &Record) -> Result<(), u8> {
    let absent = scope::absent(&subject.permissions, &issuer.permissions);
    let lacking = absent.map_or(String::new(), |aid| format!("; ITS-AID {aid} is absent"));
    let text = format!(
        "its permissions, {}, are among the issuer's, {}{lacking}",
        its_aid::list(&subject.permissions),
        its_aid::list(&issuer.permissions)
    );
    steps.test(NotPermitted, absent.is_none(), text)
}

/// Its rectangles in degrees, or everywhere.
pub fn region(record: &Record) -> String {
    if record.rectangles.is_empty() {
        return "everywhere".to_string();
    }
    let words = record.rectangles.iter().map(|r| {
        let [north, west] = [r.north, r.west].map(degrees::plain);
        let [south, east] = [r.south, r.east].map(degrees::plain);
        format!("[{south} to {north}, {west} to {east}]")
    });
    words.collect::<Vec<_>>().join(" ")
}
