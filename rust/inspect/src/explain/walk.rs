//! The walk from a certificate upward (document 01, "How a chain is walked").

use nattveldi::Refusal::{ChainTooLong, OutsidePeriod, OutsidePlace, Withdrawn};

use super::issue::{issued_by, region, stored};
use super::steps::Steps;
use crate::store::{scope, Record, Slots, WITHDRAWN};
use crate::text::kind::ROOT;
use crate::text::{degrees, time};

/// The most certificates of a chain, the root among them.
const LONGEST_CHAIN: usize = 8;

/// When and where a chain is walked.
pub struct Circumstances {
    pub second: u64,
    /// `None` makes no position test: whether a certificate stands.
    pub position: Option<(i32, i32)>,
    /// An id that is counted as withdrawn too.
    pub withdrawn: Option<[u8; 8]>,
}

pub fn walk(
    steps: &mut Steps,
    slots: &Slots,
    from: &Record,
    circumstances: &Circumstances,
) -> Result<(), u8> {
    let mut subject = from;
    for count in 1.. {
        steps.note(format!("certificate {count}, {}", subject.title()));
        own_tests(steps, subject, circumstances)?;
        if subject.kind == ROOT {
            break;
        }
        let text = format!("it is not a root, and not number {LONGEST_CHAIN} of the chain");
        steps.test(ChainTooLong, count < LONGEST_CHAIN, text)?;
        let issuer = stored(steps, slots, "its issuer", &subject.issuer)?;
        issued_by(steps, subject, issuer)?;
        subject = issuer;
    }
    steps.note("it is a root: the walk ends here");
    Ok(())
}

fn own_tests(steps: &mut Steps, subject: &Record, c: &Circumstances) -> Result<(), u8> {
    let is_withdrawn = subject.state == WITHDRAWN || c.withdrawn == Some(subject.id);
    steps.test(Withdrawn, !is_withdrawn, "it is not withdrawn")?;
    let (start, end) = (subject.start, subject.end);
    let text = format!(
        "second {} ({} UTC) is in its period, {start} up to before {end}",
        c.second,
        time::date(c.second)
    );
    steps.test(OutsidePeriod, (start..end).contains(&c.second), text)?;
    if let Some((latitude, longitude)) = c.position {
        let inside = scope::holds_place(&subject.rectangles, latitude, longitude);
        let place = degrees::place(latitude, longitude);
        let text = format!("{place} is in its region, {}", region(subject));
        steps.test(OutsidePlace, inside, text)?;
    }
    Ok(())
}
