//! validity_restrictions (001, clauses 4.2.20 to 4.2.23, 6.7 and 6.8).

use super::cursor::{fault, Cursor};
use super::number::{MALFORMED, UNSUPPORTED};
use super::points::{nothing_lacking, Lacking};
use super::Fault;
use crate::fact::Fact;

const TYPE: &str = "validity_restriction.type";
const MOST_RECTANGLES: usize = 4;

impl Cursor<'_> {
    /// The vector, and what it lacks; `lacking` is what the one before lacked.
    pub fn restrictions(&mut self, lacking: Option<Lacking>) -> Result<Option<Lacking>, Fault> {
        let end = self.length("validity_restrictions.length")?;
        nothing_lacking(lacking)?;
        let outer = self.enter(end);
        let has_period = self.period()?;
        if self.element(TYPE, 3, "region")? {
            self.inside(Cursor::region)?;
        }
        self.no_stray(TYPE, &[0, 1, 2, 3])?;
        self.leave(outer);
        let what = "time_end (0), time_start_and_end (1) or time_start_and_duration (2)";
        Ok((!has_period).then_some(Lacking { what, end }))
    }

    /// One of the three forms; whether there is one.
    fn period(&mut self) -> Result<bool, Fault> {
        let (start, end) = if self.element(TYPE, 0, "time_end")? {
            (0, self.inside(|c| c.time32("end_validity"))?.into())
        } else if self.element(TYPE, 1, "time_start_and_end")? {
            let start = self.inside(|c| c.time32("start_validity"))?;
            let end = self.inside(|c| c.time32("end_validity"))?;
            (start.into(), end.into())
        } else if self.element(TYPE, 2, "time_start_and_duration")? {
            let start = u64::from(self.inside(|c| c.time32("start_validity"))?);
            (start, start + self.inside(Cursor::duration)?)
        } else {
            return Ok(false);
        };
        let reason = format!("the period starts at {start} and ends at {end}: it holds no second");
        self.need(start < end, MALFORMED, &reason)?;
        Ok(true)
    }

    fn region(&mut self) -> Result<(), Fault> {
        let octet = self.octet("region_type")?;
        self.describe(Fact::spelled(octet, region_type(octet)));
        if octet == 0 {
            return Ok(());
        }
        let reason = format!("region_type {octet} is not read here");
        self.need(octet == 2, UNSUPPORTED, &reason)?;
        let end = self.length("rectangular_region.length")?;
        let empty = end == self.at();
        self.need(!empty, MALFORMED, "a region of no rectangles")?;
        let outer = self.enter(end);
        for count in 0.. {
            if !self.any_left() {
                break;
            }
            self.rectangle(count)?;
        }
        self.leave(outer);
        Ok(())
    }

    fn rectangle(&mut self, count: usize) -> Result<(), Fault> {
        if count == MOST_RECTANGLES {
            return Err(self.fifth());
        }
        let north = self.latitude("northwest.latitude")?;
        let west = self.longitude("northwest.longitude")?;
        let south = self.latitude("southeast.latitude")?;
        self.need(south < north, MALFORMED, "north does not exceed south")?;
        let east = self.longitude("southeast.longitude")?;
        self.need(west < east, MALFORMED, "east does not exceed west")
    }

    /// A fifth rectangle counts at its own first octet: cut if its first field
    /// is cut there, else unsupported.
    fn fifth(&self) -> Fault {
        if self.left() < 4 {
            return self.cut("northwest.latitude", 4);
        }
        fault(UNSUPPORTED, self.at(), "a fifth rectangle")
    }
}

/// RegionType.
fn region_type(octet: u8) -> &'static str {
    match octet {
        0 => "none",
        1 => "circle",
        2 => "rectangle",
        3 => "polygon",
        4 => "id",
        _ => "not in the standard",
    }
}
