//! Issuers for a certificate that is made up already.

use crate::entry::{Entry, HELD};
use crate::plan::{self, Plan, Rectangle, AUTHORITY, ROOT};
use crate::plan::{MOST_LATITUDE, MOST_LONGITUDE, MOST_PERMISSIONS, MOST_RECTANGLES};
use crate::random::Random;

/// A held issuer that allows all that a plan has, often no more than that.
pub fn sound(plan: &Plan, random: &mut Random) -> Entry {
    let kind = random.pick(&[AUTHORITY, ROOT]);
    let (start, end) = around(plan, random);
    Entry {
        start,
        end,
        rectangles: region_around(plan, random),
        permissions: permissions_above(plan, random),
        ..Entry::of(&Plan::of_kind(kind, random), plan.issuer, HELD)
    }
}

/// Nothing, one, or something more.
fn more(random: &mut Random, most: i64) -> i64 {
    let some = random.between(0, most.clamp(0, 1_000_000));
    random.pick(&[0, 1, some]).min(most)
}

fn around(plan: &Plan, random: &mut Random) -> (u32, u64) {
    let (start, end) = plan.period.seconds();
    let start = start as i64 - more(random, start as i64);
    let end = end as i64 + more(random, (plan::LATEST_END - end) as i64);
    (start as u32, end as u64)
}

/// The plan's permissions in another order, each once, and some others.
pub fn permissions_above(plan: &Plan, random: &mut Random) -> Vec<u32> {
    let mut permissions: Vec<u32> = plan.permissions.iter().map(|p| p.its_aid).collect();
    permissions.sort_unstable();
    permissions.dedup();
    let room = MOST_PERMISSIONS - permissions.len();
    for _ in 0..random.below(room + 1) {
        permissions.push(plan::its_aid(random));
    }
    random.shuffle(&mut permissions);
    permissions
}

/// Everywhere, or a rectangle around each of the plan's, in another order.
fn region_around(plan: &Plan, random: &mut Random) -> Vec<Rectangle> {
    let inner = plan.region.clone().unwrap_or_default();
    if inner.is_empty() || random.once_in(4) {
        return Vec::new();
    }
    let mut rectangles: Vec<Rectangle> = inner.iter().map(|r| larger(*r, random)).collect();
    if rectangles.len() < MOST_RECTANGLES && random.once_in(2) {
        rectangles.push(plan::rectangle(random));
    }
    random.shuffle(&mut rectangles);
    rectangles
}

fn larger([north, west, south, east]: Rectangle, random: &mut Random) -> Rectangle {
    let mut room = |edge: i32, most: i32| more(random, (most - edge.abs()).into()) as i32;
    // An edge on the far side of 0 has more room than is taken here.
    [
        north + room(north, MOST_LATITUDE),
        west - room(west, MOST_LONGITUDE),
        south - room(south, MOST_LATITUDE),
        east + room(east, MOST_LONGITUDE),
    ]
}
