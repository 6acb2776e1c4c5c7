//! Reasons to refuse a request that would else be accepted. Some of them do
//! not lead to a refusal each time, or not by each operation.

use crate::breaks::Break;
use crate::broken_layouts;
use crate::broken_octets;
use crate::broken_stores;
use crate::changes::{Change, Operation};
use crate::draft::Draft;
use crate::entry::{HELD, WITHDRAWN};
use crate::generate;
use crate::plan::{self, Permission, Plan, Rectangle, AUTHORITY, ROOT, TICKET};
use crate::plan::{MOST_LATITUDE, MOST_LONGITUDE};
use crate::random::Random;
use crate::scene::Scene;
use crate::slot::SLOTS;

/// Every break and its name.
pub const ALL: [Break<Scene>; 18] = [
    ("a kind that the operation does not take", wrong_kind),
    ("the id is held", |scene, _| scene.copy = Some(HELD)),
    ("the id is withdrawn", |scene, _| {
        scene.copy = Some(WITHDRAWN)
    }),
    ("no issuer", |scene, _| scene.issuer = None),
    ("an issuer under almost the same id", almost_the_issuer),
    ("issuer zero", issuer_zero),
    ("a withdrawn issuer", withdrawn_issuer),
    ("a ticket for an issuer", ticket_for_issuer),
    ("a permission that the issuer lacks", lacking_permission),
    ("a period outside by one", outside_period),
    ("a region outside by one", outside_region),
    ("a region across two of the issuer's", across_two),
    ("everywhere below a bounded issuer", everywhere),
    ("a bad verdict", bad_verdict),
    ("a full store", |scene, _| scene.filled = SLOTS),
    ("a damaged certificate", |scene, _| {
        scene.octet_breaks.push(damaged)
    }),
    ("a damaged store", |scene, _| {
        scene
            .octet_breaks
            .push(|_, change, random| broken_stores::damage(&mut change.store, random))
    }),
    ("a store of another length", |scene, _| {
        scene
            .octet_breaks
            .push(|_, change, random| broken_stores::resize(&mut change.store, random))
    }),
];

fn wrong_kind(scene: &mut Scene, random: &mut Random) {
    scene.plan.kind = match scene.operation {
        Operation::Install => random.pick(&[TICKET, AUTHORITY]),
        Operation::Admit => ROOT,
    };
}

/// One bit of the issuer's id is another one.
fn almost_the_issuer(scene: &mut Scene, random: &mut Random) {
    if let Some(issuer) = &mut scene.issuer {
        issuer.id[random.below(8)] ^= 1 << random.below(8);
    }
}

/// An issuer of which only empty slots have the id, or one that has it.
fn issuer_zero(scene: &mut Scene, random: &mut Random) {
    scene.plan.issuer = [0; 8];
    match &mut scene.issuer {
        Some(issuer) if random.once_in(2) => issuer.id = [0; 8],
        _ => scene.issuer = None,
    }
}

fn withdrawn_issuer(scene: &mut Scene, _: &mut Random) {
    if let Some(issuer) = &mut scene.issuer {
        issuer.state = WITHDRAWN;
    }
}

fn ticket_for_issuer(scene: &mut Scene, random: &mut Random) {
    if let Some(issuer) = &mut scene.issuer {
        issuer.kind = TICKET;
        issuer.issuer = random.pick(&[[0; 8], scene.plan.issuer]);
    }
}

fn lacking_permission(scene: &mut Scene, random: &mut Random) {
    let Some(issuer) = &mut scene.issuer else {
        return;
    };
    let permissions = &mut scene.plan.permissions;
    if permissions.is_empty() {
        permissions.push(Permission {
            its_aid: 36,
            ssp: Vec::new(),
        });
    }
    let at = random.below(permissions.len());
    let its_aid = permissions[at].its_aid;
    if random.once_in(2) {
        issuer.permissions.retain(|&other| other != its_aid);
    } else {
        permissions[at].its_aid = its_aid ^ random.pick(&[1, 1 << 14, 1 << 27]);
    }
}

/// The issuer starts a second later or ends a second earlier.
fn outside_period(scene: &mut Scene, random: &mut Random) {
    let Some(issuer) = &mut scene.issuer else {
        return;
    };
    let (start, end) = scene.plan.period.seconds();
    let later = start < u64::from(u32::MAX);
    if later && (end < 2 || random.once_in(2)) {
        issuer.start = start as u32 + 1;
        issuer.end = issuer.end.max(start + 2);
    } else {
        issuer.end = end - 1;
        issuer.start = issuer.start.min(u32::try_from(end - 2).unwrap_or(u32::MAX));
    }
}

/// The plan's region is the issuer's but for one edge, moved by one.
fn outside_region(scene: &mut Scene, random: &mut Random) {
    let Some(issuer) = &mut scene.issuer else {
        return;
    };
    let rectangles = bounded(&mut scene.plan, random);
    issuer.rectangles = rectangles.clone();
    let (which, edge) = (random.below(rectangles.len()), random.below(4));
    let inwards = if edge == 0 || edge == 3 { -1 } else { 1 };
    if random.once_in(2) {
        issuer.rectangles[which] = moved(rectangles[which], edge, inwards);
    } else {
        rectangles[which] = moved(rectangles[which], edge, -inwards);
    }
}

/// The plan's rectangles, made up if it has none.
fn bounded<'a>(plan: &'a mut Plan, random: &mut Random) -> &'a mut Vec<Rectangle> {
    let region = plan.region.get_or_insert_default();
    if region.is_empty() {
        region.push(plan::rectangle(random));
    }
    region
}

/// An edge moved, if the rectangle stays one.
pub fn moved(rectangle: Rectangle, edge: usize, by: i32) -> Rectangle {
    let mut new = rectangle;
    new[edge] += by;
    let [north, west, south, east] = new;
    let in_range = -MOST_LATITUDE <= south && north <= MOST_LATITUDE;
    let in_range = in_range && -MOST_LONGITUDE <= west && east <= MOST_LONGITUDE;
    if in_range && south < north && west < east {
        new
    } else {
        rectangle
    }
}

/// The issuer has two halves of the plan's only rectangle.
fn across_two(scene: &mut Scene, random: &mut Random) {
    let Some(issuer) = &mut scene.issuer else {
        return;
    };
    let rectangles = bounded(&mut scene.plan, random);
    rectangles.truncate(1);
    let [north, west, south, east] = rectangles[0];
    let middle = ((i64::from(north) + i64::from(south)).div_euclid(2)) as i32;
    if south < middle {
        issuer.rectangles = vec![[north, west, middle, east], [middle, west, south, east]];
    }
}

fn everywhere(scene: &mut Scene, random: &mut Random) {
    const WORLD: Rectangle = [
        MOST_LATITUDE,
        -MOST_LONGITUDE,
        -MOST_LATITUDE,
        MOST_LONGITUDE,
    ];
    scene.plan.region = random.pick(&[None, Some(())]).map(|()| Vec::new());
    if let Some(issuer) = &mut scene.issuer {
        let any = plan::rectangle(random);
        issuer.rectangles = vec![random.pick(&[WORLD, any])];
    }
}

fn bad_verdict(scene: &mut Scene, random: &mut Random) {
    let any = random.octet();
    scene.verdict = random.pick(&[0, 2, 255, any]);
}

/// Another certificate, or the same with a fault or with damaged octets.
pub fn damaged(plan: &Plan, change: &mut Change, random: &mut Random) {
    match random.below(8) {
        0 => change.certificate = generate::made(random).octets,
        1 => {
            let length = random.pick(&[1_024, 1_025, 2_000]);
            change.certificate.resize(length, 0);
        }
        2..=4 => {
            let (_, fault) = random.pick(&broken_layouts::ALL);
            change.certificate = fault(plan, random).octets();
        }
        _ => {
            let (_, damage) = random.pick(&broken_octets::ALL);
            change.certificate =
                broken_octets::apply(damage, Draft::of(plan).encode().wire, random);
        }
    }
}
