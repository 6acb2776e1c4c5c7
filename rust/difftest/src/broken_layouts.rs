//! Faults of a certificate's layout: rules broken while all lengths fit.

use crate::draft::{self, Draft, Element, Encoded, Item};
use crate::plan::{self, Period, Plan, Point, ROOT, TICKET};
use crate::random::Random;

type Fault = fn(&Plan, &mut Random) -> Encoded;

/// Every fault and its name.
pub const ALL: [(&str, Fault); 16] = [
    ("too many permissions", too_many_permissions),
    ("too many rectangles", too_many_rectangles),
    ("ragged rectangles", ragged_rectangles),
    ("an empty rectangle vector", empty_rectangles),
    ("a rectangle with two equal edges", flat_rectangle),
    ("elements in another order", other_order),
    ("an element repeated", repeated),
    ("an element that does not belong", foreign),
    ("a second period", second_period),
    ("a required element missing", missing),
    ("a required element missing, then the end", missing_at_end),
    ("a name over 32 octets", long_name),
    ("an SSP over 31 octets", long_ssp),
    ("a length or IntX that is not shortest", not_shortest),
    ("signer and kind that do not pair", wrong_pairing),
    ("a period that is empty", empty_period),
];

fn too_many_permissions(plan: &Plan, random: &mut Random) -> Encoded {
    let with_ssp = plan.kind == TICKET;
    let count = 16 + random.below(3);
    let mut entries = Vec::new();
    for i in 0..count {
        let its_aid = plan::its_aid(random);
        let ssp = random.octets(i % 3);
        entries.extend(draft::permission(its_aid, with_ssp.then_some(&ssp)));
    }
    // What comes last: nothing more, an IntX of another sort, or one that is cut.
    match random.below(5) {
        0 => entries.push(Item::IntX(5, 1)),
        1 => entries.push(Item::Run(vec![random.pick(&[0xf0, 0xff])])),
        2 => entries.push(Item::Run(vec![random.pick(&[0x80, 0xbf, 0xc0, 0xe0])])),
        3 => entries.push(Item::Run(vec![0xe0, 0x20])),
        _ => {}
    }
    let mut draft = Draft::of(plan);
    draft.attributes.pop();
    draft
        .attributes
        .push(draft::permission_list(with_ssp, entries));
    draft.encode()
}

fn too_many_rectangles(plan: &Plan, random: &mut Random) -> Encoded {
    let mut fields: Vec<Item> = (0..4)
        .flat_map(|_| draft::rectangle(plan::rectangle(random)))
        .collect();
    match random.below(3) {
        0 => fields.extend(draft::rectangle(plan::rectangle(random))),
        1 => fields.extend(draft::rectangle([i32::MAX; 4])),
        _ => fields.push(Item::Run(vec![random.octet(); 1 + random.below(16)])),
    }
    if random.once_in(4) {
        fields[random.below(4)] = Item::Latitude(i32::MIN);
    }
    with_region(plan, fields)
}

/// Up to three whole rectangles and a piece of one.
fn ragged_rectangles(plan: &Plan, random: &mut Random) -> Encoded {
    let whole = random.below(4);
    let mut fields: Vec<Item> = (0..whole)
        .flat_map(|_| draft::rectangle(plan::rectangle(random)))
        .collect();
    let next: Vec<u8> = plan::rectangle(random)
        .into_iter()
        .flat_map(i32::to_be_bytes)
        .collect();
    fields.push(Item::Run(next[..1 + random.below(15)].to_vec()));
    with_region(plan, fields)
}

fn empty_rectangles(plan: &Plan, _: &mut Random) -> Encoded {
    with_region(plan, Vec::new())
}

fn flat_rectangle(plan: &Plan, random: &mut Random) -> Encoded {
    let mut rectangle = plan::rectangle(random);
    let (to, from) = random.pick(&[(0, 2), (2, 0), (1, 3), (3, 1)]);
    rectangle[to] = rectangle[from];
    with_region(plan, draft::rectangle(rectangle))
}

fn with_region(plan: &Plan, fields: Vec<Item>) -> Encoded {
    let mut draft = Draft::of(plan);
    draft.restrictions.truncate(1);
    draft.restrictions.push(draft::region(fields));
    draft.encode()
}

fn other_order(plan: &Plan, random: &mut Random) -> Encoded {
    let mut draft = Draft::of(&with_all_elements(plan, random));
    let elements = either(&mut draft, random);
    let (one, other) = (random.below(elements.len()), random.below(elements.len()));
    elements.swap(one, other);
    draft.encode()
}

fn repeated(plan: &Plan, random: &mut Random) -> Encoded {
    let mut draft = Draft::of(&with_all_elements(plan, random));
    let elements = either(&mut draft, random);
    let copy = elements[random.below(elements.len())].clone();
    elements.insert(random.below(elements.len() + 1), copy);
    draft.encode()
}

/// The permission list of the other kind, or a type that is not read there.
fn foreign(plan: &Plan, random: &mut Random) -> Encoded {
    let mut draft = Draft::of(plan);
    let other_list = draft::permission_list(plan.kind != TICKET, Vec::new());
    let unnamed = vec![
        Item::Type(random.pick(&[3, 4, 5, 31, 34, 0x33, 128, 255])),
        Item::Run(vec![0]),
    ];
    match random.below(3) {
        0 => *draft.attributes.last_mut().expect("a permission list") = other_list,
        1 => draft.attributes.push(other_list),
        _ => {
            let elements = either(&mut draft, random);
            elements.insert(random.below(elements.len() + 1), unnamed);
        }
    }
    draft.encode()
}

fn second_period(plan: &Plan, random: &mut Random) -> Encoded {
    let mut draft = Draft::of(plan);
    let second = random.pick(&[
        Period::End(900),
        Period::StartAndEnd(1, 2),
        Period::StartAndDuration(1, 2),
        Period::StartAndEnd(2, 1),
    ]);
    let at = random.below(draft.restrictions.len() + 1);
    draft.restrictions.insert(at, draft::period(second));
    draft.encode()
}

/// Another octet where the vector ends that lacks something.
fn missing(plan: &Plan, random: &mut Random) -> Encoded {
    const NEXT: [u8; 14] = [
        0x00, 0x01, 0x02, 0x05, 0x7f, 0x80, 0xbf, 0xc0, 0xdf, 0xe0, 0xef, 0xf0, 0xf8, 0xff,
    ];
    let (mut encoded, end) = without_required(plan, random);
    if random.once_in(4) {
        return encoded;
    }
    encoded.wire.octets[end] = random.pick(&NEXT);
    if random.once_in(4) {
        encoded.wire.octets[end + 1] = random.pick(&[0, 0x7f, 0x80, 0xff]);
    }
    encoded
}

/// The input ends where the vector ends that lacks something, or soon after.
fn missing_at_end(plan: &Plan, random: &mut Random) -> Encoded {
    let (mut encoded, end) = without_required(plan, random);
    encoded.wire.octets.truncate(end);
    let count = random.below(3);
    let more = random.octets(count);
    encoded.wire.octets.extend(more);
    encoded
}

/// Leaves out the key, the permissions or the period, and says where the
/// vector that lacks it ends.
fn without_required(plan: &Plan, random: &mut Random) -> (Encoded, usize) {
    let mut draft = Draft::of(plan);
    let which = random.below(4);
    match which {
        0 => drop(draft.attributes.remove(0)),
        1 => drop(draft.attributes.pop()),
        2 => draft.attributes.clear(),
        _ => drop(draft.restrictions.remove(0)),
    }
    let encoded = draft.encode();
    let end = if which < 3 {
        encoded.attributes_end
    } else {
        encoded.restrictions_end
    };
    (encoded, end)
}

fn long_name(plan: &Plan, random: &mut Random) -> Encoded {
    let mut draft = Draft::of(plan);
    let length = random.pick(&[33, 34, 64, 127, 128, 200, 240, 255]);
    draft.name = random.octets(length);
    draft.encode()
}

fn long_ssp(plan: &Plan, random: &mut Random) -> Encoded {
    let length = random.pick(&[32, 33, 40, 127, 128, 200]);
    let ssp = random.octets(length);
    let mut draft = Draft::of(plan);
    *draft.attributes.last_mut().expect("a permission list") =
        draft::permission_list(true, draft::permission(36, Some(&ssp)));
    draft.encode()
}

/// One number of the certificate in a longer form.
fn not_shortest(plan: &Plan, random: &mut Random) -> Encoded {
    let mut draft = Draft::of(&with_all_elements(plan, random));
    let longer = 1 + random.below(2);
    let list = match random.below(2) {
        0 => draft.restrictions.last_mut(),
        _ => draft.attributes.last_mut(),
    };
    let Some(Item::Vector(inside, form)) = list.and_then(|element| element.last_mut()) else {
        unreachable!("a permission list and a region of rectangles end with a vector")
    };
    let numbers = |item: &&mut Item| matches!(item, Item::IntX(..) | Item::Vector(..));
    let mut inner: Vec<&mut Item> = inside.iter_mut().filter(numbers).collect();
    if inner.is_empty() || random.once_in(3) {
        *form = longer;
    } else {
        let at = random.below(inner.len());
        let (Item::IntX(_, form) | Item::Vector(_, form)) = &mut *inner[at] else {
            unreachable!()
        };
        *form = longer;
    }
    draft.encode()
}

fn wrong_pairing(plan: &Plan, random: &mut Random) -> Encoded {
    let mut draft = Draft::of(plan);
    let kinds: &[u8] = if plan.kind == ROOT {
        &[0, 1, 2, 3, 5]
    } else {
        &[0, 3, 4, 5, 255]
    };
    *draft.head.last_mut().expect("a kind") = Item::Type(random.pick(kinds));
    draft.encode()
}

fn empty_period(plan: &Plan, random: &mut Random) -> Encoded {
    let second = random.pick(&[0, 1, 1_000, u32::MAX]);
    let period = match random.below(3) {
        0 => Period::End(0),
        1 => Period::StartAndEnd(second, random.below(second as usize + 1) as u32),
        _ => Period::StartAndDuration(second, (random.below(8) as u16) << 13),
    };
    let mut draft = Draft::of(plan);
    draft.restrictions[0] = draft::period(period);
    draft.encode()
}

/// The plan with every optional element, so that there is much to disorder.
fn with_all_elements(plan: &Plan, random: &mut Random) -> Plan {
    let mut plan = plan.clone();
    plan.encryption_key = Some(Point {
        point_type: 2,
        x: random.array(),
    });
    plan.assurance = Some(random.octet());
    plan.region = Some(vec![plan::rectangle(random)]);
    plan
}

/// The attributes or the restrictions.
fn either<'a>(draft: &'a mut Draft, random: &mut Random) -> &'a mut Vec<Element> {
    match random.below(2) {
        0 => &mut draft.attributes,
        _ => &mut draft.restrictions,
    }
}
