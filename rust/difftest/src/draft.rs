//! A certificate's layout as a tree of fields, which need not keep the rules.

use crate::plan::{Period, Plan, Point, ROOT, TICKET};
use crate::wire::{self, Field, Wire};

/// A field, or a vector of them.
#[derive(Clone, Debug)]
pub enum Item {
    /// A version, kind, type or algorithm.
    Type(u8),
    Run(Vec<u8>),
    Time(u32),
    Duration(u16),
    Latitude(i32),
    Longitude(i32),
    /// A value, and by how many octets it is longer than the shortest form.
    IntX(u32, usize),
    /// What a vector holds, and by how much its length is longer.
    Vector(Vec<Item>, usize),
    /// Octets that were written elsewhere, with their marks.
    Written(Wire),
}

/// A type octet and what belongs to it.
pub type Element = Vec<Item>;

#[derive(Clone, Debug)]
pub struct Draft {
    /// Version, signer, kind.
    pub head: Vec<Item>,
    pub name: Vec<u8>,
    pub attributes: Vec<Element>,
    pub restrictions: Vec<Element>,
    pub signature: Vec<Item>,
}

/// A draft's octets, and where its two vectors end.
#[derive(Clone, Debug)]
pub struct Encoded {
    pub wire: Wire,
    pub attributes_end: usize,
    pub restrictions_end: usize,
}

impl Draft {
    pub fn of(plan: &Plan) -> Draft {
        Draft {
            head: head(plan),
            name: plan.name.clone(),
            attributes: attributes(plan),
            restrictions: restrictions(plan),
            signature: signature(plan),
        }
    }

    pub fn encode(&self) -> Encoded {
        let mut wire = Wire::default();
        write_all(&mut wire, &self.head);
        wire.put(Field::Length, &[self.name.len() as u8]);
        wire.put(Field::Run, &self.name);
        write(&mut wire, &Item::Vector(self.attributes.concat(), 0));
        let attributes_end = wire.octets.len();
        write(&mut wire, &Item::Vector(self.restrictions.concat(), 0));
        let restrictions_end = wire.octets.len();
        write_all(&mut wire, &self.signature);
        Encoded {
            wire,
            attributes_end,
            restrictions_end,
        }
    }
}

impl Encoded {
    pub fn octets(self) -> Vec<u8> {
        self.wire.octets
    }
}

pub fn write_all(wire: &mut Wire, items: &[Item]) {
    for item in items {
        write(wire, item);
    }
}

fn write(wire: &mut Wire, item: &Item) {
    match item {
        Item::Type(octet) => wire.put(Field::Type, &[*octet]),
        Item::Run(octets) => wire.put(Field::Run, octets),
        Item::Time(time) => wire.put(Field::Time, &time.to_be_bytes()),
        Item::Duration(duration) => wire.put(Field::Duration, &duration.to_be_bytes()),
        Item::Latitude(place) => wire.put(Field::Latitude, &place.to_be_bytes()),
        Item::Longitude(place) => wire.put(Field::Longitude, &place.to_be_bytes()),
        Item::IntX(value, longer) => wire.put(Field::IntX, &number(*value, *longer)),
        Item::Vector(items, longer) => {
            let mut inside = Wire::default();
            write_all(&mut inside, items);
            wire.put(Field::Length, &number(inside.octets.len() as u32, *longer));
            wire.append(inside);
        }
        Item::Written(inside) => wire.append(inside.clone()),
    }
}

fn number(value: u32, longer: usize) -> Vec<u8> {
    wire::intx(value, (wire::shortest(value) + longer).min(3))
}

fn head(plan: &Plan) -> Vec<Item> {
    let mut head = vec![Item::Type(2)];
    if plan.kind == ROOT {
        head.push(Item::Type(0));
    } else {
        head.extend([Item::Type(1), Item::Run(plan.issuer.to_vec())]);
    }
    head.push(Item::Type(plan.kind));
    head
}

fn attributes(plan: &Plan) -> Vec<Element> {
    let mut attributes = vec![key(&plan.key)];
    attributes.extend(plan.encryption_key.as_ref().map(encryption_key));
    attributes.extend(plan.assurance.map(assurance));
    attributes.push(permissions(plan));
    attributes
}

pub fn key(point: &Point) -> Element {
    vec![
        Item::Type(0),
        Item::Type(0),
        Item::Type(point.point_type),
        Item::Run(point.x.to_vec()),
    ]
}

pub fn encryption_key(point: &Point) -> Element {
    let x = Item::Run(point.x.to_vec());
    vec![
        Item::Type(1),
        Item::Type(1),
        Item::Type(0),
        Item::Type(point.point_type),
        x,
    ]
}

pub fn assurance(assurance: u8) -> Element {
    vec![Item::Type(2), Item::Run(vec![assurance])]
}

fn permissions(plan: &Plan) -> Element {
    let with_ssp = plan.kind == TICKET;
    let entries = plan
        .permissions
        .iter()
        .flat_map(|p| permission(p.its_aid, with_ssp.then_some(&p.ssp)));
    permission_list(with_ssp, entries.collect())
}

pub fn permission_list(with_ssp: bool, entries: Vec<Item>) -> Element {
    vec![
        Item::Type(if with_ssp { 33 } else { 32 }),
        Item::Vector(entries, 0),
    ]
}

pub fn permission(its_aid: u32, ssp: Option<&Vec<u8>>) -> Vec<Item> {
    let mut items = vec![Item::IntX(its_aid, 0)];
    items.extend(ssp.map(|ssp| Item::Vector(vec![Item::Run(ssp.clone())], 0)));
    items
}

fn restrictions(plan: &Plan) -> Vec<Element> {
    let mut restrictions = vec![period(plan.period)];
    restrictions.extend(plan.region.as_ref().map(|rectangles| match rectangles[..] {
        [] => vec![Item::Type(3), Item::Type(0)],
        _ => region(rectangles.iter().flat_map(|&r| rectangle(r)).collect()),
    }));
    restrictions
}

pub fn period(period: Period) -> Element {
    match period {
        Period::End(end) => vec![Item::Type(0), Item::Time(end)],
        Period::StartAndEnd(start, end) => vec![Item::Type(1), Item::Time(start), Item::Time(end)],
        Period::StartAndDuration(start, duration) => {
            vec![Item::Type(2), Item::Time(start), Item::Duration(duration)]
        }
    }
}

/// A region of rectangles, from all their fields.
pub fn region(fields: Vec<Item>) -> Element {
    vec![Item::Type(3), Item::Type(2), Item::Vector(fields, 0)]
}

pub fn rectangle([north, west, south, east]: [i32; 4]) -> Vec<Item> {
    vec![
        Item::Latitude(north),
        Item::Longitude(west),
        Item::Latitude(south),
        Item::Longitude(east),
    ]
}

fn signature(plan: &Plan) -> Vec<Item> {
    vec![
        Item::Type(0),
        Item::Type(plan.signature.point_type),
        Item::Run(plan.signature.x.to_vec()),
        Item::Run(plan.signature_s.to_vec()),
    ]
}
