//! What a certificate says, or what a slot holds of it, as an object.

use nattveldi::Rectangle;

use crate::json::Object;
use crate::store::Record;
use crate::text::kind::{self, ROOT};
use crate::text::{hex, its_aid, name};

/// All of it but id and state.
pub fn record(record: &Record) -> Object {
    let issued = record.kind != ROOT;
    let rectangles: Vec<Object> = record.rectangles.iter().map(rectangle).collect();
    let permissions: Vec<Object> = record.permissions.iter().copied().map(its_aid).collect();
    let mut object = short(record);
    object.set("issuer", issued.then(|| hex::digits(&record.issuer)));
    object.set("start", record.start);
    object.set("end", record.end);
    object.set("point_type", record.key_type);
    object.set("key", hex::digits(&record.key));
    object.set("rectangles", rectangles);
    object.set("permissions", permissions);
    object
}

/// Kind and name.
pub fn short(record: &Record) -> Object {
    Object::new()
        .with("kind", record.kind)
        .with("kind_name", kind::word(record.kind))
        .with("subject_name", hex::digits(&record.name))
        .with("subject_name_text", name::printable(&record.name))
}

/// An ITS-AID and its name.
pub fn its_aid(number: u32) -> Object {
    let object = Object::new().with("its_aid", number);
    object.with("its_aid_name", its_aid::name(number))
}

fn rectangle(rectangle: &Rectangle) -> Object {
    Object::new()
        .with("north", rectangle.north)
        .with("west", rectangle.west)
        .with("south", rectangle.south)
        .with("east", rectangle.east)
}
