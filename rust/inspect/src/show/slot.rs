//! A filled slot of a store.

use super::Lines;
use crate::fact::Fact;
use crate::json::Object;
use crate::store::layout::*;
use crate::store::{Record, HELD, WITHDRAWN};
use crate::text::{degrees, kind};

/// The word for a state.
pub fn state(state: u8) -> &'static str {
    match state {
        HELD => "held",
        WITHDRAWN => "withdrawn",
        _ => "no state",
    }
}

impl Lines {
    /// What a slot holds and, if `offsets` is set, where. The same, with the
    /// places in any case, as an object.
    pub fn slot(&mut self, slot: usize, record: &Record, stands: &str, offsets: bool) -> Object {
        let first = SLOT_LENGTH * slot;
        let last = first + SLOT_LENGTH - 1;
        let octets = format!(", octets {first} to {last}");
        let octets = if offsets { &octets } else { "" };
        let (title, state) = (record.title(), state(record.state));
        self.plain("");
        self.plain(&format!("slot {slot}{octets}: {title}, {state}{stands}"));
        let rows = fields(record).into_iter();
        let fields: Vec<Object> = rows.map(|row| self.row(first, row, offsets)).collect();
        Object::new()
            .with("slot", slot)
            .with("offset", first)
            .with("length", SLOT_LENGTH)
            .with("fields", fields)
    }

    fn row(&mut self, first: usize, row: Row, offsets: bool) -> Object {
        let (place, index, name, fact) = row;
        let bit = place.of(index);
        let (offset, bit) = (first + bit / 8, bit % 8);
        let at = format!("{offset}.{bit}");
        let at = format!("{at:>9} {:>5}", place.width);
        let at = if offsets { &at } else { "" };
        self.plain(format!("{at}  {name:<16} {}", fact.words).trim_end());
        Object::new()
            .with("offset", offset)
            .with("bit", bit)
            .with("bits", place.width)
            .with("name", name)
            .with("value", fact.value)
            .with("words", fact.words)
    }
}

type Row = (Place, usize, &'static str, Fact);

fn fields(record: &Record) -> Vec<Row> {
    let whole = |place: Place| Place {
        width: place.width * place.count,
        ..place
    };
    let point_type = format!("point type {}", record.key_type);
    let parity = Fact::spelled(record.key_type - 2, &point_type);
    let kind = Fact::spelled(record.kind, kind::word(record.kind));
    let state = Fact::spelled(record.state, state(record.state));
    let length = Fact::number(record.name_length);
    let mut rows = vec![
        (ID, 0, "id", Fact::octets(&record.id)),
        (ISSUER, 0, "issuer", Fact::octets(&record.issuer)),
        (STATE, 0, "state", state),
        (KIND, 0, "kind", kind),
        (START, 0, "start", Fact::second(record.start)),
        (END, 0, "end", Fact::second(record.end)),
        (NAME_LENGTH, 0, "name length", length),
        (whole(NAME), 0, "name", Fact::name(&record.name)),
        (KEY_PARITY, 0, "key parity", parity),
        (whole(KEY), 0, "key", Fact::octets(&record.key)),
    ];
    regions(&mut rows, record);
    let count = Fact::number(record.permission_count);
    rows.push((PERMISSION_COUNT, 0, "permission count", count));
    for (index, &permission) in record.permissions.iter().enumerate() {
        let words = format!("ITS-AID {permission}");
        let value = Fact::new(words, permission);
        rows.push((PERMISSIONS, index, "permission", value));
    }
    rows
}

fn regions(rows: &mut Vec<Row>, record: &Record) {
    let count = match record.rectangle_count {
        0 => Fact::spelled(0, "everywhere"),
        count => Fact::number(count),
    };
    rows.push((RECTANGLE_COUNT, 0, "rectangle count", count));
    for (index, r) in record.rectangles.iter().enumerate() {
        let [north, west] = [r.north, r.west].map(degrees::plain);
        let [south, east] = [r.south, r.east].map(degrees::plain);
        let words = format!("north {north}, west {west}, south {south}, east {east} degrees");
        let value = Fact::new(words, vec![r.north, r.west, r.south, r.east]);
        rows.push((RECTANGLES, index, "rectangle", value));
    }
}
