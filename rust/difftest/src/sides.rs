//! What each side says about a certificate, in one form: the answer's number
//! and the 90 words of the C header.

use nattveldi::raw::{self, word_at, ACCEPTED, FIELDS_LENGTH, ID_LENGTH, WORDS};

/// Who is asked.
#[derive(Clone, Copy, Debug, PartialEq, Eq)]
pub enum Side {
    /// The proved library, through its C functions.
    Library,
    /// The proved library, through the safe bindings.
    Bindings,
    /// The independent reference.
    Reference,
}

impl Side {
    pub const ALL: [Side; 3] = [Side::Library, Side::Bindings, Side::Reference];
    /// Those that are held against the reference.
    pub const PROVED: [Side; 2] = [Side::Library, Side::Bindings];
}

/// The answer to `read`. The words are all zero in a refusal.
#[derive(Clone, Debug, PartialEq, Eq)]
pub struct Reading {
    pub number: u8,
    pub words: [u32; WORDS],
}

/// The answer to `id`. The id is zero in a refusal.
#[derive(Clone, Copy, Debug, PartialEq, Eq)]
pub struct Id {
    pub number: u8,
    pub id: [u8; ID_LENGTH],
}

pub fn read(side: Side, certificate: &[u8]) -> Reading {
    let answer = match side {
        Side::Library => library_words(certificate),
        Side::Bindings => match nattveldi::read(certificate) {
            Ok(fields) => Ok(bindings_words(&fields)),
            Err(refusal) => Err(refusal.number()),
        },
        Side::Reference => reference::read(certificate).map(|fields| reference_words(&fields)),
    };
    match answer {
        Ok(words) => Reading {
            number: ACCEPTED,
            words,
        },
        Err(number) => Reading {
            number,
            words: [0; WORDS],
        },
    }
}

pub fn id(side: Side, certificate: &[u8]) -> Id {
    let answer = match side {
        Side::Library => {
            let mut id = [0; ID_LENGTH];
            accepted(raw::id(certificate, &mut id)).map(|()| id)
        }
        Side::Bindings => match nattveldi::id(certificate) {
            Ok(id) => Ok(id.into()),
            Err(refusal) => Err(refusal.number()),
        },
        Side::Reference => reference::id(certificate),
    };
    match answer {
        Ok(id) => Id {
            number: ACCEPTED,
            id,
        },
        Err(number) => Id {
            number,
            id: [0; ID_LENGTH],
        },
    }
}

fn accepted(number: u8) -> Result<(), u8> {
    if number == ACCEPTED {
        Ok(())
    } else {
        Err(number)
    }
}

fn library_words(certificate: &[u8]) -> Result<[u32; WORDS], u8> {
    let mut fields = [0; FIELDS_LENGTH];
    accepted(raw::read(certificate, &mut fields))?;
    Ok(std::array::from_fn(|i| raw::word(&fields, i)))
}

/// The words that fields of the bindings stand for.
fn bindings_words(fields: &nattveldi::Certificate) -> [u32; WORDS] {
    let mut words = Words::new();
    words.set(word_at::SIGNER, u32::from(fields.issuer.is_some()));
    words.part(word_at::ISSUER, bound(fields.issuer.unwrap_or_default()));
    words.set(word_at::KIND, fields.kind as u32);
    words.part(word_at::NAME, bound(fields.name));
    words.set(word_at::KEY_TYPE, fields.key.point_type as u32);
    words.part(word_at::KEY, bound(fields.key.x));
    if let Some(key) = fields.encryption_key {
        words.set(word_at::ENCRYPTION_KEY_TYPE, key.point_type as u32);
        words.part(word_at::ENCRYPTION_KEY, bound(key.x));
    }
    words.set(
        word_at::HAS_ASSURANCE,
        u32::from(fields.assurance.is_some()),
    );
    words.set(word_at::ASSURANCE, u32::from(fields.assurance.unwrap_or(0)));
    words.period(
        fields.period.form as u32,
        fields.period.start.0,
        fields.period.end,
    );
    let rectangles = fields.region.rectangles();
    words.region(fields.has_region, rectangles.len());
    for (i, r) in rectangles.iter().enumerate() {
        words.rectangle(i, [r.north, r.west, r.south, r.east]);
    }
    words.set(word_at::PERMISSION_COUNT, fields.permissions().len() as u32);
    for (i, permission) in fields.permissions().iter().enumerate() {
        words.permission(i, permission.its_aid, bound(permission.ssp));
    }
    words.part(word_at::SIGNED, bound(fields.signed));
    words.part(word_at::SIGNATURE, bound(fields.signature.whole));
    words.set(word_at::SIGNATURE_TYPE, fields.signature.point_type as u32);
    words.0
}

pub(crate) fn bound(part: nattveldi::Part) -> (usize, usize) {
    (part.start, part.length)
}

/// The words that fields of the reference stand for.
fn reference_words(fields: &reference::Certificate) -> [u32; WORDS] {
    let mut words = Words::new();
    words.set(word_at::SIGNER, u32::from(fields.signer));
    words.part(word_at::ISSUER, referred(fields.issuer));
    words.set(word_at::KIND, u32::from(fields.kind));
    words.part(word_at::NAME, referred(fields.name));
    words.set(word_at::KEY_TYPE, u32::from(fields.key_type));
    words.part(word_at::KEY, referred(fields.key));
    words.set(
        word_at::ENCRYPTION_KEY_TYPE,
        u32::from(fields.encryption_key_type),
    );
    words.part(word_at::ENCRYPTION_KEY, referred(fields.encryption_key));
    words.set(word_at::HAS_ASSURANCE, u32::from(fields.has_assurance));
    words.set(word_at::ASSURANCE, u32::from(fields.assurance));
    words.period(u32::from(fields.period_form), fields.start, fields.end);
    words.region(fields.has_region, fields.rectangle_count);
    for (i, r) in fields.rectangles().iter().enumerate() {
        words.rectangle(i, [r.north, r.west, r.south, r.east]);
    }
    words.set(word_at::PERMISSION_COUNT, fields.permission_count as u32);
    for (i, permission) in fields.permissions().iter().enumerate() {
        words.permission(i, permission.its_aid, referred(permission.ssp));
    }
    words.part(word_at::SIGNED, (0, fields.signed_length()));
    words.part(word_at::SIGNATURE, referred(fields.signature));
    words.set(word_at::SIGNATURE_TYPE, u32::from(fields.signature_type));
    words.0
}

pub(crate) fn referred(part: reference::Part) -> (usize, usize) {
    (part.start, part.length)
}

/// The words while they are filled in; what is not stays zero.
struct Words([u32; WORDS]);

impl Words {
    fn new() -> Words {
        Words([0; WORDS])
    }

    fn set(&mut self, at: usize, value: u32) {
        self.0[at] = value;
    }

    fn part(&mut self, at: usize, (start, length): (usize, usize)) {
        self.set(at, start as u32);
        self.set(at + 1, length as u32);
    }

    fn period(&mut self, form: u32, start: u32, end: u64) {
        self.set(word_at::PERIOD_FORM, form);
        self.set(word_at::START, start);
        self.set(word_at::END, (end >> 32) as u32);
        self.set(word_at::END + 1, end as u32);
    }

    fn region(&mut self, given: bool, rectangles: usize) {
        self.set(word_at::HAS_REGION, u32::from(given));
        self.set(word_at::RECTANGLE_COUNT, rectangles as u32);
    }

    fn rectangle(&mut self, index: usize, edges: [i32; 4]) {
        for (i, edge) in edges.into_iter().enumerate() {
            self.set(word_at::RECTANGLES + 4 * index + i, edge as u32);
        }
    }

    fn permission(&mut self, index: usize, its_aid: u32, ssp: (usize, usize)) {
        self.set(word_at::PERMISSIONS + index, its_aid);
        self.set(word_at::SSP_STARTS + index, ssp.0 as u32);
        self.set(word_at::SSP_LENGTHS + index, ssp.1 as u32);
    }
}
