//! The rules of a message once more, slowly: all faults with their places, of which the earliest
//! counts, "at one octet 4 before 6 before 5". Held against decide on messages damaged at random.

mod common;

use common::messages::*;
use common::stores::Numbers;
use common::*;
use reference::read;

const CUT: u8 = 4;
const MALFORMED: u8 = 5;
const UNSUPPORTED: u8 = 6;

/// A message with the faults found so far, each with its octet.
struct Scan<'a> {
    octets: &'a [u8],
    faults: Vec<(usize, u8)>,
}

impl Scan<'_> {
    fn fault(&mut self, at: usize, number: u8) {
        self.faults.push((at, number));
    }

    /// Notes a fault behind which there is no reading on.
    fn stop<T>(&mut self, at: usize, number: u8) -> Option<T> {
        self.fault(at, number);
        None
    }

    /// A field of `length` octets at `at`, in a container up to `end`; gives its end.
    fn field(&mut self, at: usize, length: usize, end: usize) -> Option<usize> {
        if length > end - at {
            return self.stop(at, CUT);
        }
        Some(at + length)
    }

    fn octet_of(&mut self, at: usize, end: usize, named: &[u8]) -> Option<u8> {
        self.field(at, 1, end)?;
        let octet = self.octets[at];
        if !named.contains(&octet) {
            return self.stop(at, UNSUPPORTED);
        }
        Some(octet)
    }

    /// "No first octet is 4; four or more leading ones are 6; a missing further octet is 4; not
    /// shortest is 5." Gives the value and the number's end.
    fn int_x(&mut self, at: usize, end: usize) -> Option<(usize, usize)> {
        self.field(at, 1, end)?;
        let first = self.octets[at];
        let further = match first {
            0..0x80 => 0,
            0x80..0xc0 => 1,
            0xc0..0xe0 => 2,
            0xe0..0xf0 => 3,
            _ => return self.stop(at, UNSUPPORTED),
        };
        let behind = self.field(at, 1 + further, end)?;
        let mut value = usize::from(first) & (0x7f >> further);
        for octet in &self.octets[at + 1..behind] {
            value = value * 256 + usize::from(*octet);
        }
        if int_x(value).len() != 1 + further {
            return self.stop(at, MALFORMED);
        }
        Some((value, behind))
    }

    /// The first octet of a vector's contents and the octet behind them.
    fn vector(&mut self, at: usize, end: usize) -> Option<(usize, usize)> {
        let (length, start) = self.int_x(at, end)?;
        if length > end - start {
            return self.stop(at, CUT);
        }
        Some((start, start + length))
    }

    fn angle(&mut self, at: usize, end: usize, limit: i32) -> Option<usize> {
        let behind = self.field(at, 4, end)?;
        let angle = i32::from_be_bytes(self.octets[at..behind].try_into().unwrap());
        if i64::from(angle).abs() > i64::from(limit) {
            self.fault(at, MALFORMED);
        }
        Some(behind)
    }

    /// A certificate alone has the same faults as inside a header vector that ends with it.
    fn certificate(&mut self, at: usize, end: usize) -> Option<usize> {
        let whole = (at..=end).find(|behind| read(&self.octets[at..*behind]).is_ok());
        match whole {
            Some(behind) => Some(behind),
            None => {
                let number = read(&self.octets[at..end]).unwrap_err();
                self.stop(at, number)
            }
        }
    }

    /// From a header's type on; gives the header's end.
    fn header(&mut self, at: usize, end: usize) -> Option<usize> {
        match self.octet_of(at, end, &[0, 1, 2, 3, 4, 5, 128])? {
            0 => self.field(at + 1, 8, end),
            1 => {
                let deviation = self.field(at + 1, 8, end)?;
                self.field(deviation, 1, end)
            }
            2 => self.field(at + 1, 4, end),
            3 => {
                let longitude = self.angle(at + 1, end, 900_000_000)?;
                let elevation = self.angle(longitude, end, 1_800_000_000)?;
                self.field(elevation, 2, end)
            }
            4 => {
                let (mut digest, behind) = self.vector(at + 1, end)?;
                while digest < behind {
                    digest = self.field(digest, 3, behind)?;
                }
                Some(behind)
            }
            5 => self.int_x(at + 1, end).map(|(_, behind)| behind),
            _ => match self.octet_of(at + 1, end, &[1, 2])? {
                1 => self.field(at + 2, 8, end),
                _ => self.certificate(at + 2, end),
            },
        }
    }

    fn headers(&mut self, start: usize, end: usize) -> Option<()> {
        let mut types: Vec<u8> = Vec::new();
        let mut at = start;
        while at < end {
            let header = self.octets[at];
            // 128 first, then ascending, each once.
            let rank = |header: u8| if header == 128 { -1 } else { i16::from(header) };
            let is_in_order = match types.last() {
                None => header == 128,
                Some(last) => rank(header) > rank(*last),
            };
            if !is_in_order {
                self.fault(at, MALFORMED);
            }
            at = self.header(at, end)?;
            types.push(header);
        }
        if ![0, 5, 128].iter().all(|required| types.contains(required)) {
            self.fault(end, MALFORMED);
        }
        Some(())
    }

    fn trailer(&mut self, at: usize, end: usize) -> Option<()> {
        if at == end {
            return self.stop(end, MALFORMED);
        }
        self.octet_of(at, end, &[1])?;
        self.octet_of(at + 1, end, &[0])?;
        self.octet_of(at + 2, end, &[0, 2, 3])?;
        let s = self.field(at + 3, 32, end)?;
        if self.field(s, 32, end)? < end {
            self.fault(end, MALFORMED);
        }
        Some(())
    }

    fn message(&mut self) -> Option<()> {
        let end = self.octets.len();
        self.octet_of(0, end, &[2])?;
        let (headers, payload_type) = self.vector(1, end)?;
        self.headers(headers, payload_type)?;
        self.octet_of(payload_type, end, &[1])?;
        let (_, trailer_length) = self.vector(payload_type + 1, end)?;
        let (trailer, behind) = self.vector(trailer_length, end)?;
        self.trailer(trailer, behind)?;
        if behind < end {
            self.fault(end, MALFORMED);
        }
        Some(())
    }
}

/// The number of the earliest fault, 0 for none.
fn by_the_rules(octets: &[u8]) -> u8 {
    let mut scan = Scan {
        octets,
        faults: Vec::new(),
    };
    let _ = scan.message();
    let rank = |number| {
        [CUT, UNSUPPORTED, MALFORMED]
            .iter()
            .position(|n| *n == number)
    };
    let earliest = scan
        .faults
        .iter()
        .min_by_key(|(at, number)| (*at, rank(*number)));
    earliest.map_or(0, |(_, number)| *number)
}

/// The answer of decide while reading, 0 if the message reads.
fn by_decide(octets: &[u8]) -> u8 {
    match message_number(octets) {
        number @ (CUT | MALFORMED | UNSUPPORTED) => number,
        _ => 0,
    }
}

/// An octet that is somewhere a type, a length or the beginning of one.
fn some_octet(numbers: &mut Numbers) -> u8 {
    const OCTETS: [u8; 18] = [
        0, 1, 2, 3, 4, 5, 6, 7, 9, 0x35, 0x43, 0x6b, 0x80, 0x81, 0x82, 0xc0, 0xe0, 0xf0,
    ];
    match numbers.below(4) {
        0 => numbers.next() as u8,
        _ => OCTETS[numbers.below(18) as usize],
    }
}

/// A message with some of the headers, a few of them in a wrong place or damaged.
fn some_message(numbers: &mut Numbers) -> Vec<u8> {
    let signer = match numbers.below(4) {
        0 => signer_certificate(&ticket().octets()),
        1 => signer_certificate(&authority().octets()),
        _ => signer_id(SIGNER),
    };
    let mut headers = vec![signer];
    headers.extend(all_headers());
    for _ in 0..numbers.below(3) {
        headers.remove(numbers.below(headers.len() as u64) as usize);
    }
    if numbers.below(4) == 0 {
        let [one, other] = [0; 2].map(|_| numbers.below(headers.len() as u64) as usize);
        headers.swap(one, other);
    }
    let mut draft = message(&headers);
    damage(&mut draft.headers, numbers, 2);
    if numbers.below(4) == 0 {
        draft.payload_type = some_octet(numbers);
    }
    if numbers.below(4) == 0 {
        damage(&mut draft.trailer, numbers, 3);
    }
    let mut octets = draft.octets();
    damage(&mut octets, numbers, 2);
    octets
}

/// Changes, inserts or removes fewer than `limit` octets, often near the beginning; may cut.
fn damage(octets: &mut Vec<u8>, numbers: &mut Numbers, limit: u64) {
    for _ in 0..numbers.below(limit) {
        let near = if numbers.below(2) == 0 { 40 } else { 400 };
        let at = numbers.below((octets.len() as u64).clamp(1, near)) as usize;
        match numbers.below(6) {
            0 => octets.insert(at, some_octet(numbers)),
            1 => octets.truncate(at),
            2 if at < octets.len() => drop(octets.remove(at)),
            _ if at < octets.len() => octets[at] = some_octet(numbers),
            _ => octets.push(some_octet(numbers)),
        }
    }
}

#[test]
fn damaged_messages() {
    let mut numbers = Numbers(0x0246_8ace_1357_9bdf);
    let mut seen = [0; 7];
    for _ in 0..60_000 {
        let octets = some_message(&mut numbers);
        let expected = by_the_rules(&octets);
        assert_eq!(by_decide(&octets), expected, "{octets:02x?}");
        seen[usize::from(expected)] += 1;
    }
    for number in [0, CUT, MALFORMED, UNSUPPORTED] {
        assert!(seen[usize::from(number)] > 3_000, "{seen:?}");
    }
}
