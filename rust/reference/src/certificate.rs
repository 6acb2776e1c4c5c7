//! The certificate (001, clause 6; document 01, "The certificate").

use crate::constants::{
    AUTHORITY, CUT, MALFORMED, MAXIMUM_NAME, MAXIMUM_PERMISSIONS, MAXIMUM_RECTANGLES, ROOT, TICKET,
    TOO_LONG, UNSUPPORTED,
};
use crate::octets::{Part, Reader};
use crate::sha256::Sha256;
use crate::signature::{
    read_ecdsa_signature, COMPRESSED_Y_0, COMPRESSED_Y_1, ECDSA_NISTP256, FIELD_SIZE,
    X_COORDINATE_ONLY,
};

const MAXIMUM_LENGTH: usize = 1_024;
const VERSION: u8 = 2;

const SIGNER_SELF: u8 = 0;
const SIGNER_DIGEST: u8 = 1;
const DIGEST_LENGTH: usize = 8;

const VERIFICATION_KEY: u8 = 0;
const ENCRYPTION_KEY: u8 = 1;
const ASSURANCE_LEVEL: u8 = 2;
const ITS_AID_LIST: u8 = 32;
const ITS_AID_SSP_LIST: u8 = 33;
const MAXIMUM_SSP: usize = 31;

const ECIES_NISTP256: u8 = 1;
const AES_128_CCM: u8 = 0;

const TIME_END: u8 = 0;
const TIME_START_AND_END: u8 = 1;
const TIME_START_AND_DURATION: u8 = 2;
const REGION: u8 = 3;

const REGION_NONE: u8 = 0;
const REGION_RECTANGLES: u8 = 2;

/// An ITS-AID with its service specific permissions.
#[derive(Clone, Copy, Debug, PartialEq, Eq, Default)]
pub struct Permission {
    pub its_aid: u32,
    /// The SSP's octets, behind their length; without an SSP (attribute 32) the empty part at 0.
    pub ssp: Part,
}

/// Edges in tenths of a microdegree.
#[derive(Clone, Copy, Debug, PartialEq, Eq, Default)]
pub struct Rectangle {
    pub north: i32,
    pub west: i32,
    pub south: i32,
    pub east: i32,
}

/// A certificate's fields; what is absent is zero, and its part the empty part at 0.
#[derive(Clone, Copy, Debug, PartialEq, Eq)]
pub struct Certificate {
    /// 0 self, 1 digest.
    pub signer: u8,
    pub issuer: Part,
    /// 1 ticket, 2 authority, 4 root.
    pub kind: u8,
    pub name: Part,
    /// Point type 2 or 3.
    pub key_type: u8,
    pub key: Part,
    /// 0 when absent.
    pub encryption_key_type: u8,
    pub encryption_key: Part,
    pub has_assurance: bool,
    pub assurance: u8,
    pub permission_count: usize,
    pub permissions: [Permission; MAXIMUM_PERMISSIONS],
    /// The restriction that gave the period: 0, 1 or 2.
    pub period_form: u8,
    pub start: u32,
    pub end: u64,
    /// A region element is there, also one that says "none".
    pub has_region: bool,
    /// 0 means everywhere.
    pub rectangle_count: usize,
    pub rectangles: [Rectangle; MAXIMUM_RECTANGLES],
    /// The whole signature structure.
    pub signature: Part,
    /// Point type 0, 2 or 3.
    pub signature_type: u8,
}

impl Certificate {
    pub(crate) const EMPTY: Certificate = Certificate {
        signer: 0,
        issuer: Part::EMPTY,
        kind: 0,
        name: Part::EMPTY,
        key_type: 0,
        key: Part::EMPTY,
        encryption_key_type: 0,
        encryption_key: Part::EMPTY,
        has_assurance: false,
        assurance: 0,
        permission_count: 0,
        permissions: [Permission {
            its_aid: 0,
            ssp: Part::EMPTY,
        }; MAXIMUM_PERMISSIONS],
        period_form: 0,
        start: 0,
        end: 0,
        has_region: false,
        rectangle_count: 0,
        rectangles: [Rectangle {
            north: 0,
            west: 0,
            south: 0,
            east: 0,
        }; MAXIMUM_RECTANGLES],
        signature: Part::EMPTY,
        signature_type: 0,
    };

    pub fn permissions(&self) -> &[Permission] {
        &self.permissions[..self.permission_count]
    }

    pub fn rectangles(&self) -> &[Rectangle] {
        &self.rectangles[..self.rectangle_count]
    }

    /// The length of the signed range of a certificate that begins at octet 0.
    pub fn signed_length(&self) -> usize {
        self.signature.start
    }
}

/// Reads a certificate that is all of `octets`, or gives the number of its refusal.
pub fn read(octets: &[u8]) -> Result<Certificate, u8> {
    if octets.len() > MAXIMUM_LENGTH {
        return Err(TOO_LONG);
    }
    let mut certificate = Certificate::EMPTY;
    let mut reader = Reader::new(octets);
    read_in(&mut reader, &mut certificate)?;
    if !reader.is_at_end() {
        return Err(MALFORMED);
    }
    Ok(certificate)
}

/// The certificate's HashedId8, or the number of its refusal.
pub fn id(octets: &[u8]) -> Result<[u8; 8], u8> {
    let certificate = read(octets)?;
    Ok(hashed_id(octets, 0, &certificate))
}

/// HashedId8 (001, clause 4.2.12) of a certificate that was read from `octets`, from `start` on.
pub(crate) fn hashed_id(octets: &[u8], start: usize, certificate: &Certificate) -> [u8; 8] {
    let point_type_at = certificate.signature.start + 1;
    let mut hash = Sha256::new();
    hash.update(&octets[start..point_type_at]);
    hash.update(&[X_COORDINATE_ONLY]);
    hash.update(&octets[point_type_at + 1..certificate.signature.end()]);
    let [.., a, b, c, d, e, f, g, h] = hash.finish();
    [a, b, c, d, e, f, g, h]
}

/// Reads a certificate inside a container, up to the end of its signature, into an empty one.
pub(crate) fn read_in(reader: &mut Reader, certificate: &mut Certificate) -> Result<(), u8> {
    read_subject(reader, certificate)?;

    // A vector's missing element counts at its end, where the next field's own 4 or 6 comes first.
    let attributes_complete = read_attributes(reader.vector()?, certificate)?;
    let restrictions = reader.vector()?;
    if !attributes_complete {
        return Err(MALFORMED);
    }
    let has_period = read_restrictions(restrictions, certificate)?;
    let signature_at = reader.position();
    reader.one_of(&[ECDSA_NISTP256])?;
    if !has_period {
        return Err(MALFORMED);
    }
    certificate.signature_type = read_ecdsa_signature(reader)?;
    certificate.signature = reader.since(signature_at);
    Ok(())
}

/// Version, signer, kind and name.
fn read_subject(reader: &mut Reader, certificate: &mut Certificate) -> Result<(), u8> {
    reader.one_of(&[VERSION])?;
    certificate.signer = reader.one_of(&[SIGNER_SELF, SIGNER_DIGEST])?;
    if certificate.signer == SIGNER_DIGEST {
        certificate.issuer = reader.run(DIGEST_LENGTH)?;
    }
    certificate.kind = reader.one_of(&[TICKET, AUTHORITY, ROOT])?;
    if (certificate.signer == SIGNER_SELF) != (certificate.kind == ROOT) {
        return Err(MALFORMED);
    }
    // subject_name<2^8-1> has a length of one plain octet (001, clause 6.2 and table 1).
    let length = usize::from(reader.octet()?);
    certificate.name = reader.run(length)?;
    if length > MAXIMUM_NAME {
        return Err(MALFORMED);
    }
    Ok(())
}

/// Reads the attributes, and tells whether the required ones are among them.
fn read_attributes(mut reader: Reader, certificate: &mut Certificate) -> Result<bool, u8> {
    let is_ticket = certificate.kind == TICKET;
    let mut least = VERIFICATION_KEY;
    let mut has_permissions = false;
    while !reader.is_at_end() {
        let attribute = reader.one_of(&[
            VERIFICATION_KEY,
            ENCRYPTION_KEY,
            ASSURANCE_LEVEL,
            ITS_AID_LIST,
            ITS_AID_SSP_LIST,
        ])?;
        if attribute < least {
            return Err(MALFORMED);
        }
        least = attribute + 1;
        match attribute {
            VERIFICATION_KEY => {
                reader.one_of(&[ECDSA_NISTP256])?;
                (certificate.key_type, certificate.key) = read_key_point(&mut reader)?;
            }
            ENCRYPTION_KEY => {
                reader.one_of(&[ECIES_NISTP256])?;
                reader.one_of(&[AES_128_CCM])?;
                (certificate.encryption_key_type, certificate.encryption_key) =
                    read_key_point(&mut reader)?;
            }
            ASSURANCE_LEVEL => {
                certificate.assurance = reader.octet()?;
                certificate.has_assurance = true;
            }
            // The list meant for the other kind is barred.
            list if (list == ITS_AID_SSP_LIST) != is_ticket => return Err(MALFORMED),
            _ => {
                read_permissions(reader.vector()?, is_ticket, certificate)?;
                has_permissions = true;
            }
        }
    }
    Ok(certificate.key_type != 0 && has_permissions)
}

/// EccPoint of a key: compressed only.
fn read_key_point(reader: &mut Reader) -> Result<(u8, Part), u8> {
    let point_type = reader.one_of(&[COMPRESSED_Y_0, COMPRESSED_Y_1])?;
    Ok((point_type, reader.run(FIELD_SIZE)?))
}

fn read_permissions(
    mut list: Reader,
    with_ssp: bool,
    certificate: &mut Certificate,
) -> Result<(), u8> {
    let mut count = 0;
    while !list.is_at_end() {
        let its_aid = list.int_x();
        let Some(permission) = certificate.permissions.get_mut(count) else {
            return Err(one_too_many(its_aid));
        };
        permission.its_aid = its_aid?;
        if with_ssp {
            permission.ssp = list.vector()?.rest();
            if permission.ssp.length > MAXIMUM_SSP {
                return Err(MALFORMED);
            }
        }
        count += 1;
    }
    certificate.permission_count = count;
    Ok(())
}

/// The refusal of an element over the number allowed, by its first field: 4 before 6 before 5.
fn one_too_many<T>(first_field: Result<T, u8>) -> u8 {
    match first_field {
        Err(CUT) => CUT,
        _ => UNSUPPORTED,
    }
}

/// Reads the restrictions, and tells whether a period is among them.
fn read_restrictions(mut reader: Reader, certificate: &mut Certificate) -> Result<bool, u8> {
    let mut least = TIME_END;
    let mut has_period = false;
    while !reader.is_at_end() {
        let restriction = reader.one_of(&[
            TIME_END,
            TIME_START_AND_END,
            TIME_START_AND_DURATION,
            REGION,
        ])?;
        if restriction < least {
            return Err(MALFORMED);
        }
        if restriction == REGION {
            read_region(&mut reader, certificate)?;
            least = REGION + 1;
        } else {
            read_period(&mut reader, restriction, certificate)?;
            has_period = true;
            // One period form bars the others.
            least = REGION;
        }
    }
    Ok(has_period)
}

fn read_period(reader: &mut Reader, form: u8, certificate: &mut Certificate) -> Result<(), u8> {
    let start = match form {
        TIME_END => 0,
        _ => reader.u32()?,
    };
    let end = match form {
        TIME_START_AND_DURATION => u64::from(start) + reader.duration()?,
        _ => u64::from(reader.u32()?),
    };
    if u64::from(start) >= end {
        return Err(MALFORMED);
    }
    certificate.period_form = form;
    certificate.start = start;
    certificate.end = end;
    Ok(())
}

fn read_region(reader: &mut Reader, certificate: &mut Certificate) -> Result<(), u8> {
    certificate.has_region = true;
    if reader.one_of(&[REGION_NONE, REGION_RECTANGLES])? == REGION_NONE {
        return Ok(());
    }
    let mut vector = reader.vector()?;
    if vector.is_at_end() {
        return Err(MALFORMED);
    }
    let mut count = 0;
    while !vector.is_at_end() {
        let Some(rectangle) = certificate.rectangles.get_mut(count) else {
            return Err(one_too_many(vector.latitude()));
        };
        *rectangle = read_rectangle(&mut vector)?;
        count += 1;
    }
    certificate.rectangle_count = count;
    Ok(())
}

/// Northwest, then southeast; a fault between two edges counts at the later one.
fn read_rectangle(reader: &mut Reader) -> Result<Rectangle, u8> {
    let north = reader.latitude()?;
    let west = reader.longitude()?;
    let south = reader.latitude()?;
    if north <= south {
        return Err(MALFORMED);
    }
    let east = reader.longitude()?;
    if east <= west {
        return Err(MALFORMED);
    }
    Ok(Rectangle {
        north,
        west,
        south,
        east,
    })
}

#[cfg(test)]
mod tests {
    use super::*;

    /// A root of 119 octets.
    fn root() -> Vec<u8> {
        let mut octets = vec![2, 0, 4, 0, 38, 0, 0, 2];
        octets.extend([0x11; 32]);
        octets.extend([32, 1, 36, 9, 1, 0, 0, 0, 200, 0, 0, 1, 44, 0, 0]);
        octets.extend([0x77; 64]);
        octets
    }

    /// Reads a certificate of a header vector that begins behind three other octets.
    fn read_embedded(header: &[u8]) -> (Result<Certificate, u8>, usize) {
        let mut input = vec![0xff; 3];
        input.extend(header);
        // Behind the container, not to be read.
        input.extend([0x77; 200]);
        let mut reader = Reader::new(&input);
        assert_eq!(reader.array(), Ok([0xff; 3]));
        let mut container = reader.container(header.len()).unwrap();
        let mut certificate = Certificate::EMPTY;
        let result = read_in(&mut container, &mut certificate);
        (result.map(|()| certificate), container.position())
    }

    #[test]
    fn a_certificate_inside_a_container() {
        let mut header = root();
        header.extend([0, 9, 9]);
        let (certificate, position) = read_embedded(&header);
        let certificate = certificate.unwrap();
        // The next octet is the next header; parts are the caller's.
        assert_eq!(position, 3 + 119);
        let alone = read(&root()).unwrap();
        assert_eq!(certificate.key.start, alone.key.start + 3);
        assert_eq!(certificate.signature.start, alone.signature.start + 3);
        assert_eq!(certificate.permissions, alone.permissions);
    }

    #[test]
    fn a_container_cuts_its_certificate() {
        for length in 0..119 {
            assert_eq!(read_embedded(&root()[..length]).0, Err(CUT), "{length}");
        }
    }
}
