//! LDP messages (RFC 5036) and the P2MP element (RFC 6388) as octets.

use crate::refusal::Refusal;

pub const FEC: u16 = 0x0100;
pub const GENERIC_LABEL: u16 = 0x0200;
pub const U_BIT: u16 = 0x8000;
pub const LOWEST_LABEL: u32 = 16;
pub const HIGHEST_LABEL: u32 = 1_048_575;
pub const LONGEST_OPAQUE: usize = 128;
/// Mark and neighbour, then a message for a 16-octet root.
pub const LONGEST_RECORD: usize = 4 + 42 + LONGEST_OPAQUE;
pub const MESSAGE_HEAD: usize = 8;

/// The type of an element of an opaque value that an extended type follows.
pub const EXTENDED: u8 = 255;
/// Type and length of such an element, and with an extended type.
pub const ELEMENT_HEAD: usize = 3;
pub const EXTENDED_HEAD: usize = 5;

const P2MP: u8 = 6;
pub const MARK: [u8; 2] = [0x4c, 0x44];
const TLV_HEAD: usize = 4;
/// Type and length, which the message's length field does not count.
const UNCOUNTED: usize = 4;

#[derive(Clone, Copy, Debug, PartialEq, Eq)]
pub enum Kind {
    Mapping,
    Withdraw,
    Release,
}

impl Kind {
    pub fn code(self) -> u16 {
        match self {
            Kind::Mapping => 0x0400,
            Kind::Withdraw => 0x0402,
            Kind::Release => 0x0403,
        }
    }

    fn from_code(code: u16) -> Option<Kind> {
        [Kind::Mapping, Kind::Withdraw, Kind::Release]
            .into_iter()
            .find(|kind| kind.code() == code)
    }
}

/// The root's length (4 or 16) tells the address family.
#[derive(Clone, Debug, PartialEq, Eq)]
pub struct TreeName {
    pub root: Vec<u8>,
    pub opaque: Vec<u8>,
}

#[derive(Clone, Debug, PartialEq, Eq)]
pub struct Message {
    pub kind: Kind,
    pub name: TreeName,
    pub label: u32,
}

pub struct Tlv<'a> {
    pub field: u16,
    pub value: &'a [u8],
}

fn two_octets(octets: &[u8]) -> u16 {
    u16::from_be_bytes([octets[0], octets[1]])
}

/// Refuses 2 to 9, the lowest number first, and 18 between 7 and 8.
pub fn read_message(octets: &[u8]) -> Result<Message, Refusal> {
    if octets.len() < MESSAGE_HEAD
        || usize::from(two_octets(&octets[2..])) != octets.len() - UNCOUNTED
    {
        return Err(Refusal::MessageLength);
    }
    let kind = Kind::from_code(two_octets(octets)).ok_or(Refusal::MessageType)?;
    let tlvs = cut_tlvs(&octets[MESSAGE_HEAD..])?;
    let (fec, label, further) = match tlvs.as_slice() {
        [fec, label, further @ ..] if fec.field == FEC && label.field == GENERIC_LABEL => {
            (fec, label, further)
        }
        _ => return Err(Refusal::TlvOrder),
    };
    let name = read_element(fec.value)?;
    let label = read_label(label.value)?;
    if further.iter().any(|tlv| tlv.field & U_BIT == 0) {
        return Err(Refusal::FurtherTlv);
    }
    Ok(Message { kind, name, label })
}

pub fn cut_tlvs(mut rest: &[u8]) -> Result<Vec<Tlv<'_>>, Refusal> {
    let mut tlvs = Vec::new();
    while !rest.is_empty() {
        if rest.len() < TLV_HEAD {
            return Err(Refusal::Framing);
        }
        let (head, after) = rest.split_at(TLV_HEAD);
        let length = usize::from(two_octets(&head[2..]));
        if after.len() < length {
            return Err(Refusal::Framing);
        }
        let (value, following) = after.split_at(length);
        tlvs.push(Tlv {
            field: two_octets(head),
            value,
        });
        rest = following;
    }
    Ok(tlvs)
}

/// The octets of exactly one P2MP element; refuses 6, 7 and 18.
pub fn read_element(octets: &[u8]) -> Result<TreeName, Refusal> {
    let address_length = match octets {
        [P2MP, 0, 1, 4, ..] => 4,
        [P2MP, 0, 2, 16, ..] => 16,
        _ => return Err(Refusal::Element),
    };
    let rest = &octets[4..];
    if rest.len() < address_length + 2 {
        return Err(Refusal::Element);
    }
    let (root, rest) = rest.split_at(address_length);
    let (length, opaque) = rest.split_at(2);
    if usize::from(two_octets(length)) != opaque.len() {
        return Err(Refusal::Element);
    }
    if opaque.is_empty() || opaque.len() > LONGEST_OPAQUE {
        return Err(Refusal::OpaqueLength);
    }
    if !forms_elements(opaque) {
        return Err(Refusal::OpaqueForm);
    }
    Ok(TreeName {
        root: root.to_vec(),
        opaque: opaque.to_vec(),
    })
}

/// Whether an address of a known family has so many octets.
pub fn is_root(octets: &[u8]) -> bool {
    matches!(octets.len(), 4 | 16)
}

/// Whether elements fill the octets exactly.
pub fn forms_elements(opaque: &[u8]) -> bool {
    let mut rest = opaque;
    while !rest.is_empty() {
        let Some(after) = after_element(rest) else {
            return false;
        };
        rest = after;
    }
    true
}

/// What follows the first element; None where that runs past the octets.
fn after_element(octets: &[u8]) -> Option<&[u8]> {
    let head = if *octets.first()? == EXTENDED {
        EXTENDED_HEAD
    } else {
        ELEMENT_HEAD
    };
    let length = usize::from(two_octets(octets.get(head - 2..head)?));
    octets.get(head + length..)
}

/// One element of an opaque value.
pub fn write_opaque_element(kind: u8, value: &[u8]) -> Vec<u8> {
    let mut octets = vec![kind];
    octets.extend((value.len() as u16).to_be_bytes());
    octets.extend(value);
    octets
}

fn read_label(value: &[u8]) -> Result<u32, Refusal> {
    let octets: [u8; 4] = value.try_into().map_err(|_| Refusal::Label)?;
    let label = u32::from_be_bytes(octets);
    if (LOWEST_LABEL..=HIGHEST_LABEL).contains(&label) {
        Ok(label)
    } else {
        Err(Refusal::Label)
    }
}

pub fn write_element(name: &TreeName) -> Vec<u8> {
    let family = if name.root.len() == 4 { 1 } else { 2 };
    let mut octets = vec![P2MP, 0, family, name.root.len() as u8];
    octets.extend(&name.root);
    octets.extend((name.opaque.len() as u16).to_be_bytes());
    octets.extend(&name.opaque);
    octets
}

pub fn write_tlv(field: u16, value: &[u8]) -> Vec<u8> {
    let mut octets = field.to_be_bytes().to_vec();
    octets.extend((value.len() as u16).to_be_bytes());
    octets.extend(value);
    octets
}

/// A message of any type around the octets of its TLVs.
pub fn write_frame(code: u16, identifier: u32, tlvs: &[u8]) -> Vec<u8> {
    let length = (MESSAGE_HEAD - UNCOUNTED + tlvs.len()) as u16;
    let mut octets = code.to_be_bytes().to_vec();
    octets.extend(length.to_be_bytes());
    octets.extend(identifier.to_be_bytes());
    octets.extend(tlvs);
    octets
}

pub fn write_message(kind: Kind, identifier: u32, name: &TreeName, label: u32) -> Vec<u8> {
    let mut tlvs = write_tlv(FEC, &write_element(name));
    tlvs.extend(write_tlv(GENERIC_LABEL, &label.to_be_bytes()));
    write_frame(kind.code(), identifier, &tlvs)
}

pub fn write_record(neighbour: u32, message: &[u8]) -> Vec<u8> {
    let mut octets = MARK.to_vec();
    octets.extend((neighbour as u16).to_be_bytes());
    octets.extend(message);
    octets
}

#[cfg(test)]
#[path = "wire_tests.rs"]
mod tests;
