//! Valid messages and elements, spoiled at chosen places. Some of the results
//! are still valid, on purpose: the edge has two sides.

use crate::formed;
use crate::rng::Rng;
use crate::wire;

/// A message in parts, so that a part can be spoiled and the rest kept whole.
struct Parts {
    code: u16,
    identifier: u32,
    tlvs: Vec<(u16, Vec<u8>)>,
}

impl Parts {
    fn of(octets: &[u8]) -> Option<Parts> {
        let tlvs = wire::cut_tlvs(octets.get(wire::MESSAGE_HEAD..)?).ok()?;
        Some(Parts {
            code: u16::from_be_bytes([octets[0], octets[1]]),
            identifier: u32::from_be_bytes([octets[4], octets[5], octets[6], octets[7]]),
            tlvs: tlvs.iter().map(|t| (t.field, t.value.to_vec())).collect(),
        })
    }

    fn octets(&self) -> Vec<u8> {
        let tlvs: Vec<u8> = self
            .tlvs
            .iter()
            .flat_map(|(field, value)| wire::write_tlv(*field, value))
            .collect();
        wire::write_frame(self.code, self.identifier, &tlvs)
    }
}

type PartsDamage = fn(&mut Rng, &mut Parts);
type OctetsDamage = fn(&mut Rng, &mut Vec<u8>);

const PARTS_DAMAGE: [PartsDamage; 14] = [
    |rng, parts| parts.code = odd_code(rng),
    |_, parts| parts.tlvs.reverse(),
    |rng, parts| parts.tlvs.truncate(rng.below(2)),
    |rng, parts| odd_field(rng, parts),
    |rng, parts| put_tlv(rng, parts, wire::U_BIT),
    |rng, parts| put_tlv(rng, parts, 0),
    |rng, parts| add_tlv(rng, parts, wire::U_BIT),
    |rng, parts| add_tlv(rng, parts, 0),
    |rng, parts| add_tlv(rng, parts, 0),
    |rng, parts| parts.tlvs[1].1 = odd_label(rng),
    |rng, parts| parts.tlvs[1].1 = odd_label(rng),
    |rng, parts| spoil_element(rng, &mut parts.tlvs[0].1),
    |rng, parts| spoil_element(rng, &mut parts.tlvs[0].1),
    |rng, parts| spoil_element(rng, &mut parts.tlvs[0].1),
];

const MESSAGE_DAMAGE: [OctetsDamage; 6] = [
    |rng, octets| flip(rng, octets),
    |rng, octets| octets.truncate(rng.below(octets.len() + 1)),
    lengthen,
    |rng, octets| nudge_length(rng, octets, 2),
    |rng, octets| nudge_length(rng, octets, 10),
    |rng, octets| nudge_last_length(rng, octets),
];

const ELEMENT_DAMAGE: [OctetsDamage; 16] = [
    |rng, octets| flip(rng, octets),
    |rng, octets| set(octets, 0, [1, 2, 5, 7, 8, 0][rng.below(6)]),
    |rng, octets| set(octets, rng.between(1, 2), [0, 1, 2, 3][rng.below(4)]),
    |rng, octets| set(octets, 3, [0, 3, 4, 5, 15, 16, 17, 255][rng.below(8)]),
    lengthen,
    |rng, octets| octets.truncate(rng.below(octets.len() + 1)),
    |_, octets| octets.extend(octets.clone()),
    |_, octets| octets.clear(),
    |rng, octets| nudge_opaque_length(rng, octets),
    |rng, octets| resize_opaque(octets, rng.below(wire::LONGEST_OPAQUE + 9)),
    reform_opaque,
    reform_opaque,
    |_, octets| change_family(octets),
    misform,
    misform,
    misform,
];

/// On both sides of what is taken, and of what form one of a save has.
const EDGE_LENGTHS: [usize; 11] = [0, 1, 2, 3, 32, 33, 90, 127, 128, 129, 263];

/// A valid message made exactly so long by a TLV that is to be stepped over.
pub fn pad_message(octets: &[u8], length: usize) -> Vec<u8> {
    let mut padded = octets.to_vec();
    if let Some(filling) = length.checked_sub(octets.len() + 4) {
        padded.extend(wire::write_tlv(wire::U_BIT | 0x3f00, &vec![0; filling]));
        mend_length(&mut padded);
    }
    padded
}

/// Spoils a valid message in one place or two.
pub fn spoil_message(rng: &mut Rng, octets: &[u8]) -> Vec<u8> {
    let mut octets = octets.to_vec();
    if rng.percent(80) {
        octets = spoil_parts(rng, &octets);
    }
    if rng.percent(25) {
        MESSAGE_DAMAGE[rng.below(MESSAGE_DAMAGE.len())](rng, &mut octets);
        if rng.percent(60) {
            mend_length(&mut octets);
        }
    }
    octets
}

fn spoil_parts(rng: &mut Rng, octets: &[u8]) -> Vec<u8> {
    let Some(mut parts) = Parts::of(octets) else {
        return octets.to_vec();
    };
    let places = if rng.percent(30) { 2 } else { 1 };
    for _ in 0..places {
        if parts.tlvs.len() >= 2 {
            PARTS_DAMAGE[rng.below(PARTS_DAMAGE.len())](rng, &mut parts);
        }
    }
    parts.octets()
}

pub fn spoil_element(rng: &mut Rng, octets: &mut Vec<u8>) {
    ELEMENT_DAMAGE[rng.below(ELEMENT_DAMAGE.len())](rng, octets);
}

fn odd_code(rng: &mut Rng) -> u16 {
    let codes = [0x0401, 0x0404, 0x8400, 0x8402, 0x0300, 0x0200, 0x0004, 0];
    codes[rng.below(codes.len())]
}

fn odd_field(rng: &mut Rng, parts: &mut Parts) {
    let place = rng.below(2);
    let field = parts.tlvs[place].0;
    let others = [field | 0x8000, field | 0x4000, field + 1, field ^ 0x0300, 0];
    parts.tlvs[place].0 = others[rng.below(others.len())];
}

fn further_tlv(rng: &mut Rng, u_bit: u16) -> (u16, Vec<u8>) {
    let fields = [0x0100, 0x0200, 0x0201, 0x0104, 0x3f00, 0, 0x7fff];
    let field = fields[rng.below(fields.len())];
    let length = rng.below(9);
    (field | u_bit, rng.octets(length))
}

/// In front of the label or of the FEC element.
fn put_tlv(rng: &mut Rng, parts: &mut Parts, u_bit: u16) {
    let tlv = further_tlv(rng, u_bit);
    parts.tlvs.insert(rng.below(2), tlv);
}

/// Behind the label, in any place.
fn add_tlv(rng: &mut Rng, parts: &mut Parts, u_bit: u16) {
    let tlv = further_tlv(rng, u_bit);
    let place = rng.between(2, parts.tlvs.len());
    parts.tlvs.insert(place, tlv);
}

fn odd_label(rng: &mut Rng) -> Vec<u8> {
    let labels: [u32; 8] = [0, 3, 15, 16, 1_048_575, 1_048_576, 0x8000_0010, u32::MAX];
    let mut value = labels[rng.below(labels.len())].to_be_bytes().to_vec();
    if rng.percent(35) {
        value.resize([0, 1, 3, 5, 8][rng.below(5)], 16);
    }
    value
}

fn set(octets: &mut [u8], place: usize, value: u8) {
    if let Some(octet) = octets.get_mut(place) {
        *octet = value;
    }
}

/// The U bit of a message's type.
pub fn turn_u_bit(octets: &mut [u8]) {
    if let Some(octet) = octets.first_mut() {
        *octet ^= 0x80;
    }
}

fn flip(rng: &mut Rng, octets: &mut [u8]) {
    if !octets.is_empty() {
        let place = rng.below(octets.len());
        octets[place] ^= 1 << rng.below(8);
    }
}

fn lengthen(rng: &mut Rng, octets: &mut Vec<u8>) {
    let count = rng.between(1, 5);
    let value = rng.next() as u8;
    octets.resize(
        octets.len() + count,
        if rng.percent(50) { 0 } else { value },
    );
}

/// The two octets at a place, one more or one less.
fn nudge_length(rng: &mut Rng, octets: &mut [u8], place: usize) {
    let Some(field) = octets.get_mut(place..place + 2) else {
        return;
    };
    let length = u16::from_be_bytes([field[0], field[1]]);
    let step = [1, u16::MAX, 256, 2][rng.below(4)];
    field.copy_from_slice(&length.wrapping_add(step).to_be_bytes());
}

/// The Label TLV's length field, where nothing follows that TLV.
fn nudge_last_length(rng: &mut Rng, octets: &mut [u8]) {
    if octets.len() >= 6 {
        nudge_length(rng, octets, octets.len() - 6);
    }
}

fn mend_length(octets: &mut [u8]) {
    if octets.len() >= 4 {
        let length = (octets.len() - 4) as u16;
        octets[2..4].copy_from_slice(&length.to_be_bytes());
    }
}

/// Where the opaque length stands, if the element goes that far.
fn opaque_length_place(octets: &[u8]) -> Option<usize> {
    let place = 4 + usize::from(*octets.get(3)?);
    (octets.len() >= place + 2).then_some(place)
}

fn nudge_opaque_length(rng: &mut Rng, octets: &mut [u8]) {
    if let Some(place) = opaque_length_place(octets) {
        nudge_length(rng, octets, place);
    }
}

/// Another opaque value, rightly counted.
fn change_opaque(octets: &mut Vec<u8>, change: impl FnOnce(&mut Vec<u8>)) {
    if let Some(place) = opaque_length_place(octets) {
        let mut opaque = octets.split_off(place + 2);
        change(&mut opaque);
        octets[place..].copy_from_slice(&(opaque.len() as u16).to_be_bytes());
        octets.extend(opaque);
    }
}

/// Cut, or longer by octets that form nothing.
fn resize_opaque(octets: &mut Vec<u8>, length: usize) {
    change_opaque(octets, |opaque| opaque.resize(length, 7));
}

/// A well-formed value at the edge of a length, where there can be one.
fn reform_opaque(rng: &mut Rng, octets: &mut Vec<u8>) {
    let length = EDGE_LENGTHS[rng.below(EDGE_LENGTHS.len())];
    change_opaque(octets, |opaque| {
        *opaque = if length < formed::SHORTEST {
            rng.octets(length)
        } else {
            formed::any(rng, length)
        };
    });
}

/// Elements that do not fill the value, or just do.
pub fn misform(rng: &mut Rng, octets: &mut Vec<u8>) {
    change_opaque(octets, |opaque| misform_opaque(rng, opaque));
}

pub fn misform_opaque(rng: &mut Rng, opaque: &mut Vec<u8>) {
    match rng.below(9) {
        0 | 1 => nudge_length(rng, opaque, 1),
        2 => opaque.extend([1, 0, 0].iter().take(rng.between(1, 3))),
        3 => opaque.extend([255, 0, 1, 0, 0].iter().take(rng.between(1, 5))),
        4 => set(opaque, 0, wire::EXTENDED),
        5 => drop(opaque.pop()),
        6 => opaque.truncate(rng.between(1, 2)),
        _ => *opaque = formed::VALUES[rng.below(formed::VALUES.len())].0.to_vec(),
    }
}

/// The same opaque value under a root of the other family.
fn change_family(octets: &mut Vec<u8>) {
    let Ok(mut name) = wire::read_element(octets) else {
        return;
    };
    let other_length = if name.root.len() == 4 { 16 } else { 4 };
    name.root.resize(other_length, 0);
    *octets = wire::write_element(&name);
}
