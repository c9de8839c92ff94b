//! Random octets that now and then look like something.

use crate::formed;
use crate::rng::Rng;
use crate::wire;

pub fn random_number(rng: &mut Rng) -> u32 {
    match rng.below(3) {
        0 => rng.number(),
        1 => rng.below(300) as u32,
        _ => rng.below(20) as u32,
    }
}

/// A right frame around random TLVs, of which some are likely ones.
pub fn random_message(rng: &mut Rng) -> Vec<u8> {
    let codes = [0x0400, 0x0402, 0x0403, 0x0400, 0x0401, 0x8403];
    let likely = [0x0100, 0x0200, 0x8100, 0x0101];
    let mut tlvs = Vec::new();
    for place in 0..rng.below(4) {
        let place = if rng.percent(80) { place } else { rng.below(4) };
        let value = match (place, rng.percent(80)) {
            (0, true) => random_element(rng),
            (1, true) => (rng.number() & 0x001f_ffff).to_be_bytes().to_vec(),
            _ => rng.next().to_be_bytes()[..rng.below(8)].to_vec(),
        };
        tlvs.extend(wire::write_tlv(likely[place], &value));
    }
    if rng.percent(10) {
        tlvs.pop();
    }
    wire::write_frame(codes[rng.below(codes.len())], rng.number(), &tlvs)
}

pub fn random_element(rng: &mut Rng) -> Vec<u8> {
    let (length, most_opaque) = if rng.percent(20) {
        (rng.below(200), wire::LONGEST_OPAQUE + 12)
    } else {
        (rng.below(50), 12)
    };
    let mut octets = rng.octets(length);
    let heads: [&[u8]; 4] = [&[6, 0, 1, 4], &[6, 0, 2, 16], &[6, 0, 1], &[]];
    octets.splice(..0, heads[rng.below(4)].iter().copied());
    if let Some(field) = octets.get_mut(8..10) {
        field.copy_from_slice(&[0, rng.below(most_opaque) as u8]);
    }
    let claimed = octets.get(9).map_or(0, |&octet| usize::from(octet));
    if rng.percent(50) {
        octets.truncate(10 + claimed);
    } else if rng.percent(60) && claimed >= formed::SHORTEST {
        octets.truncate(10);
        octets.extend(formed::any(rng, claimed));
    }
    octets
}

pub fn random_root(rng: &mut Rng) -> Vec<u8> {
    let length = [4, 16, 4, 16, 0, 3, 5, 12, 17, 20][rng.below(10)];
    rng.octets(length)
}
