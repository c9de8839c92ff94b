//! Opaque values that form elements: type, length and value, or 255, extended
//! type, length and value.

use crate::rng::Rng;
use crate::wire::{write_opaque_element, ELEMENT_HEAD, EXTENDED, EXTENDED_HEAD};

/// The shortest element, one without a value.
pub const SHORTEST: usize = ELEMENT_HEAD;

/// Each value, and whether elements fill it.
pub const VALUES: [(&[u8], bool); 31] = [
    (&[1, 0, 0], true),
    (&[0, 0, 0], true),
    (&[254, 0, 0], true),
    (&[1, 0, 1, 9], true),
    (&[1, 0, 0, 2, 0, 0], true),
    (&[1, 0, 0, 2, 0, 1, 9], true),
    (&[2, 0, 2, 255, 255, 3, 0, 1, 9], true),
    (&[255, 0, 0, 0, 0], true),
    (&[255, 255, 255, 0, 0], true),
    (&[255, 0, 1, 0, 2, 8, 9], true),
    (&[1, 0, 0, 255, 0, 1, 0, 0], true),
    (&[255, 0, 1, 0, 0, 255, 0, 1, 0, 1, 9], true),
    (&[1, 0, 1, 255, 2, 0, 0], true),
    (&[1], false),
    (&[1, 0], false),
    (&[255], false),
    (&[1, 0, 1], false),
    (&[1, 0, 2, 9], false),
    (&[1, 0, 0, 9], false),
    (&[1, 0, 0, 2, 0], false),
    (&[1, 0, 0, 2, 0, 1], false),
    (&[1, 1, 0, 9], false),
    (&[1, 255, 255], false),
    (&[255, 0], false),
    (&[255, 0, 0], false),
    (&[255, 0, 0, 0], false),
    (&[255, 0, 0, 0, 1], false),
    (&[255, 0, 0, 1, 0, 9], false),
    (&[255, 0, 0, 0, 0, 9], false),
    (&[1, 0, 0, 255, 0, 0], false),
    (&[1, 0, 0, 255, 0, 0, 0], false),
];

/// One element, without a value.
pub fn bare(kind: u8) -> Vec<u8> {
    write_opaque_element(kind, &[])
}

/// One element that has just so many octets, its value all `filling`.
pub fn single(kind: u8, length: usize, filling: u8) -> Vec<u8> {
    write_opaque_element(kind, &vec![filling; length - ELEMENT_HEAD])
}

/// One element of an extended type, of 5 octets or more.
pub fn extended(kind: u16, length: usize) -> Vec<u8> {
    let mut octets = vec![EXTENDED];
    octets.extend(kind.to_be_bytes());
    octets.extend(((length - EXTENDED_HEAD) as u16).to_be_bytes());
    octets.resize(length, 0);
    octets
}

/// A value of just so many octets, 3 or more, in one of four shapes where it
/// is long enough; what numbers up to 200 give differs.
pub fn shaped(number: usize, length: usize) -> Vec<u8> {
    let kind = number as u8 + 1;
    match number % 4 {
        1 if length > 6 => [bare(kind), single(0, length - 3, 0)].concat(),
        2 if length > 5 => extended(number as u16, length),
        3 if length > 12 => {
            let front = [single(kind, 4, 9), extended(kind.into(), 5)].concat();
            [front, single(8, length - 9, 0)].concat()
        }
        _ => single(kind, length, 0),
    }
}

/// Any value of just so many octets, 3 or more, its elements cut at random.
pub fn any(rng: &mut Rng, length: usize) -> Vec<u8> {
    let mut octets = Vec::new();
    while octets.len() < length {
        let left = length - octets.len();
        let most = if left < 2 * SHORTEST {
            left
        } else {
            rng.between(SHORTEST, left - SHORTEST)
        };
        let part = if left > SHORTEST && rng.percent(30) {
            left
        } else {
            most
        };
        if part > 4 && rng.percent(25) {
            octets.extend(extended(rng.next() as u16, part));
        } else {
            let kind = rng.below(usize::from(EXTENDED)) as u8;
            octets.extend(single(kind, part, rng.next() as u8));
        }
    }
    octets
}

#[cfg(test)]
mod tests {
    use super::*;
    use crate::wire::forms_elements;

    #[test]
    fn every_length_in_every_shape() {
        let mut rng = Rng::new(1);
        for length in SHORTEST..=140 {
            for number in 0..8 {
                let octets = shaped(number, length);
                assert_eq!(octets.len(), length);
                assert!(forms_elements(&octets), "{octets:?}");
                let octets = any(&mut rng, length);
                assert_eq!(octets.len(), length);
                assert!(forms_elements(&octets), "{octets:?}");
            }
        }
    }
}
