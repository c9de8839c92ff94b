//! The roots and tree names that a made day plays with.

use crate::formed;
use crate::rng::Rng;
use crate::save::OPAQUE_SPACE;
use crate::wire::{TreeName, LONGEST_OPAQUE};

pub struct World {
    pub roots: Vec<Vec<u8>>,
    pub names: Vec<TreeName>,
}

/// Opaque values of all sizes, with those at an edge more often.
pub const ALL_LENGTHS: &[usize] = &[7, 3, 32, 128, 4, 33, 31, 8, 90, 5, 16, 127];
/// Those that a save of form one has space for.
pub const SAVED_LENGTHS: &[usize] = &[7, 3, 32, 4, 31, 8, 5, 16];
/// Mostly short, where long names would cost much.
pub const FEW_LONG: &[usize] = &[7, 3, 33, 4, 32, 8, 128];
const LONG_LENGTHS: [usize; 4] = [OPAQUE_SPACE + 1, 90, LONGEST_OPAQUE - 1, LONGEST_OPAQUE];

impl World {
    /// The first root is broad: it has `broad` names, the others `each`.
    pub fn new(
        rng: &mut Rng,
        roots: usize,
        (broad, each): (usize, usize),
        lengths: &[usize],
    ) -> World {
        let turn = rng.below(lengths.len());
        let first = rng.below(200);
        let roots: Vec<Vec<u8>> = (0..roots).map(|number| root(first + number)).collect();
        let mut names = Vec::new();
        for (place, root) in roots.iter().enumerate() {
            let count: usize = if place == 0 { broad } else { each };
            let pairs = 0..count.div_ceil(2);
            let lengths: Vec<usize> = pairs
                .map(|pair| any_length(rng, lengths, pair + place + turn))
                .collect();
            names.extend((0..count).map(|number| TreeName {
                root: root.clone(),
                opaque: opaque(number, lengths[number / 2]),
            }));
        }
        World { roots, names }
    }

    /// One root whose trees have the longest records there are.
    pub fn longest(rng: &mut Rng) -> World {
        let root = rng.octets(16);
        let mut opaque = formed::any(rng, LONGEST_OPAQUE - 4);
        opaque.extend(formed::single(2, 4, 0));
        let names = (0..70).map(|number| {
            opaque[LONGEST_OPAQUE - 1] = number;
            TreeName {
                root: root.clone(),
                opaque: opaque.clone(),
            }
        });
        World {
            names: names.collect(),
            roots: vec![root],
        }
    }

    /// A name that a save of form one has no space for.
    pub fn long_name(&self, rng: &mut Rng) -> Option<TreeName> {
        let length = LONG_LENGTHS[rng.below(LONG_LENGTHS.len())];
        Some(TreeName {
            root: rng.pick(&self.roots)?,
            opaque: opaque(rng.below(6), length),
        })
    }
}

/// One of the lengths in its turn, or any other up to the longest of them.
fn any_length(rng: &mut Rng, lengths: &[usize], turn: usize) -> usize {
    let longest = lengths.iter().copied().max().unwrap_or(formed::SHORTEST);
    if rng.percent(20) {
        return rng.between(formed::SHORTEST, longest);
    }
    lengths[turn % lengths.len()]
}

/// Neighbouring numbers give a 4-octet root and a 16-octet one that begins
/// with the same octets, so that a card which mixes the families is caught.
fn root(number: usize) -> Vec<u8> {
    let pair = number / 2;
    let mut octets = vec![192, 0, 2, pair as u8];
    if number % 2 == 1 {
        octets.extend([0; 12]);
        octets[15] = if pair.is_multiple_of(2) {
            0
        } else {
            pair as u8
        };
    }
    octets
}

/// Neighbouring numbers give a name and the same one with an element more, or
/// differing in its last octet only where it is not to be longer.
fn opaque(number: usize, length: usize) -> Vec<u8> {
    let mut octets = formed::shaped(number / 2, length);
    let limits = [OPAQUE_SPACE, LONGEST_OPAQUE];
    let may_grow = limits
        .iter()
        .all(|most| length > *most || length + formed::SHORTEST <= *most);
    if number % 2 == 1 && may_grow {
        octets.extend(formed::bare(1));
    } else if number % 2 == 1 {
        octets[length - 1] = 255;
    }
    octets
}

#[cfg(test)]
mod tests {
    use super::*;
    use crate::wire::forms_elements;

    #[test]
    fn names_are_distinct() {
        for lengths in [ALL_LENGTHS, SAVED_LENGTHS, FEW_LONG] {
            let world = World::new(&mut Rng::new(1), 40, (40, 3), lengths);
            for (place, name) in world.names.iter().enumerate() {
                assert!(!world.names[..place].contains(name));
            }
            assert_eq!(world.names.len(), 40 + 39 * 3);
            let mut opaques = world.names.iter().map(|name| &name.opaque);
            assert!(opaques.all(|opaque| forms_elements(opaque)));
        }
    }

    #[test]
    fn lengths_of_names() {
        for (lengths, most) in [(ALL_LENGTHS, LONGEST_OPAQUE), (SAVED_LENGTHS, OPAQUE_SPACE)] {
            let world = World::new(&mut Rng::new(1), 30, (40, 12), lengths);
            let most_met = world.names.iter().map(|name| name.opaque.len()).max();
            assert_eq!(most_met, Some(most));
            for length in lengths {
                assert!(world.names.iter().any(|n| n.opaque.len() == *length));
            }
        }
    }
}
