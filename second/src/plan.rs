//! A plan by which no route goes through a neighbour any more, and the check
//! of one, as request [13] asks.

use crate::card::{Card, NEIGHBOURS};
use crate::refusal::Refusal;

/// A root's length, and its octets in a space.
const ROOT_FIELD: usize = 17;
/// The set in two octets, then the root.
const SET: usize = 2 + ROOT_FIELD;
/// The neighbour in one octet, then the root.
const MOVE: usize = 1 + ROOT_FIELD;

/// To which neighbours a root may move, bit v for neighbour v.
#[derive(Clone, Debug, PartialEq, Eq)]
pub struct Permit {
    pub root: Vec<u8>,
    pub set: u16,
}

#[derive(Clone, Debug, PartialEq, Eq)]
pub struct Move {
    pub root: Vec<u8>,
    pub to: u32,
}

impl Card {
    /// For each root behind the neighbour the permitted move that needs the
    /// fewest labels, the lowest of them; None where no list is accepted.
    pub fn plan(&self, from: u32, permits: &[Permit]) -> Result<Option<Vec<Move>>, Refusal> {
        if from >= NEIGHBOURS {
            return Err(Refusal::Neighbour);
        }
        let list = self.cheapest(from, permits);
        Ok(list.filter(|list| self.labels_for(list) <= self.free_labels()))
    }

    /// The same, whether there are labels for it or not.
    pub fn cheapest(&self, from: u32, permits: &[Permit]) -> Option<Vec<Move>> {
        let moves = self.roots_through(from).into_iter().map(|root| {
            let permitted = (0..NEIGHBOURS).filter(|to| allowed(permits, &root, from, *to));
            let to = permitted.min_by_key(|to| self.labels_needed(&root, *to))?;
            Some(Move { root, to })
        });
        moves.collect()
    }

    /// Whether the list has each root behind the neighbour once and no other,
    /// with moves that are permitted and for which there are labels.
    pub fn vet(&self, from: u32, permits: &[Permit], list: &[Move]) -> Result<bool, Refusal> {
        if from >= NEIGHBOURS {
            return Err(Refusal::Neighbour);
        }
        let mut listed: Vec<Vec<u8>> = list.iter().map(|entry| entry.root.clone()).collect();
        listed.sort_by(by_length_and_address);
        let permitted = |entry: &Move| allowed(permits, &entry.root, from, entry.to);
        Ok(listed == self.roots_through(from)
            && list.iter().all(permitted)
            && self.labels_for(list) <= self.free_labels())
    }

    /// Those of 4 octets first, each by rising address.
    pub fn roots_through(&self, neighbour: u32) -> Vec<Vec<u8>> {
        let through = |root: &&Vec<u8>| self.upstream(root) == Some(neighbour);
        let mut roots: Vec<Vec<u8>> = self.routes().keys().filter(through).cloned().collect();
        roots.sort_by(by_length_and_address);
        roots
    }

    /// How many labels the moves need in sum.
    pub fn labels_for(&self, list: &[Move]) -> usize {
        let needed = list
            .iter()
            .map(|entry| self.labels_needed(&entry.root, entry.to));
        needed.sum()
    }
}

fn by_length_and_address(one: &Vec<u8>, other: &Vec<u8>) -> std::cmp::Ordering {
    (one.len(), one).cmp(&(other.len(), other))
}

/// By the first set that is given for the root.
fn allowed(permits: &[Permit], root: &[u8], from: u32, to: u32) -> bool {
    let permit = permits.iter().find(|permit| permit.root == root);
    let set = permit.map_or(0, |permit| permit.set);
    to != from && to < NEIGHBOURS && set >> to & 1 == 1
}

/// What is left behind the last whole set is not read.
pub fn read_sets(octets: &[u8]) -> Vec<Permit> {
    let read = |field: &[u8]| Permit {
        set: u16::from_be_bytes([field[0], field[1]]),
        root: read_root(&field[2..]),
    };
    octets.chunks_exact(SET).map(read).collect()
}

/// What is left behind the last whole entry counts as one of no root, by which
/// the list is rejected.
pub fn read_list(octets: &[u8]) -> Vec<Move> {
    let read = |field: &[u8]| Move {
        to: u32::from(field[0]),
        root: read_root(&field[1..]),
    };
    let entries = octets.chunks_exact(MOVE);
    let rest = Move {
        to: 0,
        root: Vec::new(),
    };
    let rest = (!entries.remainder().is_empty()).then_some(rest);
    entries.map(read).chain(rest).collect()
}

/// What stands behind the root in its space is not looked at. A length beyond
/// the space gives no octets, which are no root.
fn read_root(field: &[u8]) -> Vec<u8> {
    let (length, space) = (usize::from(field[0]), &field[1..]);
    space.get(..length).unwrap_or_default().to_vec()
}

pub fn write_sets(permits: &[Permit]) -> Vec<u8> {
    let write =
        |permit: &Permit| [&permit.set.to_be_bytes()[..], &write_root(&permit.root)].concat();
    permits.iter().flat_map(write).collect()
}

pub fn write_list(list: &[Move]) -> Vec<u8> {
    let write = |entry: &Move| [&[entry.to as u8][..], &write_root(&entry.root)].concat();
    list.iter().flat_map(write).collect()
}

fn write_root(root: &[u8]) -> Vec<u8> {
    let mut field = vec![root.len() as u8];
    field.extend(root);
    field.resize(ROOT_FIELD, 0);
    field
}

#[cfg(test)]
#[path = "plan_tests.rs"]
mod tests;
