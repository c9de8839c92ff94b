//! Saves of either form that are no longer what a card wrote. Some of them
//! another card might have written; most none.

use crate::damage::{misform_opaque, spoil_element};
use crate::rng::Rng;
use crate::save::{HEAD, LABEL, NAME, OPAQUE_SPACE, ROUTE, TREE};
use crate::save_two::{HEAD_TWO, LABEL_TWO, TREE_TWO};
use crate::wire;

const LAST_GIVEN: usize = HEAD;

/// `save` is one that a card wrote.
pub fn spoil(rng: &mut Rng, save: &[u8]) -> Vec<u8> {
    match rng.below(19) {
        0..=3 => one_octet(rng, save.to_vec()),
        4 => one_step(rng, save.to_vec()),
        5 => save[..rng.below(save.len())].to_vec(),
        6 => shorter(rng, save),
        7 | 8 => longer(rng, save),
        9 => head_field(rng, save.to_vec()),
        10 | 11 => field(rng, save),
        12..=14 => renamed(rng, save),
        _ => other_records(rng, save),
    }
}

fn one_octet(rng: &mut Rng, mut save: Vec<u8>) -> Vec<u8> {
    let place = rng.below(save.len());
    save[place] ^= rng.between(1, 255) as u8;
    save
}

fn one_step(rng: &mut Rng, mut save: Vec<u8>) -> Vec<u8> {
    let place = rng.below(save.len());
    let step = if rng.percent(50) { 1 } else { 255 };
    save[place] = save[place].wrapping_add(step);
    save
}

fn shorter(rng: &mut Rng, save: &[u8]) -> Vec<u8> {
    let gone = [1, LABEL - 1, LABEL, TREE, ROUTE][rng.below(5)];
    save[..save.len().saturating_sub(gone)].to_vec()
}

fn longer(rng: &mut Rng, save: &[u8]) -> Vec<u8> {
    let mut longer = save.to_vec();
    match rng.below(4) {
        0 => longer.push(0),
        1 => longer.push(rng.next() as u8),
        2 => longer.extend([0; LABEL]),
        _ => longer.extend(records(save).last().expect("a save has a head")),
    }
    longer
}

/// Base, next identifier or a count.
fn head_field(rng: &mut Rng, mut save: Vec<u8>) -> Vec<u8> {
    if save[2] == 5 && rng.percent(50) {
        return last_given(rng, save);
    }
    match rng.below(6) {
        0 => save[3..7].copy_from_slice(&rng.number().to_be_bytes()),
        1 => {
            let bases = [0u32, 15, 16, 1_048_320, 1_048_321];
            save[3..7].copy_from_slice(&bases[rng.below(5)].to_be_bytes());
        }
        2 | 3 => save[7..11].copy_from_slice(&rng.number().to_be_bytes()),
        _ => {
            let place = rng.between(11, 14);
            save[place] = rng.below(5) as u8;
        }
    }
    save
}

/// The last label given: none, the ends of the block and what lies beyond
/// them, any label of it.
pub fn last_given(rng: &mut Rng, mut save: Vec<u8>) -> Vec<u8> {
    let base = u32::from_be_bytes(save[3..7].try_into().expect("four"));
    let any = rng.below(256) as u32;
    let likely = [
        0,
        1,
        base - 1,
        base,
        base + 255,
        base + 256,
        base + any,
        any,
    ];
    let label = likely[rng.below(likely.len())];
    save[LAST_GIVEN..HEAD_TWO].copy_from_slice(&label.to_be_bytes());
    save
}

/// A field of a record, by another value that it may well have.
fn field(rng: &mut Rng, save: &[u8]) -> Vec<u8> {
    let mut records = records(save);
    let place = rng.below(records.len());
    let record = &mut records[place];
    match record[2] {
        2 if rng.percent(70) => record[3] = rng.below(19) as u8,
        2 => record[4] = [4, 16][rng.below(2)],
        3 | 6 if rng.percent(30) => {
            let leaf = name_end(record);
            record[leaf] = rng.below(3) as u8;
        }
        3 | 6 => {
            let branch = name_end(record) + 1 + 4 * rng.below(16);
            let label = [0u32, 15, 16, 100, 1_048_575, 1_048_576][rng.below(6)];
            record[branch..branch + 4].copy_from_slice(&label.to_be_bytes());
        }
        4 | 7 if rng.percent(40) => record[7] = rng.below(4) as u8,
        4 | 7 if rng.percent(50) => record[8] = rng.below(17) as u8,
        4 | 7 => record[6] = rng.next() as u8,
        _ => record[10] = rng.next() as u8,
    }
    joined(&records)
}

/// A name, in each record that has it, by one that differs in its opaque value
/// and may be malformed.
fn renamed(rng: &mut Rng, save: &[u8]) -> Vec<u8> {
    let mut records = records(save);
    let names: Vec<Vec<u8>> = records
        .iter()
        .filter_map(|record| Some(record[name_place(record)?..name_end(record)].to_vec()))
        .collect();
    let Some(name) = rng.pick(&names) else {
        return one_octet(rng, save.to_vec());
    };
    let other = if save[2] == 1 {
        misnamed(rng, &name)
    } else {
        misnamed_two(rng, &name)
    };
    for record in &mut records {
        if let Some(place) = name_place(record) {
            let end = name_end(record);
            if record[place..end] == *name {
                record.splice(place..end, other.iter().copied());
            }
        }
    }
    joined(&records)
}

/// Where a tree's or a label's name stands in its record.
fn name_place(record: &[u8]) -> Option<usize> {
    match record[2] {
        3 | 6 => Some(3),
        4 | 7 => Some(9),
        _ => None,
    }
}

/// Where it ends; in form two its first octet counts the others.
fn name_end(record: &[u8]) -> usize {
    match record[2] {
        3 => 3 + NAME,
        4 => 9 + NAME,
        6 => 4 + usize::from(record[3]),
        _ => 10 + usize::from(record[9]),
    }
}

fn misnamed(rng: &mut Rng, name: &[u8]) -> Vec<u8> {
    let (root, opaque) = name.split_at(NAME - OPAQUE_SPACE - 1);
    let mut opaque = opaque[1..=usize::from(opaque[0])].to_vec();
    misform_opaque(rng, &mut opaque);
    opaque.truncate(OPAQUE_SPACE);
    let mut other = root.to_vec();
    other.push(opaque.len() as u8);
    other.extend(opaque);
    other.resize(NAME, 0);
    other
}

/// The opaque value, the element or its length is another.
fn misnamed_two(rng: &mut Rng, name: &[u8]) -> Vec<u8> {
    let mut element = name[1..].to_vec();
    match rng.below(5) {
        0 => {
            let step = if rng.percent(50) { 1 } else { 255 };
            let length = name[0].wrapping_add(step);
            return [&[length], &name[1..]].concat();
        }
        1 => spoil_element(rng, &mut element),
        _ => {
            let mut read = wire::read_element(&element).expect("a card wrote it");
            misform_opaque(rng, &mut read.opaque);
            element = wire::write_element(&read);
        }
    }
    element.truncate(255);
    [&[element.len() as u8], &element[..]].concat()
}

/// A record goes, comes twice or changes its place; the head counts them.
fn other_records(rng: &mut Rng, save: &[u8]) -> Vec<u8> {
    let mut records = records(save);
    if records.len() < 2 {
        return one_octet(rng, save.to_vec());
    }
    let place = rng.between(1, records.len() - 1);
    match rng.below(4) {
        0 | 1 => drop(records.remove(place)),
        2 => records.insert(place, records[place].clone()),
        _ => {
            let other = rng.between(1, records.len() - 1);
            records.swap(place, other);
        }
    }
    counted(&mut records);
    joined(&records)
}

/// The records of a save, the head first.
pub fn records(save: &[u8]) -> Vec<Vec<u8>> {
    let mut rest = save;
    let mut records = Vec::new();
    while let [_, _, kind, ..] = rest {
        let length = match *kind {
            1 => HEAD,
            2 => ROUTE,
            3 => TREE,
            4 => LABEL,
            5 => HEAD_TWO,
            6 => TREE_TWO + usize::from(rest[3]),
            _ => LABEL_TWO + usize::from(rest[9]),
        };
        let (record, after) = rest.split_at(length);
        records.push(record.to_vec());
        rest = after;
    }
    records
}

/// Sets the head's counts to what follows it.
pub fn counted(records: &mut [Vec<u8>]) {
    let count = |kinds: [u8; 2]| {
        let counted = records.iter().filter(|record| kinds.contains(&record[2]));
        counted.count() as u16
    };
    let (routes, trees, labels) = (count([2, 2]), count([3, 6]), count([4, 7]));
    records[0][11..13].copy_from_slice(&[routes as u8, trees as u8]);
    records[0][13..15].copy_from_slice(&labels.to_be_bytes());
}

pub fn joined(records: &[Vec<u8>]) -> Vec<u8> {
    records.concat()
}
