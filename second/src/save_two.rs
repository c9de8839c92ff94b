//! Form two of the save, as request [7] asks: names at their own length and
//! the last label given. And the way from either form to the other.

use crate::card::{Card, Name, LABELS, MOST_ROOTS, MOST_TREES, NEIGHBOURS};
use crate::refusal::Refusal;
use crate::save::{read, write, Form, Reader, FORM_ONE, HEAD, LONGEST_ROOT, ROUTE};
use crate::wire::{self, TreeName, LONGEST_OPAQUE};
use std::rc::Rc;

const LAST_GIVEN: usize = 4;
/// Mark and kind, length, leaf and branches: all but the element.
pub const TREE_TWO: usize = 3 + 1 + 1 + 4 * NEIGHBOURS as usize;
/// Mark and kind, label, state, neighbour and length: all but the element.
pub const LABEL_TWO: usize = 3 + 4 + 1 + 1 + 1;
const LONGEST_ELEMENT: usize = 1 + 2 + 1 + LONGEST_ROOT + 2 + LONGEST_OPAQUE;

pub const HEAD_TWO: usize = HEAD + LAST_GIVEN;
pub const LONGEST_SAVE_TWO: usize = HEAD_TWO
    + MOST_ROOTS * ROUTE
    + MOST_TREES * (TREE_TWO + LONGEST_ELEMENT)
    + LABELS as usize * (LABEL_TWO + LONGEST_ELEMENT);

const FORM_TWO: Form = Form {
    head: 5,
    tree: 6,
    label: 7,
    has_last: true,
    write_name,
    read_name,
};

fn write_name(octets: &mut Vec<u8>, name: &TreeName) {
    let element = wire::write_element(name);
    octets.push(element.len() as u8);
    octets.extend(element);
}

fn read_name(rest: &mut Reader) -> Option<Name> {
    let length = rest.one()?;
    let element = rest.take(length.into())?;
    wire::read_element(element).ok().map(Rc::new)
}

impl Card {
    /// Every table has a save of this form.
    pub fn save_two(&self, room: usize) -> Result<Vec<u8>, Refusal> {
        let octets = write(self, &FORM_TWO);
        if octets.len() > room {
            return Err(Refusal::Room);
        }
        Ok(octets)
    }

    /// As `restore`, of octets in form two.
    pub fn restore_two(&mut self, octets: &[u8]) -> Result<(), Refusal> {
        *self = read(octets, &FORM_TWO).ok_or(Refusal::NoSave)?;
        Ok(())
    }
}

/// What form two would have for the table of a save in form one.
pub fn newer(octets: &[u8], room: usize) -> Result<Vec<u8>, Refusal> {
    let card = read(octets, &FORM_ONE).ok_or(Refusal::NoSave)?;
    card.save_two(room)
}

/// What form one would have for the table of a save in form two, where it has
/// space for the names.
pub fn older(octets: &[u8], room: usize) -> Result<Vec<u8>, Refusal> {
    let card = read(octets, &FORM_TWO).ok_or(Refusal::NoSave)?;
    card.save(room)
}

#[cfg(test)]
#[path = "save_two_tests.rs"]
mod tests;
