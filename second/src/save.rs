//! The save of a card's table and the way back, as request [3] asks: records
//! of fixed size, each behind a mark and its kind. What another form of the
//! save has otherwise is a parameter.

use crate::card::{
    Card, LabelUse, Name, Route, Tree, HIGHEST_BASE, LABELS, LOWEST_BASE, MOST_ROOTS, MOST_TREES,
    NEIGHBOURS, THIS_NODE,
};
use crate::refusal::Refusal;
use crate::wire::{self, TreeName, HIGHEST_LABEL, LOWEST_LABEL};
use std::collections::{BTreeMap, BTreeSet};
use std::rc::Rc;

pub const HEAD: usize = 15;
pub const ROUTE: usize = 21;
pub const TREE: usize = 118;
pub const LABEL: usize = 59;
/// Root and opaque value, each behind its length in a space of its own.
pub const NAME: usize = 1 + LONGEST_ROOT + 1 + OPAQUE_SPACE;
pub const LONGEST_SAVE: usize =
    HEAD + MOST_ROOTS * ROUTE + MOST_TREES * TREE + LABELS as usize * LABEL;

const MARK: [u8; 2] = [0x4c, 0x53];
pub const LONGEST_ROOT: usize = 16;
/// The opaque values that this form has space for.
pub const OPAQUE_SPACE: usize = 32;
const MAPPED: u8 = 1;
const AWAITING: u8 = 2;
const ROUTE_KIND: u8 = 2;

/// In what two forms of a save differ; their routes are alike.
pub struct Form {
    pub head: u8,
    pub tree: u8,
    pub label: u8,
    /// Whether the head ends with the last label given.
    pub has_last: bool,
    pub write_name: fn(&mut Vec<u8>, &TreeName),
    pub read_name: fn(&mut Reader) -> Option<Name>,
}

pub const FORM_ONE: Form = Form {
    head: 1,
    tree: 3,
    label: 4,
    has_last: false,
    write_name: write_spaced_name,
    read_name: |rest| rest.name(),
};

impl Card {
    /// The table as octets, where its names have space in this form and the
    /// octets have room.
    pub fn save(&self, room: usize) -> Result<Vec<u8>, Refusal> {
        if self.names().any(|name| name.opaque.len() > OPAQUE_SPACE) {
            return Err(Refusal::NoSave);
        }
        let octets = write(self, &FORM_ONE);
        if octets.len() > room {
            return Err(Refusal::Room);
        }
        Ok(octets)
    }

    /// The table that the octets carry takes the place of the standing one,
    /// if a table that keeps the rules would write just these octets.
    pub fn restore(&mut self, octets: &[u8]) -> Result<(), Refusal> {
        *self = read(octets, &FORM_ONE).ok_or(Refusal::NoSave)?;
        Ok(())
    }
}

pub fn write(card: &Card, form: &Form) -> Vec<u8> {
    let used: Vec<(u32, &LabelUse)> = card
        .labels()
        .filter(|(_, held)| **held != LabelUse::Free)
        .collect();
    let mut octets = begun(form.head);
    octets.extend(card.base().to_be_bytes());
    octets.extend(card.next_identifier().to_be_bytes());
    octets.push(card.routes_in_order().len() as u8);
    octets.push(card.trees().len() as u8);
    octets.extend((used.len() as u16).to_be_bytes());
    if form.has_last {
        octets.extend(card.last_given().unwrap_or(0).to_be_bytes());
    }
    for (root, route) in card.routes_in_order() {
        octets.extend(begun(ROUTE_KIND));
        octets.push(match route {
            Route::Neighbour(neighbour) => neighbour as u8,
            Route::ThisNode => THIS_NODE as u8,
        });
        write_spaced(&mut octets, root, LONGEST_ROOT);
    }
    for tree in card.trees() {
        octets.extend(begun(form.tree));
        (form.write_name)(&mut octets, &tree.name);
        octets.push(u8::from(tree.leaf));
        for neighbour in 0..NEIGHBOURS {
            let label = tree.branches.get(&neighbour).copied().unwrap_or(0);
            octets.extend(label.to_be_bytes());
        }
    }
    for (label, held) in used {
        write_use(&mut octets, form, label, held);
    }
    octets
}

fn begun(kind: u8) -> Vec<u8> {
    vec![MARK[0], MARK[1], kind]
}

fn write_use(octets: &mut Vec<u8>, form: &Form, label: u32, held: &LabelUse) {
    let (how, neighbour, name) = match held {
        LabelUse::Free => return,
        LabelUse::Mapped(to, name) => (MAPPED, to, name),
        LabelUse::Awaiting(from, name) => (AWAITING, from, name),
    };
    octets.extend(begun(form.label));
    octets.extend(label.to_be_bytes());
    octets.extend([how, *neighbour as u8]);
    (form.write_name)(octets, name);
}

fn write_spaced_name(octets: &mut Vec<u8>, name: &TreeName) {
    write_spaced(octets, &name.root, LONGEST_ROOT);
    write_spaced(octets, &name.opaque, OPAQUE_SPACE);
}

/// The length, the octets, and zeros to the end of the space.
fn write_spaced(octets: &mut Vec<u8>, held: &[u8], space: usize) {
    octets.push(held.len() as u8);
    octets.extend(held);
    octets.resize(octets.len() + space - held.len(), 0);
}

/// Field by field; None at the first that no table would have written.
pub fn read(octets: &[u8], form: &Form) -> Option<Card> {
    let mut rest = Reader { octets };
    rest.mark(form.head)?;
    let base = rest.four()?;
    let next_identifier = rest.four()?;
    let counts = [rest.one()?.into(), rest.one()?.into(), rest.two()?.into()];
    let [routes, trees, labels]: [usize; 3] = counts;
    let last = if form.has_last {
        Some(rest.four()?)
    } else {
        None
    };
    let base_taken = (LOWEST_BASE..=HIGHEST_BASE).contains(&base);
    if !base_taken || routes > MOST_ROOTS || trees > MOST_TREES || labels > LABELS as usize {
        return None;
    }
    let routes = read_routes(&mut rest, routes)?;
    let trees = read_trees(&mut rest, form, trees)?;
    let labels = read_labels(&mut rest, form, base, labels)?;
    if !rest.octets.is_empty() {
        return None;
    }
    let mut card = Card::standing(base, next_identifier, routes, trees, labels);
    if let Some(last) = last {
        card.set_last_given(last)?;
    }
    labels_are_right(&card).then_some(card)
}

fn read_routes(rest: &mut Reader, count: usize) -> Option<Vec<(Vec<u8>, Route)>> {
    let mut seen = BTreeSet::new();
    let read_one = |_| {
        rest.mark(ROUTE_KIND)?;
        let route = match u32::from(rest.one()?) {
            THIS_NODE => Route::ThisNode,
            neighbour if neighbour < NEIGHBOURS => Route::Neighbour(neighbour),
            _ => return None,
        };
        let root = rest.root()?;
        seen.insert(root.clone()).then_some((root, route))
    };
    (0..count).map(read_one).collect()
}

fn read_trees(rest: &mut Reader, form: &Form, count: usize) -> Option<Vec<Tree>> {
    let mut trees: Vec<Tree> = Vec::new();
    for _ in 0..count {
        rest.mark(form.tree)?;
        let name = (form.read_name)(rest)?;
        let leaf = match rest.one()? {
            0 => false,
            1 => true,
            _ => return None,
        };
        let branches = read_branches(rest)?;
        let tree = Tree {
            name,
            branches,
            leaf,
        };
        if tree.is_bare() || trees.iter().any(|other| other.name == tree.name) {
            return None;
        }
        trees.push(tree);
    }
    Some(trees)
}

fn read_branches(rest: &mut Reader) -> Option<BTreeMap<u32, u32>> {
    let mut branches = BTreeMap::new();
    for neighbour in 0..NEIGHBOURS {
        match rest.four()? {
            0 => {}
            label if (LOWEST_LABEL..=HIGHEST_LABEL).contains(&label) => {
                branches.insert(neighbour, label);
            }
            _ => return None,
        }
    }
    Some(branches)
}

/// The block's uses; labels stand by rising number.
fn read_labels(rest: &mut Reader, form: &Form, base: u32, count: usize) -> Option<Vec<LabelUse>> {
    let mut labels = vec![LabelUse::Free; LABELS as usize];
    let mut lowest = base;
    for _ in 0..count {
        rest.mark(form.label)?;
        let label = rest.four()?;
        if label < lowest {
            return None;
        }
        let place = labels.get_mut((label - base) as usize)?;
        lowest = label + 1;
        let how = rest.one()?;
        let neighbour = u32::from(rest.one()?);
        let name = (form.read_name)(rest)?;
        *place = match how {
            MAPPED if neighbour < NEIGHBOURS => LabelUse::Mapped(neighbour, name),
            AWAITING if neighbour < NEIGHBOURS => LabelUse::Awaiting(neighbour, name),
            _ => return None,
        };
    }
    Some(labels)
}

/// Whether just the neighbours that are due a label have one: at most one is
/// mapped for a name, for a tree that stands, to the neighbour that is due it.
fn labels_are_right(card: &Card) -> bool {
    let mut mapped: BTreeMap<(&[u8], &[u8]), u32> = BTreeMap::new();
    for (_, held) in card.labels() {
        if let LabelUse::Mapped(to, name) = held {
            let twice = mapped.insert((&name.root, &name.opaque), *to).is_some();
            if twice || card.tree(name).is_none() {
                return false;
            }
        }
    }
    card.trees().iter().all(|tree| {
        let name = (tree.name.root.as_slice(), tree.name.opaque.as_slice());
        mapped.get(&name).copied() == card.label_due(&tree.name)
    })
}

/// What is not read yet.
pub struct Reader<'a> {
    octets: &'a [u8],
}

impl<'a> Reader<'a> {
    pub fn take(&mut self, count: usize) -> Option<&'a [u8]> {
        let (taken, rest) = self.octets.split_at_checked(count)?;
        self.octets = rest;
        Some(taken)
    }

    pub fn one(&mut self) -> Option<u8> {
        Some(self.take(1)?[0])
    }

    fn two(&mut self) -> Option<u16> {
        Some(u16::from_be_bytes(self.take(2)?.try_into().ok()?))
    }

    fn four(&mut self) -> Option<u32> {
        Some(u32::from_be_bytes(self.take(4)?.try_into().ok()?))
    }

    fn mark(&mut self, kind: u8) -> Option<()> {
        (self.take(3)? == [MARK[0], MARK[1], kind]).then_some(())
    }

    /// Octets from a space, behind which there are only zeros.
    fn spaced(&mut self, space: usize) -> Option<Vec<u8>> {
        let length = usize::from(self.one()?);
        let (held, padding) = self.take(space)?.split_at_checked(length)?;
        let padded = padding.iter().all(|&octet| octet == 0);
        padded.then(|| held.to_vec())
    }

    fn root(&mut self) -> Option<Vec<u8>> {
        let root = self.spaced(LONGEST_ROOT)?;
        wire::is_root(&root).then_some(root)
    }

    fn name(&mut self) -> Option<Name> {
        let root = self.root()?;
        let opaque = self.spaced(OPAQUE_SPACE)?;
        let taken = !opaque.is_empty() && wire::forms_elements(&opaque);
        taken.then(|| Rc::new(TreeName { root, opaque }))
    }
}

#[cfg(test)]
#[path = "save_tests.rs"]
mod tests;
