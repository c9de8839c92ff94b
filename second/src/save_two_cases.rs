//! Request [7], "Second saved form and the way back", as a page of cases.

use crate::bench::{self, Order};
use crate::cases::{numbered, tree_a, Page, ROOT};
use crate::formed;
use crate::save::LONGEST_SAVE;
use crate::save_cases::{kept_of, tree_b, NO_TABLES, NO_TABLES_SAY, OTHER_TABLES};
use crate::save_two::{HEAD_TWO, LABEL_TWO, LONGEST_SAVE_TWO, TREE_TWO};
use crate::wire::{self, Kind, TreeName, LONGEST_OPAQUE};

pub fn day() -> Vec<String> {
    let mut page = Page::new();
    page.comment("request [7]: a second form of the save, and the way from each to the other");
    page.room(LONGEST_SAVE_TWO);
    page.example_in_two();
    page.empty_table_in_two();
    page.moved_both_ways();
    page.wrong_form();
    page.long_values();
    page.last_given();
    page.none_given();
    page.last_given_spoiled();
    page.spoiled_in_two();
    page.other_tables_in_two();
    page.full_card_in_two();
    page.longest_in_one();
    page.lines
}

const ELEMENT_A: usize = 17;
const ELEMENT_B: usize = 25;
/// Record by record, as in form one.
const ROUTE_A: usize = HEAD_TWO;
const TREE_A: usize = ROUTE_A + 21;
const TREE_B: usize = TREE_A + TREE_TWO + ELEMENT_A;
const LABEL_16: usize = TREE_B + TREE_TWO + ELEMENT_B;
const LABEL_17: usize = LABEL_16 + LABEL_TWO + ELEMENT_A;
const EXAMPLE: usize = LABEL_17 + LABEL_TWO + ELEMENT_A;
const LAST_GIVEN: usize = HEAD_TWO - 4;

impl Page {
    /// What the card that the page's orders lead to would write in form two.
    fn saved_two(&self) -> Vec<u8> {
        let card = bench::card_after(&self.lines);
        card.save_two(LONGEST_SAVE_TWO).expect("there is room")
    }

    fn restore_two(&mut self, octets: &[u8]) {
        self.order(Order::RestoreTwo(octets.to_vec()));
    }

    fn newer(&mut self, octets: &[u8]) {
        self.order(Order::Newer(octets.to_vec()));
    }

    fn older(&mut self, octets: &[u8]) {
        self.order(Order::Older(octets.to_vec()));
    }

    fn ask_the_two(&mut self) {
        self.ask(&[16, 17, 18], &[tree_a(), tree_b()]);
    }

    fn example_in_two(&mut self) {
        self.comment(&format!(
            "the example of form one has {EXAMPLE} octets here, refused 16 in room for one less"
        ));
        self.swapped();
        for room in [0, EXAMPLE - 1, EXAMPLE, LONGEST_SAVE_TWO] {
            self.room(room);
            self.order(Order::SaveTwo);
        }
        let save = self.saved_two();
        self.comment("on another card it is the same table, and label 18 is next though 16 is released; restoring asks for no room");
        self.order(Order::Start(99));
        self.room(0);
        self.restore_two(&save);
        self.room(LONGEST_SAVE_TWO);
        self.order(Order::SaveTwo);
        self.order(Order::Save);
        self.ask_the_two();
        self.tell(0, Kind::Release, &tree_a(), 16);
        self.tell(2, Kind::Mapping, &numbered(ROOT, 1), 200);
        self.order(Order::SaveTwo);
    }

    fn empty_table_in_two(&mut self) {
        self.comment("an empty table: 19 octets, refused 16 in room for 18; newer and older in just the room they need, and in one octet less");
        self.order(Order::Start(1_048_320));
        for room in [0, HEAD_TWO - 1, HEAD_TWO] {
            self.room(room);
            self.order(Order::SaveTwo);
        }
        let (one, two) = (self.saved(), self.saved_two());
        self.newer(&one);
        self.older(&two);
        self.room(HEAD_TWO - 1);
        self.newer(&one);
        self.older(&two);
        for room in [15, 14, 0] {
            self.room(room);
            self.older(&two);
        }
        self.room(LONGEST_SAVE_TWO);
    }

    fn moved_both_ways(&mut self) {
        self.comment("old to new to old are the same octets; the card that stands, of base 99, is not touched");
        self.swapped();
        let (one, two) = (self.saved(), self.saved_two());
        self.order(Order::Start(99));
        self.order(Order::Save);
        self.newer(&one);
        self.older(&two);
        for (short, order) in [
            (one.len() - 1, Order::Older(two.clone())),
            (one.len(), Order::Older(two.clone())),
            (two.len() - 1, Order::Newer(one.clone())),
            (two.len(), Order::Newer(one.clone())),
        ] {
            self.room(short);
            self.order(order);
        }
        self.room(LONGEST_SAVE_TWO);
        self.order(Order::Save);
        self.comment(
            "17 was given last and comes back, 16 awaits release still: new to old to new has 16",
        );
        self.swapped();
        self.tell(1, Kind::Withdraw, &tree_a(), 100);
        self.tell(3, Kind::Release, &tree_a(), 17);
        let (one, two) = (self.saved(), self.saved_two());
        self.order(Order::SaveTwo);
        self.older(&two);
        self.newer(&one);
        self.comment(
            "18 is next by form two, 17 by form one and by what the moved octets say: three joins",
        );
        self.restore_two(&two);
        self.join_numbered(ROOT, 1);
        self.restore(&one);
        self.join_numbered(ROOT, 1);
        let moved = moved(&one);
        self.restore_two(&moved);
        self.join_numbered(ROOT, 1);
        self.order(Order::SaveTwo);
    }

    fn wrong_form(&mut self) {
        self.comment("a save of the other form is refused 19 by each, in no room at all too; so are no octets, and a head of the other kind");
        self.swapped();
        let (one, two) = (self.saved(), self.saved_two());
        for room in [0, LONGEST_SAVE_TWO] {
            self.room(room);
            self.restore(&two);
            self.restore_two(&one);
            self.newer(&two);
            self.older(&one);
            self.restore_two(&[]);
            self.newer(&[]);
            self.older(&[]);
        }
        let (mut head_one, mut head_two) = (one.clone(), two.clone());
        head_one[2] = 5;
        head_two[2] = 1;
        for octets in [head_one, head_two] {
            self.restore(&octets);
            self.restore_two(&octets);
            self.newer(&octets);
            self.older(&octets);
        }
        self.comment("an octet more or less, for each");
        for octets in [&one[..one.len() - 1], &[&one[..], &[0]].concat()] {
            self.newer(octets);
        }
        for octets in [&two[..two.len() - 1], &[&two[..], &[0]].concat()] {
            self.older(octets);
            self.restore_two(octets);
        }
    }

    /// Of a tree that stands with its label, of the label alone, of a tree
    /// that has no label.
    fn long_values(&mut self) {
        self.comment("opaque values of 32, 33 and 128 octets, in a tree and its label, in the label alone, in a tree without a label: saved in form two; older refuses 19 above 32, before 16");
        for root in [ROOT.to_vec(), tree_b().root] {
            for length in [32, 33, LONGEST_OPAQUE] {
                let name = TreeName {
                    root: root.clone(),
                    opaque: formed::single(7, length, 7),
                };
                let element = wire::write_element(&name);
                self.order(Order::Start(16));
                self.order(Order::Route(root.clone(), 0));
                self.order(Order::Join(element.clone()));
                self.save_and_move();
                self.order(Order::Leave(element.clone()));
                self.save_and_move();
                self.tell(0, Kind::Release, &name, 16);
                self.order(Order::Route(root.clone(), 17));
                self.order(Order::Join(element));
                self.save_and_move();
            }
        }
    }

    fn save_and_move(&mut self) {
        let two = self.saved_two();
        self.order(Order::Save);
        self.order(Order::SaveTwo);
        self.older(&two);
        self.room(0);
        self.older(&two);
        self.room(LONGEST_SAVE_TWO);
        self.restore_two(&two);
    }

    fn last_given(&mut self) {
        self.comment("18 was given last and is free, 16 is the highest in use: after a swap by form two 19 is next, by form one 17");
        self.fresh();
        for number in 1..=3 {
            self.join_numbered(ROOT, number);
        }
        for (number, label) in [(2, 17), (3, 18)] {
            let name = numbered(ROOT, number);
            self.order(Order::Leave(wire::write_element(&name)));
            self.tell(0, Kind::Release, &name, label);
        }
        let (one, two) = (self.saved(), self.saved_two());
        self.order(Order::SaveTwo);
        self.order(Order::Start(500));
        self.restore_two(&two);
        self.join_numbered(ROOT, 4);
        self.restore(&one);
        self.join_numbered(ROOT, 4);
        self.comment("a refused restore leaves it; a save, a move and a lookup too: 18 is next");
        self.restore_two(&two[1..]);
        self.order(Order::SaveTwo);
        self.older(&two);
        self.newer(&one);
        self.join_numbered(ROOT, 5);
        self.comment("every label of the block may be the last given, in use or free: the one after it is next, behind the last one the first");
        for last in [15, 16, 17, 18, 270, 271, 272] {
            self.restore_two(&with_last(&two, last));
            self.join_numbered(ROOT, 4);
            self.order(Order::SaveTwo);
        }
    }

    fn none_given(&mut self) {
        self.comment("no label is in use: none is taken, and every label of the block; the next is the base, or the one behind");
        self.fresh();
        self.order(Order::Join(wire::write_element(&tree_b())));
        let two = self.saved_two();
        for last in [0, 1, 15, 16, 200, 271, 272, 1_048_576, u32::MAX] {
            let octets = with_last(&two, last);
            self.restore_two(&octets);
            self.order(Order::SaveTwo);
            self.older(&octets);
            self.join_numbered(ROOT, 1);
        }
        self.comment("once 16 was given it is the last, also when it is free again; newer of older says none");
        self.fresh();
        self.join_numbered(ROOT, 1);
        self.order(Order::Leave(wire::write_element(&numbered(ROOT, 1))));
        self.tell(0, Kind::Release, &numbered(ROOT, 1), 16);
        let (one, two) = (self.saved(), self.saved_two());
        self.order(Order::SaveTwo);
        self.older(&two);
        self.newer(&one);
        self.restore_two(&moved(&one));
        self.order(Order::SaveTwo);
    }

    fn last_given_spoiled(&mut self) {
        self.comment("none while a label is in use, awaiting or mapped, and what is outside the block: 19 by restore2 and older");
        self.swapped();
        let two = self.saved_two();
        self.order(Order::Start(99));
        for last in [0, 1, 15, 272, 16 + 65536, u32::MAX] {
            let octets = with_last(&two, last);
            self.restore_two(&octets);
            self.older(&octets);
        }
        self.comment("the block's ends and between are taken");
        for last in [16, 17, 18, 271] {
            let octets = with_last(&two, last);
            self.older(&octets);
            self.restore_two(&octets);
        }
        self.order(Order::SaveTwo);
        self.comment("the label that awaits release alone: 0 is refused, 16 taken");
        let awaiting = kept_of(&two, &[0, 1, 3, 4]);
        for last in [0, 16] {
            self.restore_two(&with_last(&awaiting, last));
        }
        self.order(Order::SaveTwo);
    }

    /// The standing table of base 99 stays, as its save shows at the end.
    fn spoiled_in_two(&mut self) {
        self.swapped();
        let two = self.saved_two();
        self.comment(
            "each field spoiled: refused 19 by restore2 and by older, and the standing table stays",
        );
        self.order(Order::Start(99));
        self.order(Order::Join(wire::write_element(&tree_b())));
        for length in [0, 1, 3, HEAD_TWO - 1, HEAD_TWO, LABEL_17, EXAMPLE - 1] {
            self.restore_two(&two[..length]);
        }
        self.restore_two(&[&two[..], &two[LABEL_17..]].concat());
        for (what, place, octet) in SPOILED {
            if !what.is_empty() {
                self.comment(what);
            }
            let mut spoiled = two.clone();
            spoiled[place] = octet;
            self.restore_two(&spoiled);
            self.older(&spoiled);
        }
        self.comment("an element that has an octet more, and one less, with its length");
        for (place, more) in [(TREE_A, 1), (LABEL_16, 1), (TREE_B, -1)] {
            self.restore_two(&stretched(&two, place, more));
        }
        self.ask(&[16, 99], &[tree_a(), tree_b()]);
        self.order(Order::SaveTwo);
        self.comment("taken: another identifier, another branch label, another opaque octet of a label that awaits");
        for (place, octet) in [
            (10, 9),
            (TREE_A + 4 + ELEMENT_A + 8, 101),
            (LABEL_16 + 9 + ELEMENT_A, 8),
        ] {
            let mut other = two.clone();
            other[place] = octet;
            self.restore_two(&other);
            self.order(Order::SaveTwo);
        }
    }

    fn other_tables_in_two(&mut self) {
        self.swapped();
        let two = self.saved_two();
        self.comment("what another table would write is taken: without the label that awaits release, or without B; B before A");
        for kept in OTHER_TABLES {
            self.restore_two(&kept_of(&two, kept));
            self.order(Order::SaveTwo);
        }
        self.comment(NO_TABLES_SAY);
        for kept in NO_TABLES {
            let octets = kept_of(&two, kept);
            self.restore_two(&octets);
            self.older(&octets);
        }
        self.order(Order::SaveTwo);
    }

    fn full_card_in_two(&mut self) {
        self.comment("32 routes, 64 trees with the longest names and 256 labels for them: 55667 octets, refused 16 in room for 55666; older refuses 19");
        let root = tree_b().root;
        self.order(Order::Start(16));
        self.order(Order::Route(root.clone(), 0));
        for number in 1..=64 {
            let opaque = formed::single(number, LONGEST_OPAQUE, number);
            let root = root.clone();
            self.tell(4, Kind::Mapping, &TreeName { root, opaque }, 100);
        }
        for route in [1, 2, 3] {
            self.order(Order::Route(root.clone(), route));
        }
        for number in 101..=131 {
            self.route([10, 0, 0, number], 5);
        }
        self.room(LONGEST_SAVE_TWO - 1);
        self.order(Order::SaveTwo);
        self.room(LONGEST_SAVE_TWO);
        self.order(Order::SaveTwo);
        let save = self.saved_two();
        self.order(Order::Start(99));
        self.restore_two(&save);
        self.order(Order::Free);
        self.ask(&[16, 208, 271], &[]);
        self.older(&save);
        self.comment("one octet more is a bad line");
        for line in [Order::RestoreTwo(save.clone()), Order::Older(save)] {
            self.text(line.to_line() + "00");
        }
        self.order(Order::Free);
    }

    fn longest_in_one(&mut self) {
        self.comment("newer takes as many octets as a save of form one may have, 23343; one more is a bad line");
        for octets in [LONGEST_SAVE, LONGEST_SAVE + 1] {
            self.newer(&vec![0x4c; octets]);
        }
    }
}

/// The octets of form two for the save of form one.
fn moved(one: &[u8]) -> Vec<u8> {
    crate::save_two::newer(one, LONGEST_SAVE_TWO).expect("a card wrote it")
}

fn with_last(two: &[u8], last: u32) -> Vec<u8> {
    let mut octets = two.to_vec();
    octets[LAST_GIVEN..HEAD_TWO].copy_from_slice(&last.to_be_bytes());
    octets
}

/// The element of the record at the place has an octet more behind it, or one
/// less, and the record's length says so.
fn stretched(two: &[u8], place: usize, more: i8) -> Vec<u8> {
    let length = place + if two[place + 2] == 6 { 3 } else { 9 };
    let end = length + 1 + usize::from(two[length]);
    let mut octets = two.to_vec();
    octets[length] = octets[length].wrapping_add_signed(more);
    if more > 0 {
        octets.insert(end, 0);
    } else {
        octets.remove(end - 1);
    }
    octets
}

/// One octet of the example, and what it then says.
const SPOILED: [(&str, usize, u8); 49] = [
    ("the head's mark and kind", 0, 0x4d),
    ("", 1, 0x44),
    ("", 2, 1),
    ("", 2, 6),
    ("base 15, and one that 16 lies outside of", 6, 15),
    ("", 6, 17),
    (
        "counts: no route, two; a tree less, one more; a label less, 258",
        11,
        0,
    ),
    ("", 11, 2),
    ("", 12, 1),
    ("", 12, 3),
    ("", 14, 1),
    ("", 13, 1),
    (
        "the last given: none, beyond the block, before it",
        LAST_GIVEN + 3,
        0,
    ),
    ("", LAST_GIVEN + 2, 1),
    ("", LAST_GIVEN, 1),
    ("", LAST_GIVEN + 3, 15),
    (
        "the route's kind: that of a tree, of either form",
        ROUTE_A + 2,
        3,
    ),
    ("", ROUTE_A + 2, 6),
    ("its neighbour: none, this node, another", ROUTE_A + 3, 17),
    ("", ROUTE_A + 3, 16),
    ("", ROUTE_A + 3, 4),
    ("its root: length, octet, padding", ROUTE_A + 4, 5),
    ("", ROUTE_A + 5, 193),
    ("", ROUTE_A + 9, 1),
    (
        "A's kind: that of form one; its element's length",
        TREE_A + 2,
        3,
    ),
    ("", TREE_A + 3, 16),
    ("", TREE_A + 3, 18),
    ("", TREE_A + 3, 0),
    ("", TREE_A + 3, 255),
    (
        "its element: type, family, address length, opaque length, an element in the opaque value",
        TREE_A + 4,
        7,
    ),
    ("", TREE_A + 6, 2),
    ("", TREE_A + 7, 16),
    ("", TREE_A + 13, 6),
    ("", TREE_A + 13, 0),
    ("", TREE_A + 16, 3),
    (
        "leaf mark 2, branch labels 15 and 1048676, and none at all",
        TREE_A + 21,
        2,
    ),
    ("", TREE_A + 29, 15),
    ("", TREE_A + 27, 16),
    ("", TREE_A + 29, 0),
    ("B without its leaf", TREE_B + 4 + ELEMENT_B, 0),
    ("a label's kind: that of form one", LABEL_16 + 2, 4),
    ("label 15, and 17 twice", LABEL_16 + 6, 15),
    ("", LABEL_16 + 6, 17),
    ("16 mapped too, and neither", LABEL_16 + 7, 1),
    ("", LABEL_16 + 7, 3),
    (
        "awaited from 16; 17 mapped to 2, and awaiting; its element another",
        LABEL_16 + 8,
        16,
    ),
    ("", LABEL_17 + 8, 2),
    ("", LABEL_17 + 7, 2),
    ("", LABEL_17 + 9 + ELEMENT_A, 8),
];

#[cfg(test)]
#[path = "save_two_cases_tests.rs"]
mod tests;
