//! Request [3], "Save the table over a card swap", as a page of cases.

use crate::bench::{self, Order};
use crate::card::{NO_ROUTE, THIS_NODE};
use crate::cases::{numbered, tree_a, Page, LONG_ROOT, OTHER_ROOT, ROOT};
use crate::formed;
use crate::save::{HEAD, LABEL, LONGEST_SAVE, ROUTE, TREE};
use crate::save_damage::{counted, joined, records};
use crate::wire::{self, Kind, TreeName};

pub fn day() -> Vec<String> {
    let mut page = Page::new();
    page.comment("request [3]: the table as octets, and back");
    page.room(LONGEST_SAVE);
    page.example();
    page.empty_table();
    page.between_save_and_restore();
    page.order_of_routes();
    page.refused_saves();
    page.other_tables();
    page.full_card();
    page.lines
}

/// A tree of another root, which has no route.
pub fn tree_b() -> TreeName {
    let root = LONG_ROOT.to_vec();
    let opaque = formed::bare(9);
    TreeName { root, opaque }
}

/// Record by record: the head, a route, two trees and two labels.
const EXAMPLE: usize = HEAD + ROUTE + 2 * TREE + 2 * LABEL;
const ROUTE_A: usize = HEAD;
const TREE_A: usize = ROUTE_A + ROUTE;
const TREE_B: usize = TREE_A + TREE;
const LABEL_16: usize = TREE_B + TREE;
const LABEL_17: usize = LABEL_16 + LABEL;

impl Page {
    /// What the card that the page's orders lead to would write.
    pub fn saved(&self) -> Vec<u8> {
        let card = bench::card_after(&self.lines);
        card.save(LONGEST_SAVE).expect("there is room")
    }

    fn save_in(&mut self, room: usize) {
        self.room(room);
        self.order(Order::Save);
    }

    pub fn restore(&mut self, octets: &[u8]) {
        self.order(Order::Restore(octets.to_vec()));
    }

    /// The card of docs/SAVE.md's example.
    pub fn swapped(&mut self) {
        self.fresh();
        self.tell(1, Kind::Mapping, &tree_a(), 100);
        self.order(Order::Join(wire::write_element(&tree_b())));
        self.route(ROOT, 3);
    }

    fn ask_both(&mut self) {
        self.ask(&[16, 17, 18], &[tree_a(), tree_b()]);
    }

    fn example(&mut self) {
        self.comment("the example: 390 octets, refused 16 in room for 389");
        self.swapped();
        for room in [EXAMPLE - 1, EXAMPLE, LONGEST_SAVE] {
            self.save_in(room);
        }
        let save = self.saved();
        self.comment("on another card it is the same table, which counts on: identifier 4, label 18 though 16 is released, then 19");
        self.order(Order::Start(99));
        self.restore(&save);
        self.order(Order::Save);
        self.ask_both();
        self.tell(0, Kind::Release, &tree_a(), 16);
        self.tell(2, Kind::Mapping, &numbered(ROOT, 1), 200);
        self.tell(2, Kind::Mapping, &numbered(ROOT, 2), 200);
        self.ask_both();
    }

    fn empty_table(&mut self) {
        self.comment("an empty table: 15 octets, refused 16 in room for 14 and for none");
        self.order(Order::Start(1_048_320));
        for room in [0, HEAD - 1, HEAD] {
            self.save_in(room);
        }
        let save = self.saved();
        self.comment("restoring asks for no room");
        self.room(0);
        self.order(Order::Start(16));
        self.restore(&save);
        self.order(Order::Room(u32::MAX));
        self.order(Order::Save);
    }

    fn between_save_and_restore(&mut self) {
        self.comment("events came between: the table is that of the save again");
        self.swapped();
        let save = self.saved();
        self.order(Order::Save);
        self.tell(1, Kind::Withdraw, &tree_a(), 100);
        self.order(Order::Leave(wire::write_element(&tree_b())));
        self.route(OTHER_ROOT, 7);
        self.ask_both();
        self.order(Order::Save);
        self.restore(&save);
        self.ask_both();
        self.order(Order::Save);
        self.comment("and again, with none between");
        self.restore(&save);
        self.order(Order::Save);
    }

    fn order_of_routes(&mut self) {
        self.comment("routes stand in the order of their first entry; trees oldest first");
        self.order(Order::Start(500));
        for last in [9, 3, 7, 1] {
            self.route([10, 0, 0, last], u32::from(last));
        }
        self.route([10, 0, 0, 3], THIS_NODE);
        self.route([10, 0, 0, 9], NO_ROUTE);
        self.route([10, 0, 0, 9], 15);
        for last in [7, 3] {
            self.order(Order::Join(wire::write_element(&numbered(
                [10, 0, 0, last],
                last,
            ))));
        }
        self.order(Order::Save);
        let save = self.saved();
        self.order(Order::Start(16));
        self.restore(&save);
        self.order(Order::Save);
    }

    /// The standing table of base 99 stays, as its save shows at the end.
    fn refused_saves(&mut self) {
        self.swapped();
        let save = self.saved();
        self.comment("refused 19, and the standing table stays");
        self.order(Order::Start(99));
        self.order(Order::Join(wire::write_element(&tree_b())));
        for length in [0, 1, HEAD - 1, HEAD, LABEL_17, EXAMPLE - 1] {
            self.restore(&save[..length]);
        }
        let more = [&save[..], &[0]].concat();
        self.restore(&more);
        let again = [&save[..], &save[LABEL_17..]].concat();
        self.restore(&again);
        for (what, place, octet) in SPOILED {
            if !what.is_empty() {
                self.comment(what);
            }
            let mut spoiled = save.clone();
            spoiled[place] = octet;
            self.restore(&spoiled);
        }
        self.ask(&[16, 99], &[tree_a(), tree_b()]);
        self.order(Order::Save);
    }

    /// Records gone, doubled and changed about, with the counts right.
    fn other_tables(&mut self) {
        self.swapped();
        let save = self.saved();
        self.comment("what another table would write is taken: without the label that awaits release, or without B; B before A; B alone");
        for kept in OTHER_TABLES {
            self.restore(&kept_of(&save, kept));
            self.order(Order::Save);
        }
        self.comment(NO_TABLES_SAY);
        for kept in NO_TABLES {
            self.restore(&kept_of(&save, kept));
        }
        self.order(Order::Save);
    }

    fn full_card(&mut self) {
        self.comment("32 routes, 64 trees and 256 labels in use: 23343 octets, refused 16 in room for 23342; room for 22272 is no whole buffer here");
        self.fresh();
        for number in 1..=64 {
            self.tell(4, Kind::Mapping, &numbered(ROOT, number), 100);
        }
        for route in [1, 2, 3] {
            self.route(ROOT, route);
        }
        for number in 101..=131 {
            self.route([10, 0, 0, number], 5);
        }
        for room in [bench::WHOLE_BUFFER, LONGEST_SAVE - 1, LONGEST_SAVE] {
            self.save_in(room);
        }
        let save = self.saved();
        self.order(Order::Start(99));
        self.restore(&save);
        self.ask(&[16, 208, 271], &[numbered(ROOT, 1), numbered(ROOT, 64)]);
        self.comment("one octet more is a bad line");
        let line = Order::Restore(save).to_line();
        self.text(line + "00");
        self.order(Order::Free);
    }
}

/// Records of the example, of either form: 0 the head, 1 the route, 2 A, 3 B,
/// 4 the label that awaits release, 5 the one that is mapped.
pub const OTHER_TABLES: [&[usize]; 4] = [
    &[0, 1, 2, 3, 5],
    &[0, 1, 2, 4, 5],
    &[0, 1, 3, 2, 4, 5],
    &[0, 3],
];
pub const NO_TABLES: [&[usize]; 8] = [
    &[0, 1, 2, 3, 4],
    &[0, 1, 3, 4, 5],
    &[0, 2, 3, 4, 5],
    &[0, 1, 2, 3, 4, 5, 5],
    &[0, 1, 2, 3, 5, 4],
    &[0, 1, 2, 3, 3, 4, 5],
    &[0, 1, 1, 2, 3, 4, 5],
    &[0, 2, 1, 3, 4, 5],
];
pub const NO_TABLES_SAY: &str = "refused 19: A's label gone, A gone, its route gone, a label twice, labels changed about, a tree twice, a route twice, trees before routes";

pub fn kept_of(save: &[u8], kept: &[usize]) -> Vec<u8> {
    let all = records(save);
    let mut some: Vec<Vec<u8>> = kept.iter().map(|place| all[*place].clone()).collect();
    counted(&mut some);
    joined(&some)
}

/// One octet of the example, and what it then says.
const SPOILED: [(&str, usize, u8); 34] = [
    ("the head's mark and kind", 0, 0x4d),
    ("", 1, 0x44),
    ("", 2, 2),
    ("base 15, and one that 16 lies outside of", 6, 15),
    ("", 6, 17),
    (
        "counts: no route, two; a tree less, one more; a label less, 258",
        11,
        0,
    ),
    ("", 11, 2),
    ("", 12, 1),
    ("", 12, 3),
    ("", 14, 1),
    ("", 13, 1),
    ("the route's kind", ROUTE_A + 2, 3),
    ("its neighbour: none, this node, another", ROUTE_A + 3, 17),
    ("", ROUTE_A + 3, 16),
    ("", ROUTE_A + 3, 4),
    ("its root: length, octet, padding", ROUTE_A + 4, 5),
    ("", ROUTE_A + 5, 193),
    ("", ROUTE_A + 9, 1),
    (
        "A's root length, opaque length, padding, leaf mark",
        TREE_A + 3,
        0,
    ),
    ("", TREE_A + 20, 0),
    ("", TREE_A + 20, 33),
    ("", TREE_A + 28, 1),
    ("", TREE_A + 53, 2),
    (
        "branch labels 15 and 1048676, and none at all",
        TREE_A + 61,
        15,
    ),
    ("", TREE_A + 59, 16),
    ("", TREE_A + 61, 0),
    ("B without its leaf", TREE_B + 53, 0),
    ("label 15, and 17 twice", LABEL_16 + 6, 15),
    ("", LABEL_16 + 6, 17),
    ("16 mapped too, and neither", LABEL_16 + 7, 1),
    ("", LABEL_16 + 7, 3),
    (
        "awaited from 16, 17 mapped to 2, 17 awaiting",
        LABEL_16 + 8,
        16,
    ),
    ("", LABEL_17 + 8, 2),
    ("", LABEL_17 + 7, 2),
];

#[cfg(test)]
#[path = "save_cases_tests.rs"]
mod tests;
