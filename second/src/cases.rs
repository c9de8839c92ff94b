//! The thirteen cases of "Both sides of the edge" as a day, and more edges:
//! the longest output, the most roots, and the notices of request [1].

use crate::bench::{Order, WHOLE_BUFFER};
use crate::card::{NO_ROUTE, THIS_NODE};
use crate::formed;
use crate::wire::{self, Kind, TreeName};

pub const ROOT: [u8; 4] = [192, 0, 2, 1];
/// Of a tree that has a number, under a root of 4 octets.
pub const NUMBERED_RECORD: usize = 4 + 30 + formed::SHORTEST;
/// 2001:db8::1.
pub const LONG_ROOT: [u8; 16] = [0x20, 0x01, 0x0d, 0xb8, 0, 0, 0, 0, 0, 0, 0, 0, 0, 0, 0, 1];
pub const OTHER_ROOT: [u8; 4] = [192, 0, 2, 2];
const THIRD_ROOT: [u8; 4] = [192, 0, 2, 3];

pub struct Page {
    pub lines: Vec<String>,
    /// What neighbours put into their messages; the card doesn't heed it.
    identifier: u32,
}

pub fn day() -> Vec<String> {
    let mut page = Page::new();
    page.comment("Tree A: root 192.0.2.1, opaque 01 00 04 00 00 00 07. Cases 1 to 7 on one card.");
    page.fresh();
    page.one_to_four();
    page.five_to_seven();
    page.eight();
    page.nine();
    page.ten();
    page.eleven();
    page.twelve();
    page.thirteen();
    page.lines
}

/// A route order that fills the whole buffer, and is refused one octet of it.
pub fn longest_output() -> Vec<String> {
    let mut page = Page::new();
    page.comment(
        "64 trees with the longest names move: 22272 octets, refused 16 in room for 22271",
    );
    page.comment("the room given before the start holds after it");
    page.room(WHOLE_BUFFER - 1);
    page.order(Order::Start(1_048_320));
    let root = vec![255; 16];
    page.order(Order::Route(root.clone(), 15));
    let names: Vec<TreeName> = (1..=64).map(|number| longest_name(&root, number)).collect();
    for name in &names {
        page.tell(3, Kind::Mapping, name, 1_048_575);
    }
    for _ in 0..2 {
        page.order(Order::Route(root.clone(), 0));
        page.ask(&[1_048_320, 1_048_384, 1_048_447], &names[63..]);
        page.room(WHOLE_BUFFER);
    }
    page.lines
}

/// Roots up to the most that may have a route, "this node" being one.
pub fn most_roots() -> Vec<String> {
    let mut page = Page::new();
    page.comment("32 roots have a route: a new one is refused 15, but not for \"no route\"");
    page.order(Order::Start(16));
    page.order(Order::Join(wire::write_element(&numbered(ROOT, 1))));
    for number in 101..=132 {
        page.route(
            [10, 0, 0, number],
            if number == 107 { THIS_NODE } else { 3 },
        );
    }
    for route in [4, THIS_NODE, NO_ROUTE] {
        page.route(ROOT, route);
    }
    page.comment("standing roots may change; one without a route makes place");
    page.route([10, 0, 0, 101], THIS_NODE);
    page.route(ROOT, 4);
    page.route([10, 0, 0, 107], NO_ROUTE);
    page.route(ROOT, 4);
    page.route([10, 0, 0, 107], THIS_NODE);
    page.ask(&[16], &[numbered(ROOT, 1)]);
    page.lines
}

/// Request [1]: a notice for each number, and both sides of each edge.
pub fn notices() -> Vec<String> {
    let mut page = Page::new();
    page.comment("request [1]: refused messages, and the neighbour is told why");
    page.fresh();
    page.refused_and_told();
    page.every_number();
    page.edges_of_a_notice();
    page.lines
}

fn longest_name(root: &[u8], number: u8) -> TreeName {
    TreeName {
        root: root.to_vec(),
        opaque: formed::single(number, wire::LONGEST_OPAQUE, number),
    }
}

pub fn tree_a() -> TreeName {
    TreeName {
        root: ROOT.to_vec(),
        opaque: vec![1, 0, 4, 0, 0, 0, 7],
    }
}

pub fn numbered(root: [u8; 4], number: u8) -> TreeName {
    TreeName {
        root: root.to_vec(),
        opaque: formed::bare(number),
    }
}

/// An element whose opaque length is written as given.
pub fn element_claiming(length: u16, opaque: &[u8]) -> Vec<u8> {
    let mut octets = vec![6, 0, 1, 4];
    octets.extend(ROOT);
    octets.extend(length.to_be_bytes());
    octets.extend(opaque);
    octets
}

/// A Mapping of one element, with further octets behind its label.
pub fn mapping(identifier: u32, element: &[u8], label: u32, further: &[u8]) -> Vec<u8> {
    let mut tlvs = wire::write_tlv(wire::FEC, element);
    tlvs.extend(wire::write_tlv(wire::GENERIC_LABEL, &label.to_be_bytes()));
    tlvs.extend(further);
    wire::write_frame(Kind::Mapping.code(), identifier, &tlvs)
}

impl Page {
    pub fn new() -> Page {
        Page {
            lines: Vec::new(),
            identifier: 0,
        }
    }

    pub fn comment(&mut self, text: &str) {
        self.lines.push(format!("# {text}"));
    }

    pub fn text(&mut self, text: String) {
        self.lines.push(text);
    }

    fn case(&mut self, number: usize, text: &str) {
        self.comment(&format!("case {number}: {text}"));
    }

    pub fn order(&mut self, order: Order) {
        self.lines.push(order.to_line());
    }

    pub fn room(&mut self, octets: usize) {
        self.order(Order::Room(octets as u32));
    }

    /// A fresh card of base 16 with A's root behind neighbour 0.
    pub fn fresh(&mut self) {
        self.order(Order::Start(16));
        self.route(ROOT, 0);
    }

    pub fn route(&mut self, root: [u8; 4], route: u32) {
        self.order(Order::Route(root.to_vec(), route));
    }

    pub fn tell(&mut self, from: u32, kind: Kind, name: &TreeName, label: u32) {
        self.identifier += 1;
        let message = wire::write_message(kind, self.identifier, name, label);
        self.order(Order::Take(from, message));
    }

    fn map_element(&mut self, from: u32, element: &[u8]) {
        self.order(Order::Take(from, mapping(1, element, 100, &[])));
    }

    pub fn ask(&mut self, labels: &[u32], names: &[TreeName]) {
        for label in labels {
            self.order(Order::Label(*label));
        }
        for name in names {
            self.order(Order::Tree(wire::write_element(name)));
        }
        self.order(Order::Free);
    }

    fn one_to_four(&mut self) {
        let a = tree_a();
        self.case(
            1,
            "Mapping <A, 100> from 1 writes Mapping <A, 16> to 0, identifier 1, and nothing else",
        );
        self.tell(1, Kind::Mapping, &a, 100);
        self.ask(&[16, 17], &[tree_a()]);
        self.case(2, "then Mapping <A, 200> from 2: nothing written");
        self.tell(2, Kind::Mapping, &a, 200);
        self.ask(&[16, 17], &[tree_a()]);
        self.case(3, "Withdraw <A, 100> from 1: Release 100 to 1");
        self.tell(1, Kind::Withdraw, &a, 100);
        self.ask(&[16, 17], &[tree_a()]);
        self.case(
            4,
            "Withdraw <A, 200> from 2: Release 200 to 2, then Withdraw 16 to 0, identifiers 3 and 4; lookup of 16: nothing; free: 255",
        );
        self.tell(2, Kind::Withdraw, &a, 200);
        self.ask(&[16, 17], &[tree_a()]);
    }

    fn five_to_seven(&mut self) {
        let a = tree_a();
        self.case(5, "Mapping <A, 300> from 1: Mapping 17 to 0, not 16");
        self.tell(1, Kind::Mapping, &a, 300);
        self.ask(&[16, 17], &[tree_a()]);
        self.case(
            6,
            "Release <A, 16> from 3: refused 13; from 0: accepted; again from 0: refused 13",
        );
        for from in [3, 0, 0] {
            self.tell(from, Kind::Release, &a, 16);
            self.ask(&[16, 17], &[tree_a()]);
        }
        self.case(
            7,
            "route to neighbour 3: Withdraw 17 to 0, Mapping 18 to 3, not 16, identifiers 6 and 7",
        );
        self.route(ROOT, 3);
        self.ask(&[16, 17, 18], &[tree_a()]);
    }

    fn eight(&mut self) {
        self.case(
            8,
            "on fresh cards, Mapping with label 15: refused 8; 16 and 1048575 taken; 1048576 refused 8",
        );
        for label in [15, 16, 1_048_575, 1_048_576] {
            self.fresh();
            self.tell(1, Kind::Mapping, &tree_a(), label);
            self.ask(&[16], &[tree_a()]);
        }
    }

    fn nine(&mut self) {
        self.case(
            9,
            "empty input and 7 octets: refused 2; a message with no TLV: refused 5",
        );
        self.fresh();
        let no_tlv = wire::write_frame(Kind::Mapping.code(), 1, &[]);
        self.order(Order::Take(1, Vec::new()));
        self.order(Order::Take(1, no_tlv[..7].to_vec()));
        self.order(Order::Take(1, no_tlv));
        self.ask(&[16], &[tree_a()]);
    }

    fn ten(&mut self) {
        self.case(
            10,
            "opaque of 128 octets taken, 129 refused 7; length not filling the TLV refused 6",
        );
        let filled = |length| formed::single(7, length, 7);
        let elements = [
            element_claiming(128, &filled(128)),
            element_claiming(129, &filled(129)),
            element_claiming(6, &filled(7)),
            element_claiming(8, &filled(7)),
        ];
        for element in elements {
            self.fresh();
            self.map_element(1, &element);
            self.order(Order::Label(16));
            self.order(Order::Tree(element));
            self.order(Order::Free);
        }
    }

    fn eleven(&mut self) {
        self.case(
            11,
            "with 64 trees and no free label, a new tree is refused 11, not 12; a further branch to a tree that holds a label is taken",
        );
        self.fresh();
        for number in 1..=64 {
            self.tell(4, Kind::Mapping, &numbered(ROOT, number), 100);
        }
        for route in [1, 2, 3] {
            self.route(ROOT, route);
        }
        self.order(Order::Free);
        let shown = [numbered(ROOT, 65), numbered(ROOT, 1), numbered(ROOT, 64)];
        self.tell(4, Kind::Mapping, &shown[0], 100);
        self.ask(&[16, 208, 271], &shown);
        self.order(Order::Join(wire::write_element(&shown[0])));
        self.ask(&[16, 208, 271], &shown);
        self.tell(2, Kind::Mapping, &shown[1], 200);
        self.ask(&[16, 208, 271], &shown);
    }

    fn twelve(&mut self) {
        self.case(
            12,
            "a Withdraw of an unknown tree: Release, table as before",
        );
        self.fresh();
        self.tell(1, Kind::Mapping, &tree_a(), 100);
        let shown = [tree_a(), numbered(ROOT, 9)];
        self.ask(&[16, 17], &shown);
        self.tell(1, Kind::Withdraw, &shown[1], 100);
        self.ask(&[16, 17], &shown);
    }

    fn thirteen(&mut self) {
        self.case(
            13,
            "a route order to another neighbour, for a root of three trees that each need a label there, with two free labels: refused 12, none moved",
        );
        self.fresh();
        let three = [1, 2, 3].map(|number| numbered(ROOT, number));
        for name in &three {
            self.tell(1, Kind::Mapping, name, 100);
        }
        // 25 trees with ten labels each and one with one: 3 + 250 + 1 = 254.
        self.route(OTHER_ROOT, 1);
        for number in 1..=25 {
            self.tell(11, Kind::Mapping, &numbered(OTHER_ROOT, number), 100);
        }
        for route in 2..=10 {
            self.route(OTHER_ROOT, route);
        }
        self.route(THIRD_ROOT, 5);
        self.order(Order::Join(wire::write_element(&numbered(THIRD_ROOT, 1))));
        self.ask(&[16, 17, 18, 270], &three);
        self.route(ROOT, 4);
        self.ask(&[16, 17, 18, 270], &three);
        self.comment("with a third label free it moves");
        self.tell(1, Kind::Release, &numbered(OTHER_ROOT, 1), 19);
        self.route(ROOT, 4);
        self.ask(&[16, 17, 18, 19, 270, 271], &three);
    }

    /// A message that is refused by that number, and its notice.
    pub fn told(&mut self, number: u32, octets: Vec<u8>) {
        self.order(Order::Take(1, octets.clone()));
        self.order(Order::Notice(1, number, octets));
    }

    fn refused_and_told(&mut self) {
        let element = wire::write_element(&tree_a());
        let filled = |length| formed::single(7, length, 7);
        let no_tlv = |code, identifier| wire::write_frame(code, identifier, &[]);
        let cut_short = no_tlv(0x0400, 2)[..7].to_vec();
        self.told(2, cut_short);
        self.told(3, no_tlv(0x0401, 3));
        self.comment("the U bit: nothing written");
        self.told(3, no_tlv(0x8401, 3));
        self.told(4, wire::write_frame(0x0400, 4, &[1, 0, 0, 1]));
        self.told(5, no_tlv(0x0400, 5));
        self.told(6, mapping(6, &element_claiming(6, &filled(7)), 100, &[]));
        self.told(
            7,
            mapping(7, &element_claiming(129, &filled(129)), 100, &[]),
        );
        self.told(18, mapping(18, &element_claiming(7, &[7; 7]), 100, &[]));
        self.told(8, mapping(8, &element, 15, &[]));
        let further = wire::write_tlv(0x0104, &[]);
        self.told(9, mapping(9, &element, 100, &further));
        self.comment("a label of another branch, 10, is not told");
        self.tell(1, Kind::Mapping, &tree_a(), 100);
        self.told(10, mapping(10, &element, 101, &[]));
    }

    fn every_number(&mut self) {
        self.comment("every number, of a Withdraw with identifier 2712847316");
        let refused = wire::write_frame(Kind::Withdraw.code(), 0xa1b2_c3d4, &[]);
        for number in (0..=22).chain([255, 256, 258, 65538, u32::MAX]) {
            self.order(Order::Notice(0, number, refused.clone()));
        }
    }

    fn edges_of_a_notice(&mut self) {
        let refused = wire::write_frame(0x8400, u32::MAX, &[]);
        self.comment("7 octets, whose type and identifier are not copied, and 8; the U bit in them counts for 3 alone");
        for number in [2, 3] {
            for length in [0, 7, 8] {
                self.order(Order::Notice(1, number, refused[..length].to_vec()));
            }
        }
        self.comment("room for 25 octets, and for 26; a notice that is not due needs none");
        let whole = WHOLE_BUFFER;
        for (room, number) in [(25, 2), (26, 2), (25, 3), (0, 10), (0, 2), (whole, 2)] {
            self.room(room);
            self.order(Order::Notice(1, number, refused.clone()));
        }
        self.comment("neighbours 15 and 16, who is refused 1 before 16 and whatever the number");
        self.order(Order::Notice(15, 2, refused.clone()));
        self.room(25);
        for number in [2, 3, 10] {
            self.order(Order::Notice(16, number, refused.clone()));
        }
        self.comment("the card's own messages count on from there");
        self.room(WHOLE_BUFFER);
        self.route(ROOT, 3);
        self.ask(&[16, 17], &[tree_a()]);
    }
}

#[cfg(test)]
#[path = "cases_tests.rs"]
mod tests;
