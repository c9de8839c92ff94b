use super::*;
use crate::bench::{answer_number, WHOLE_BUFFER};

#[path = "held_tests.rs"]
mod held;

#[path = "lost_tests.rs"]
mod lost;

const ROOT: [u8; 4] = [192, 0, 2, 1];
/// Of a tree that `name` names.
const RECORD: usize = 37;

fn name(number: u8) -> TreeName {
    TreeName {
        root: ROOT.to_vec(),
        opaque: crate::formed::bare(number),
    }
}

fn fresh() -> Card {
    Card::start(16).1
}

/// A card whose root has a route to neighbour 0, and trees 1 to `trees`.
fn grown(trees: u8) -> Card {
    let mut card = fresh();
    assert_eq!(route(&mut card, 0), 0);
    for number in 1..=trees {
        assert_eq!(tell(&mut card, 1, Kind::Mapping, number, 100), 0);
    }
    card
}

fn tell(card: &mut Card, from: u32, kind: Kind, number: u8, label: u32) -> u8 {
    tell_in(card, from, kind, number, label, WHOLE_BUFFER)
}

fn tell_in(card: &mut Card, from: u32, kind: Kind, number: u8, label: u32, room: usize) -> u8 {
    let before = card.clone();
    let message = wire::write_message(kind, 5, &name(number), label);
    let answer = card.take(from, &message, room);
    assert!(answer.is_ok() || *card == before);
    answer_number(&answer)
}

fn route(card: &mut Card, to: u32) -> u8 {
    answer_number(&card.route(&ROOT, to, WHOLE_BUFFER))
}

fn join(card: &mut Card, number: u8) -> u8 {
    answer_number(&card.join(&wire::write_element(&name(number)), WHOLE_BUFFER))
}

fn leave(card: &mut Card, number: u8) -> u8 {
    answer_number(&card.leave(&wire::write_element(&name(number)), WHOLE_BUFFER))
}

#[test]
fn start_ranges() {
    for (base, number, given) in [
        (15, 17, 16),
        (16, 0, 16),
        (1_048_320, 0, 1_048_320),
        (1_048_321, 17, 16),
        (u32::MAX, 17, 16),
    ] {
        let (answer, card) = Card::start(base);
        assert_eq!(answer_number(&answer), number);
        assert_eq!(card, Card::fresh(given));
        assert_eq!(card.free_labels(), 256);
    }
}

#[test]
fn neighbour_is_tested_first() {
    let mut card = fresh();
    assert_eq!(answer_number(&card.take(16, &[], 0)), 1);
    assert_eq!(answer_number(&card.take(15, &[], 0)), 2);
    assert_eq!(answer_number(&card.route(&[], 18, 0)), 1);
    assert_eq!(answer_number(&card.route(&[], 17, 0)), 6);
    assert_eq!(answer_number(&card.route(&[0; 16], u32::MAX, 0)), 1);
    for (length, number) in [(0, 6), (3, 6), (4, 0), (5, 6), (15, 6), (16, 0), (17, 6)] {
        assert_eq!(answer_number(&card.route(&vec![1; length], 3, 0)), number);
    }
}

#[test]
fn identifiers_wrap() {
    let mut card = grown(0);
    card.next_identifier = u32::MAX;
    let message = wire::write_message(Kind::Withdraw, 5, &name(1), 100);
    let identifiers = [u32::MAX, 0, 1].map(|_| {
        let record = card.take(1, &message, 100).expect("a Withdraw is taken");
        u32::from_be_bytes([record[8], record[9], record[10], record[11]])
    });
    assert_eq!(identifiers, [u32::MAX, 0, 1]);
}

#[test]
fn a_refused_event_takes_no_identifier() {
    let mut card = grown(1);
    assert_eq!(tell(&mut card, 1, Kind::Mapping, 1, 101), 10);
    assert_eq!(tell_in(&mut card, 1, Kind::Withdraw, 1, 100, 0), 16);
    assert_eq!(card.next_identifier, 2);
}

#[test]
fn withdraw_and_release() {
    let mut card = grown(2);
    assert_eq!(
        card.find_label(16).map(|f| f.branches),
        Some(vec![(1, 100)])
    );
    assert_eq!(tell(&mut card, 1, Kind::Release, 1, 16), 13);
    assert_eq!(tell(&mut card, 0, Kind::Release, 1, 16), 13);
    assert_eq!(tell(&mut card, 1, Kind::Withdraw, 1, 101), 0);
    assert_eq!(card.trees().len(), 2);
    assert_eq!(tell(&mut card, 1, Kind::Withdraw, 1, 100), 0);
    assert_eq!(card.trees().len(), 1);
    assert_eq!(card.find_label(16), None);
    assert_eq!(card.free_labels(), 254);
    assert_eq!(tell(&mut card, 1, Kind::Release, 1, 16), 13);
    assert_eq!(tell(&mut card, 0, Kind::Release, 2, 16), 13);
    assert_eq!(tell(&mut card, 0, Kind::Release, 1, 272), 13);
    assert_eq!(tell(&mut card, 0, Kind::Release, 1, 16), 0);
    assert_eq!(card.free_labels(), 255);
}

#[test]
fn a_withdraw_needs_room_for_both_records() {
    let mut card = grown(1);
    let record = RECORD;
    assert_eq!(
        tell_in(&mut card, 1, Kind::Withdraw, 1, 100, 2 * record - 1),
        16
    );
    assert_eq!(tell_in(&mut card, 1, Kind::Withdraw, 1, 100, 2 * record), 0);
    assert_eq!(
        tell_in(&mut card, 1, Kind::Withdraw, 1, 100, record - 1),
        16
    );
    assert_eq!(tell_in(&mut card, 1, Kind::Withdraw, 1, 100, record), 0);
}

#[test]
fn leaves() {
    let mut card = grown(1);
    assert_eq!(leave(&mut card, 1), 14);
    assert_eq!(leave(&mut card, 2), 14);
    assert_eq!(join(&mut card, 1), 0);
    let joined = card.clone();
    assert_eq!(join(&mut card, 1), 0);
    assert_eq!(card, joined);
    assert_eq!(tell(&mut card, 1, Kind::Withdraw, 1, 100), 0);
    assert_eq!(card.trees().len(), 1);
    assert_eq!(leave(&mut card, 1), 0);
    assert_eq!(card.trees().len(), 0);
    assert_eq!(card.free_labels(), 255);
    assert_eq!(leave(&mut card, 1), 14);
}

#[test]
fn routes_without_an_upstream_hold_no_label() {
    let mut card = grown(2);
    for (to, free) in [(THIS_NODE, 254), (NO_ROUTE, 254), (NO_ROUTE, 254), (5, 252)] {
        assert_eq!(route(&mut card, to), 0);
        assert_eq!(card.free_labels(), free);
        assert_eq!(card.trees().len(), 2);
        assert_eq!(card.routes().len(), usize::from(to != NO_ROUTE));
    }
    assert_eq!(
        card.find_label(18).map(|f| f.branches),
        Some(vec![(1, 100)])
    );
}

#[test]
fn records_of_a_move_come_tree_by_tree() {
    let mut card = grown(2);
    let records = card.route(&ROOT, 7, 4 * RECORD).expect("it fits");
    let heads: Vec<(u8, u8, u8)> = records
        .chunks(RECORD)
        .map(|record| (record[3], record[5], record[RECORD - 1]))
        .collect();
    assert_eq!(heads, [(0, 2, 16), (7, 0, 18), (0, 2, 17), (7, 0, 19)]);
}

#[test]
fn thirty_two_roots() {
    let mut card = grown(1);
    for number in 2..=32 {
        assert_eq!(answer_number(&card.route(&[10, 0, 0, number], 16, 0)), 0);
    }
    let new = [10, 0, 0, 33];
    assert_eq!(answer_number(&card.route(&new, 3, 0)), 15);
    assert_eq!(answer_number(&card.route(&new, THIS_NODE, 0)), 15);
    assert_eq!(answer_number(&card.route(&new, NO_ROUTE, 0)), 0);
    assert_eq!(answer_number(&card.route(&[10, 0, 0, 2], 4, 0)), 0);
    assert_eq!(route(&mut card, NO_ROUTE), 0);
    assert_eq!(answer_number(&card.route(&new, 3, 0)), 0);
    assert_eq!(route(&mut card, 3), 15);
}

/// With a tree that waits for a route, no free label, no room and no root
/// left, one reason after the other is taken away.
#[test]
fn a_route_order_tests_15_then_12_then_16() {
    let mut card = grown(64);
    for to in [2, 3, 4] {
        assert_eq!(route(&mut card, to), 0);
    }
    assert_eq!(card.free_labels(), 0);
    assert_eq!(route(&mut card, NO_ROUTE), 0);
    for number in 1..=32 {
        assert_eq!(answer_number(&card.route(&[10, 0, 0, number], 16, 0)), 0);
    }
    assert_eq!(answer_number(&card.route(&ROOT, 5, 0)), 15);
    assert_eq!(answer_number(&card.route(&[10, 0, 0, 1], NO_ROUTE, 0)), 0);
    assert_eq!(answer_number(&card.route(&ROOT, 5, 0)), 12);
    for number in 1..=64 {
        let label = 15 + u32::from(number);
        assert_eq!(tell(&mut card, 0, Kind::Release, number, label), 0);
    }
    assert_eq!(answer_number(&card.route(&ROOT, 5, 64 * RECORD - 1)), 16);
    assert_eq!(answer_number(&card.route(&ROOT, 5, 64 * RECORD)), 0);
}

#[test]
fn new_trees_test_11_then_12_then_16() {
    let mut card = grown(64);
    for to in [2, 3, 4] {
        assert_eq!(route(&mut card, to), 0);
    }
    assert_eq!(tell_in(&mut card, 1, Kind::Mapping, 65, 100, 0), 11);
    assert_eq!(tell(&mut card, 1, Kind::Withdraw, 64, 100), 0);
    assert_eq!(tell_in(&mut card, 1, Kind::Mapping, 65, 100, 0), 12);
    assert_eq!(tell(&mut card, 0, Kind::Release, 1, 16), 0);
    assert_eq!(
        tell_in(&mut card, 1, Kind::Mapping, 65, 100, RECORD - 1),
        16
    );
    assert_eq!(tell_in(&mut card, 1, Kind::Mapping, 65, 100, RECORD), 0);
}

#[test]
fn families_do_not_mix() {
    let mut card = grown(1);
    let mut long_root = ROOT.to_vec();
    long_root.resize(16, 0);
    let long = TreeName {
        root: long_root.clone(),
        opaque: name(1).opaque,
    };
    let element = wire::write_element(&long);
    assert_eq!(card.find_tree(&element), None);
    assert_eq!(card.join(&element, 0), Ok(Vec::new()));
    assert_eq!(card.free_labels(), 255);
    let records = card.route(&long_root, 2, 100).expect("it fits");
    assert_eq!(records.len(), 4 + 42 + 3);
    assert_eq!(card.find_label(17).map(|f| f.leaf), Some(true));
    assert_eq!(card.find_label(16).map(|f| f.leaf), Some(false));
}

fn notice(card: &mut Card, to: u32, number: u32, room: usize) -> (u8, Vec<u8>) {
    let before = card.clone();
    let refused = wire::write_frame(0x0401, 9, &[]);
    let answer = card.notice(to, number, &refused, room);
    assert!(answer.as_ref().is_ok_and(|o| !o.is_empty()) || *card == before);
    (answer_number(&answer), answer.unwrap_or_default())
}

/// The record for number 3 to neighbour 1, with the identifier's octets.
fn notice_octets(identifier: [u8; 4]) -> Vec<u8> {
    let mut octets = vec![0x4c, 0x44, 0, 1, 0, 1, 0, 18];
    octets.extend(identifier);
    octets.extend([3, 0, 0, 10, 0, 0, 0, 4, 0, 0, 0, 9, 4, 1]);
    octets
}

#[test]
fn notices_take_identifiers_in_turn() {
    let mut card = grown(1);
    for identifier in [2, 3] {
        let written = notice(&mut card, 1, 3, WHOLE_BUFFER);
        assert_eq!(written, (0, notice_octets([0, 0, 0, identifier])));
    }
    assert_eq!(notice(&mut card, 1, 10, WHOLE_BUFFER), (0, vec![]));
    assert_eq!(notice(&mut card, 1, 3, 25), (16, vec![]));
    assert_eq!(notice(&mut card, 16, 3, WHOLE_BUFFER), (1, vec![]));
    let written = card.route(&ROOT, 3, WHOLE_BUFFER).expect("it is taken");
    assert_eq!(written[8..12], [0, 0, 0, 4]);
    assert_eq!(card.next_identifier, 6);
}

#[test]
fn after_the_last_identifier_comes_0() {
    let mut card = fresh();
    card.next_identifier = u32::MAX;
    for octets in [[255; 4], [0; 4], [0, 0, 0, 1]] {
        let written = notice(&mut card, 1, 3, 26);
        assert_eq!(written, (0, notice_octets(octets)));
    }
}

#[test]
fn a_notice_changes_nothing_but_the_identifier() {
    let mut card = grown(5);
    let mut before = card.clone();
    notice(&mut card, 0, 2, 26);
    before.next_identifier += 1;
    assert_eq!(card, before);
}

#[test]
fn room_and_neighbour_of_a_notice() {
    for (to, number, room, answer, written) in [
        (15, 3, 26, 0, 26),
        (15, 3, 25, 16, 0),
        (15, 3, 0, 16, 0),
        (15, 13, 0, 0, 0),
        (16, 3, 26, 1, 0),
        (16, 3, 0, 1, 0),
        (16, 13, 0, 1, 0),
        (u32::MAX, 3, 26, 1, 0),
    ] {
        let (number, octets) = notice(&mut fresh(), to, number, room);
        assert_eq!((number, octets.len()), (answer, written));
    }
}
