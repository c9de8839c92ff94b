//! Request [2]: no branch back to the upstream. The route of ROOT is neighbour
//! 0 at first.

use super::*;

pub const MAPPING: u8 = 0;
pub const WITHDRAW: u8 = 2;
pub const RELEASE: u8 = 3;

/// Neighbour, kind and label of each record of trees of ROOT.
pub fn told(answer: Result<Vec<u8>, Refusal>) -> Vec<(u8, u8, u8)> {
    let records = answer.expect("it is taken");
    let heads = records.chunks(RECORD).map(|r| (r[3], r[5], r[RECORD - 1]));
    heads.collect()
}

pub fn says(card: &mut Card, from: u32, kind: Kind, number: u8, label: u32) -> Vec<(u8, u8, u8)> {
    let message = wire::write_message(kind, 5, &name(number), label);
    told(card.take(from, &message, WHOLE_BUFFER))
}

pub fn moved(card: &mut Card, to: u32) -> Vec<(u8, u8, u8)> {
    told(card.route(&ROOT, to, WHOLE_BUFFER))
}

pub fn joined(card: &mut Card, number: u8) -> Vec<(u8, u8, u8)> {
    told(card.join(&wire::write_element(&name(number)), WHOLE_BUFFER))
}

pub fn left(card: &mut Card, number: u8) -> Vec<(u8, u8, u8)> {
    told(card.leave(&wire::write_element(&name(number)), WHOLE_BUFFER))
}

pub fn by_label(card: &Card, label: u32) -> Vec<(u32, u32)> {
    card.find_label(label)
        .map_or(vec![], |found| found.branches)
}

pub fn by_name(card: &Card, number: u8) -> Vec<(u32, u32)> {
    let found = card.find_tree(&wire::write_element(&name(number)));
    found.expect("it stands").branches
}

/// Tree 1 with a branch from each of these neighbours, its label 100 more.
pub fn with_branches(neighbours: &[u32]) -> Card {
    let mut card = grown(0);
    for &from in neighbours {
        says(&mut card, from, Kind::Mapping, 1, 100 + from);
    }
    card
}

/// Tree 1 with these branches beside so many free labels: trees 101 to 132 of
/// another root hold all others.
fn scarce(neighbours: &[u32], free: usize) -> Card {
    let mut card = grown(0);
    let other = [10, 0, 0, 1];
    let text = |number| {
        wire::write_element(&TreeName {
            root: other.to_vec(),
            opaque: name(number).opaque,
        })
    };
    for number in 101..=132 {
        card.join(&text(number), 0).expect("no route yet");
    }
    for to in 0..8 {
        card.route(&other, to, WHOLE_BUFFER).expect("it fits");
    }
    assert_eq!(card.free_labels(), 0);
    for place in 0..free as u32 {
        let tree = TreeName {
            root: other.to_vec(),
            opaque: name(101 + place as u8).opaque,
        };
        let release = wire::write_message(Kind::Release, 5, &tree, 16 + place);
        card.take(0, &release, 0).expect("it is awaited");
    }
    for &from in neighbours {
        says(&mut card, from, Kind::Mapping, 1, 100 + from);
    }
    card
}

#[test]
fn a_new_tree_from_the_upstream_is_silent() {
    let mut card = with_branches(&[]);
    assert_eq!(says(&mut card, 0, Kind::Mapping, 1, 100), []);
    assert_eq!((card.trees().len(), card.free_labels()), (1, 256));
    assert_eq!(by_name(&card, 1), []);
    assert_eq!(by_label(&card, 16), []);
    assert_eq!(
        says(&mut card, 1, Kind::Mapping, 2, 100),
        [(0, MAPPING, 16)]
    );
}

#[test]
fn no_room_and_no_label_are_needed_for_a_silent_tree() {
    let mut card = scarce(&[], 0);
    assert_eq!(tell_in(&mut card, 1, Kind::Mapping, 1, 100, 0), 12);
    assert_eq!(tell_in(&mut card, 0, Kind::Mapping, 1, 100, 0), 0);
    assert_eq!(tell_in(&mut card, 0, Kind::Mapping, 1, 100, 0), 0);
    assert_eq!(tell_in(&mut card, 0, Kind::Mapping, 1, 101, 0), 10);
}

#[test]
fn a_silent_tree_is_one_of_the_sixty_four() {
    let mut card = grown(63);
    assert_eq!(tell(&mut card, 0, Kind::Mapping, 64, 100), 0);
    assert_eq!(tell(&mut card, 0, Kind::Mapping, 65, 100), 11);
    assert_eq!(join(&mut card, 65), 11);
}

#[test]
fn the_first_branch_from_another_brings_the_label() {
    let mut card = with_branches(&[0]);
    assert_eq!(
        says(&mut card, 2, Kind::Mapping, 1, 102),
        [(0, MAPPING, 16)]
    );
    assert_eq!(says(&mut card, 1, Kind::Mapping, 1, 101), []);
    for found in [by_label(&card, 16), by_name(&card, 1)] {
        assert_eq!(found, [(1, 101), (2, 102)]);
    }
}

#[test]
fn a_leaf_brings_the_label() {
    let mut card = with_branches(&[0]);
    assert_eq!(joined(&mut card, 1), [(0, MAPPING, 16)]);
    assert_eq!(joined(&mut card, 1), []);
    assert_eq!(card.find_label(16).map(|f| f.leaf), Some(true));
    assert_eq!(by_label(&card, 16), []);
    assert_eq!(left(&mut card, 1), [(0, WITHDRAW, 16)]);
    assert_eq!(leave(&mut card, 1), 14);
    assert_eq!((card.trees().len(), card.free_labels()), (1, 255));
}

#[test]
fn the_upstream_maps_back_a_tree_with_a_label() {
    let mut card = with_branches(&[1]);
    assert_eq!(says(&mut card, 0, Kind::Mapping, 1, 100), []);
    assert_eq!(by_label(&card, 16), [(1, 101)]);
    assert_eq!(
        says(&mut card, 0, Kind::Withdraw, 1, 100),
        [(0, RELEASE, 100)]
    );
    assert_eq!(by_label(&card, 16), [(1, 101)]);
}

#[test]
fn the_last_live_branch_ends_the_label_but_not_the_tree() {
    let mut card = with_branches(&[0, 1, 2]);
    assert_eq!(
        says(&mut card, 1, Kind::Withdraw, 1, 101),
        [(1, RELEASE, 101)]
    );
    assert_eq!(
        says(&mut card, 2, Kind::Withdraw, 1, 102),
        [(2, RELEASE, 102), (0, WITHDRAW, 16)]
    );
    assert_eq!((card.trees().len(), card.free_labels()), (1, 255));
    assert_eq!(by_name(&card, 1), []);
    assert_eq!(tell(&mut card, 0, Kind::Release, 1, 16), 0);
    assert_eq!(
        says(&mut card, 0, Kind::Withdraw, 1, 100),
        [(0, RELEASE, 100)]
    );
    assert_eq!((card.trees().len(), card.free_labels()), (0, 256));
}

#[test]
fn a_leaf_keeps_the_label_when_the_last_branch_goes() {
    let mut card = with_branches(&[0, 1]);
    assert_eq!(joined(&mut card, 1), []);
    assert_eq!(
        says(&mut card, 1, Kind::Withdraw, 1, 101),
        [(1, RELEASE, 101)]
    );
    assert_eq!(
        says(&mut card, 0, Kind::Withdraw, 1, 100),
        [(0, RELEASE, 100)]
    );
    assert_eq!(left(&mut card, 1), [(0, WITHDRAW, 16)]);
    assert_eq!(card.trees().len(), 0);
}

#[test]
fn a_branch_keeps_the_label_when_the_leaf_goes() {
    let mut card = with_branches(&[0, 1]);
    joined(&mut card, 1);
    assert_eq!(left(&mut card, 1), []);
    assert_eq!(by_label(&card, 16), [(1, 101)]);
}

#[test]
fn a_move_wakes_one_branch_and_holds_another() {
    let mut card = with_branches(&[0, 1, 2]);
    assert_eq!(moved(&mut card, 1), [(0, WITHDRAW, 16), (1, MAPPING, 17)]);
    assert_eq!(by_label(&card, 16), []);
    for found in [by_label(&card, 17), by_name(&card, 1)] {
        assert_eq!(found, [(0, 100), (2, 102)]);
    }
}

#[test]
fn a_move_to_the_only_branch_silences_the_tree() {
    let mut card = with_branches(&[1]);
    assert_eq!(moved(&mut card, 1), [(0, WITHDRAW, 16)]);
    assert_eq!(by_name(&card, 1), []);
    assert_eq!(moved(&mut card, 0), [(0, MAPPING, 17)]);
    assert_eq!(by_label(&card, 17), [(1, 101)]);
}

#[test]
fn a_move_from_the_only_branch_wakes_the_tree() {
    let mut card = with_branches(&[0]);
    assert_eq!(moved(&mut card, 15), [(15, MAPPING, 16)]);
    assert_eq!(by_label(&card, 16), [(0, 100)]);
}

#[test]
fn where_no_neighbour_is_upstream_every_branch_lives() {
    for to in [THIS_NODE, NO_ROUTE] {
        let mut card = with_branches(&[0, 1]);
        assert_eq!(moved(&mut card, to), [(0, WITHDRAW, 16)]);
        assert_eq!(by_name(&card, 1), [(0, 100), (1, 101)]);
        assert_eq!(moved(&mut card, 1), [(1, MAPPING, 17)]);
        let mut card = with_branches(&[0]);
        assert_eq!(moved(&mut card, to), []);
        assert_eq!(by_name(&card, 1), [(0, 100)]);
        assert_eq!(moved(&mut card, 0), []);
    }
}

/// Trees of one root in all states, by their age.
#[test]
fn a_move_goes_tree_by_tree() {
    let mut card = grown(0);
    for (number, from) in [(1, 1), (2, 0), (3, 7), (4, 0), (4, 7)] {
        says(&mut card, from, Kind::Mapping, number, 100);
    }
    assert_eq!(
        moved(&mut card, 7),
        [
            (0, WITHDRAW, 16),
            (7, MAPPING, 19),
            (7, MAPPING, 20),
            (0, WITHDRAW, 17),
            (0, WITHDRAW, 18),
            (7, MAPPING, 21)
        ]
    );
}

#[test]
fn a_standing_tree_may_lack_a_label() {
    for free in [0, 1] {
        let answer = if free == 0 { 12 } else { 0 };
        let mut card = scarce(&[0], free);
        assert_eq!(tell(&mut card, 1, Kind::Mapping, 1, 101), answer);
        let mut card = scarce(&[0], free);
        assert_eq!(join(&mut card, 1), answer);
        let mut card = scarce(&[0], free);
        assert_eq!(route(&mut card, 1), answer);
    }
}

#[test]
fn with_a_label_no_further_one_is_needed() {
    let mut card = scarce(&[0, 1], 1);
    assert_eq!(card.free_labels(), 0);
    assert_eq!(tell(&mut card, 2, Kind::Mapping, 1, 102), 0);
    assert_eq!(join(&mut card, 1), 0);
    assert_eq!(route(&mut card, 2), 12);
    assert_eq!(route(&mut card, THIS_NODE), 0);
}

#[test]
fn twelve_comes_before_sixteen_and_after_ten() {
    let mut card = scarce(&[0], 0);
    assert_eq!(tell_in(&mut card, 0, Kind::Mapping, 1, 101, 0), 10);
    assert_eq!(tell_in(&mut card, 1, Kind::Mapping, 1, 101, 0), 12);
    let element = wire::write_element(&name(1));
    assert_eq!(answer_number(&card.join(&element, 0)), 12);
    assert_eq!(answer_number(&card.route(&ROOT, 1, 0)), 12);
}

/// Trees 2 to 4 beside tree 1: of four trees, those count that need a label
/// under the new route.
#[test]
fn a_route_order_counts_the_trees_that_need_a_label() {
    for (to, needed) in [(1, 3), (2, 2), (3, 4), (THIS_NODE, 0)] {
        for free in [needed.max(1) - 1, needed] {
            let mut card = scarce(&[], 3);
            for (number, from) in [(1, 1), (2, 2), (3, 0), (4, 2)] {
                assert_eq!(tell(&mut card, from, Kind::Mapping, number, 100), 0);
            }
            assert_eq!(card.free_labels(), 0);
            release_others(&mut card, 3, free);
            let short = free < needed;
            assert_eq!(route(&mut card, to), if short { 12 } else { 0 });
            assert_eq!(card.free_labels(), if short { free } else { free - needed });
        }
    }
}

/// Awaited labels of `scarce` beyond the first ones.
fn release_others(card: &mut Card, first: u32, count: usize) {
    for place in first..first + count as u32 {
        let tree = TreeName {
            root: vec![10, 0, 0, 1],
            opaque: name(101 + place as u8).opaque,
        };
        let release = wire::write_message(Kind::Release, 5, &tree, 16 + place);
        card.take(0, &release, 0).expect("it is awaited");
    }
}

/// The event is refused 16 in one octet less than its records have.
pub fn needs_room(card: &Card, records: usize, event: impl Fn(&mut Card, usize) -> u8) {
    let room = records * RECORD;
    if records > 0 {
        let mut before = card.clone();
        assert_eq!(event(&mut before, room - 1), 16);
        assert_eq!(before, *card);
    }
    assert_eq!(event(&mut card.clone(), room), 0);
}

#[test]
fn room_for_a_mapping_or_join_to_a_silent_tree() {
    let element = wire::write_element(&name(1));
    for (branches, records) in [(&[0][..], 1), (&[0, 1], 0), (&[], 1)] {
        let card = with_branches(branches);
        needs_room(&card, records, |card, room| {
            tell_in(card, 2, Kind::Mapping, 1, 102, room)
        });
        needs_room(&card, records, |card, room| {
            answer_number(&card.join(&element, room))
        });
    }
}

#[test]
fn room_for_a_withdraw_or_leave_that_ends_the_label() {
    let element = wire::write_element(&name(1));
    for (branches, records) in [(&[0, 1][..], 2), (&[0, 1, 2], 1), (&[1], 2)] {
        let card = with_branches(branches);
        needs_room(&card, records, |card, room| {
            tell_in(card, 1, Kind::Withdraw, 1, 101, room)
        });
    }
    for (branches, records) in [(&[0][..], 1), (&[0, 1], 0), (&[], 1)] {
        let mut card = with_branches(branches);
        joined(&mut card, 1);
        needs_room(&card, records, |card, room| {
            answer_number(&card.leave(&element, room))
        });
    }
}

#[test]
fn room_for_a_move() {
    for (branches, to, records) in [
        (&[1][..], 1, 1),
        (&[0], 1, 1),
        (&[0, 1], 1, 2),
        (&[0], THIS_NODE, 0),
        (&[1], THIS_NODE, 1),
    ] {
        needs_room(&with_branches(branches), records, |card, room| {
            answer_number(&card.route(&ROOT, to, room))
        });
    }
}

/// Two boxes, each the other's upstream by the number 0: what one writes for 0
/// is brought to the other until both are quiet.
struct Pair {
    boxes: [Card; 2],
}

impl Pair {
    fn new() -> Pair {
        Pair {
            boxes: [grown(0), grown(0)],
        }
    }

    fn bring(&mut self, from: usize, records: &[u8]) {
        for record in records.chunks(RECORD).filter(|record| record[3] == 0) {
            let answer = self.boxes[1 - from].take(0, &record[4..], WHOLE_BUFFER);
            self.bring(1 - from, &answer.expect("it is taken"));
        }
    }

    fn tell(&mut self, at: usize, from: u32, kind: Kind, label: u32) {
        let message = wire::write_message(kind, 5, &name(1), label);
        let records = self.boxes[at].take(from, &message, WHOLE_BUFFER);
        self.bring(at, &records.expect("it is taken"));
    }

    fn move_root(&mut self, at: usize, to: u32) {
        let records = self.boxes[at].route(&ROOT, to, WHOLE_BUFFER);
        self.bring(at, &records.expect("it is taken"));
    }

    /// Whether each of them feeds the other.
    fn goes_round(&self) -> bool {
        let fed = |card: &Card| {
            let found = card.find_tree(&wire::write_element(&name(1)));
            found.is_some_and(|f| f.branches.iter().any(|(n, _)| *n == 0))
        };
        self.boxes.iter().all(fed)
    }
}

#[test]
fn two_boxes_send_no_feed_round() {
    let mut pair = Pair::new();
    pair.tell(0, 5, Kind::Mapping, 105);
    assert_eq!(by_label(&pair.boxes[0], 16), [(5, 105)]);
    assert_eq!(by_name(&pair.boxes[1], 1), []);
    pair.tell(1, 6, Kind::Mapping, 106);
    assert_eq!(by_label(&pair.boxes[0], 16), [(5, 105)]);
    assert_eq!(by_label(&pair.boxes[1], 16), [(6, 106)]);
    pair.move_root(1, 9);
    assert_eq!(by_label(&pair.boxes[1], 17), [(0, 16), (6, 106)]);
    assert!(!pair.goes_round());
    pair.move_root(1, 0);
    pair.tell(0, 5, Kind::Withdraw, 105);
    pair.tell(1, 6, Kind::Withdraw, 106);
    // Neighbour 9 has not released what it was told.
    for (card, free) in pair.boxes.iter().zip([256, 255]) {
        assert_eq!((card.trees().len(), card.free_labels()), (0, free));
    }
}

#[test]
fn two_boxes_at_any_time() {
    let mut rng = crate::rng::Rng::new(2);
    let mut pair = Pair::new();
    let mut both = 0;
    for _ in 0..2000 {
        let at = rng.below(2);
        let from = 5 + rng.below(2) as u32;
        match rng.below(4) {
            0 => pair.tell(at, from, Kind::Mapping, 100),
            1 => pair.tell(at, from, Kind::Withdraw, 100),
            _ => pair.move_root(at, [0, 0, 5, 6][rng.below(4)]),
        }
        assert!(!pair.goes_round());
        let held = |card: &Card| {
            card.tree(&name(1))
                .is_some_and(|t| t.branches.contains_key(&0))
        };
        both += usize::from(pair.boxes.iter().all(held));
    }
    assert!(both > 100);
}
