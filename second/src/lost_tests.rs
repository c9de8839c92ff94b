//! Request [11]: a neighbour's session is lost. The route of ROOT is neighbour
//! 0 at first.

use super::held::*;
use super::*;
use crate::days;

fn gone(card: &mut Card, neighbour: u32) -> Vec<(u8, u8, u8)> {
    told(card.lost(neighbour, WHOLE_BUFFER))
}

fn uses_of(card: &Card, neighbour: u32) -> usize {
    let uses = card
        .labels()
        .filter(|(_, held)| held.neighbour() == Some(neighbour));
    uses.count()
}

#[test]
fn neighbours_above_15_are_refused() {
    let mut card = with_branches(&[1]);
    let before = card.clone();
    for neighbour in [16, 17, u32::MAX] {
        assert_eq!(answer_number(&card.lost(neighbour, 0)), 1);
        assert_eq!(card, before);
    }
}

#[test]
fn of_nobody_it_changes_nothing() {
    let mut card = with_branches(&[1]);
    let before = card.clone();
    for neighbour in [2, 15] {
        assert_eq!(card.lost(neighbour, 0), Ok(Vec::new()));
        assert_eq!(card, before);
    }
}

#[test]
fn a_branch_among_others_goes_silently() {
    let mut card = with_branches(&[1, 2]);
    assert_eq!(gone(&mut card, 1), []);
    assert_eq!(by_label(&card, 16), [(2, 102)]);
    assert_eq!(gone(&mut card, 1), []);
}

#[test]
fn the_last_branch_takes_the_tree_and_withdraws_its_label() {
    let mut card = with_branches(&[1]);
    assert_eq!(gone(&mut card, 1), [(0, WITHDRAW, 16)]);
    assert_eq!((card.trees().len(), card.free_labels()), (0, 255));
    assert_eq!(tell(&mut card, 1, Kind::Release, 1, 16), 13);
    assert_eq!(tell(&mut card, 0, Kind::Release, 1, 16), 0);
}

#[test]
fn a_leaf_or_a_branch_keeps_the_label() {
    let mut card = with_branches(&[1]);
    joined(&mut card, 1);
    assert_eq!(gone(&mut card, 1), []);
    assert_eq!(card.find_label(16).map(|found| found.leaf), Some(true));
}

#[test]
fn where_held_branches_remain_the_tree_stays() {
    let mut card = with_branches(&[0, 1]);
    assert_eq!(gone(&mut card, 1), [(0, WITHDRAW, 16)]);
    assert_eq!((card.trees().len(), card.free_labels()), (1, 255));
    assert_eq!(by_name(&card, 1), []);
    assert_eq!(gone(&mut card, 1), []);
}

#[test]
fn the_upstream_takes_route_label_and_held_branch() {
    let mut card = with_branches(&[0, 1]);
    assert_eq!(gone(&mut card, 0), []);
    assert_eq!((card.routes().len(), card.free_labels()), (0, 256));
    assert_eq!(by_name(&card, 1), [(1, 101)]);
    assert_eq!(by_label(&card, 16), []);
    assert_eq!(moved(&mut card, 5), [(5, MAPPING, 17)]);
}

#[test]
fn a_tree_with_the_upstreams_branch_alone_goes() {
    let mut card = with_branches(&[0]);
    assert_eq!(gone(&mut card, 0), []);
    assert_eq!((card.trees().len(), card.routes().len()), (0, 0));
}

#[test]
fn a_tree_without_an_upstream_goes_silently() {
    for to in [THIS_NODE, NO_ROUTE] {
        let mut card = with_branches(&[1]);
        moved(&mut card, to);
        let awaiting = uses_of(&card, 0);
        assert_eq!(gone(&mut card, 1), []);
        assert_eq!((card.trees().len(), uses_of(&card, 0)), (0, awaiting));
        let stays = usize::from(to == THIS_NODE);
        assert_eq!(card.routes().len(), stays);
    }
}

#[test]
fn awaited_labels_are_free_at_once() {
    let mut card = with_branches(&[1]);
    moved(&mut card, 2);
    moved(&mut card, 3);
    assert_eq!(
        (uses_of(&card, 0), uses_of(&card, 2), uses_of(&card, 3)),
        (1, 1, 1)
    );
    assert_eq!(gone(&mut card, 2), []);
    assert_eq!(
        (uses_of(&card, 0), uses_of(&card, 2), uses_of(&card, 3)),
        (1, 0, 1)
    );
    assert_eq!(tell(&mut card, 2, Kind::Release, 1, 17), 13);
    assert_eq!(card.upstream(&ROOT), Some(3));
}

#[test]
fn the_last_label_given_stays() {
    let mut card = with_branches(&[1]);
    gone(&mut card, 0);
    assert_eq!((card.free_labels(), card.last_given()), (256, Some(16)));
    assert_eq!(moved(&mut card, 4), [(4, MAPPING, 17)]);
}

/// Trees of one root in all states, by their age: records come oldest first.
#[test]
fn oldest_first() {
    let mut card = grown(0);
    for (number, from) in [(5, 7), (1, 7), (1, 0), (2, 7), (2, 1), (3, 0), (4, 7)] {
        says(&mut card, from, Kind::Mapping, number, 100);
    }
    joined(&mut card, 4);
    let before = card.clone();
    let records = [(0, WITHDRAW, 16), (0, WITHDRAW, 17)];
    assert_eq!(gone(&mut card, 7), records);
    let names: Vec<u8> = card.trees().iter().map(|t| t.name.opaque[0]).collect();
    assert_eq!(names, [1, 2, 3, 4]);
    needs_room(&before, 2, |card, room| answer_number(&card.lost(7, room)));
    let next = card.next_identifier();
    assert_eq!(next, before.next_identifier() + 2);
}

/// What the request says of one tree: what is left of it, and the label that
/// is withdrawn from an upstream other than N.
fn left_of(card: &Card, tree: &Tree, lost: u32) -> (Option<Tree>, Option<(u32, u32)>) {
    let mut tree = tree.clone();
    tree.branches.remove(&lost);
    let given = card.label_of(&tree.name).filter(|(_, to)| *to != lost);
    let ends = given.filter(|(_, to)| {
        let held = tree.branches.keys().all(|neighbour| neighbour == to);
        held && !tree.leaf
    });
    let empty = tree.branches.is_empty() && !tree.leaf;
    ((!empty).then_some(tree), ends)
}

/// The card that the request describes, and what is sent.
fn described(card: &Card, lost: u32) -> (Card, Vec<u8>) {
    let mut after = card.clone();
    let mut records = Vec::new();
    after.trees.clear();
    for tree in card.trees() {
        let (left, ends) = left_of(card, tree, lost);
        after.trees.extend(left);
        if let Some((label, to)) = ends {
            let identifier = after.next_identifier;
            after.next_identifier = identifier.wrapping_add(1);
            let message = wire::write_message(Kind::Withdraw, identifier, &tree.name, label);
            records.extend(wire::write_record(to, &message));
            let place = (label - card.base()) as usize;
            after.labels[place] = LabelUse::Awaiting(to, tree.name.clone());
        }
    }
    for held in &mut after.labels {
        if matches!(held, LabelUse::Mapped(n, _) | LabelUse::Awaiting(n, _) if *n == lost) {
            *held = LabelUse::Free;
        }
    }
    after
        .routes
        .retain(|_, route| *route != Route::Neighbour(lost));
    after.roots.retain(|root| after.routes.contains_key(root));
    (after, records)
}

/// On cards of made days, each neighbour is lost just as the request says.
#[test]
fn as_the_request_says() {
    let mut sent = 0;
    for name in ["held", "full", "exhaust", "lost"] {
        let kind = days::kind_named(name).expect("it is one of the kinds");
        for card in days::cards(kind, 4, 1200, 40) {
            for lost in 0..NEIGHBOURS {
                let mut after = card.clone();
                let records = after.lost(lost, WHOLE_BUFFER).expect("it is taken");
                sent += records.len();
                assert_eq!((after, records), described(&card, lost));
            }
        }
    }
    assert!(sent > 10_000, "{sent}");
}
