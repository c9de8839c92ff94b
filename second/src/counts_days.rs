//! Days at the bounds of request [10]: the trees of a root, and those of them
//! with one branch alone, are about as many as the free labels.

use super::*;
use crate::card::{LABELS, NEIGHBOURS, THIS_NODE};
use crate::held_events::{held_goes, last_live_goes, mapped_back, new_tree_mapped_back};

/// What makes trees come and go, lone ones, and lone ones grow.
const COUNTED: &Recipe = &[
    (5, new_tree),
    (3, new_leaf),
    (5, further_branch),
    (6, branch_withdraw),
    (3, leaf_leave),
    (3, standing_join),
    (2, last_goes),
    (3, mapped_back),
    (2, new_tree_mapped_back),
    (2, held_goes),
    (2, last_live_goes),
    (1, new_route),
    (1, ended_route),
];

/// Labels are used up by the moves, which are followed by no Release.
pub fn open(maker: &mut Maker) {
    restart(maker);
    maker.settle(4, (9, 5), FEW_LONG);
    maker.route_roots(3);
    maker.grow(15);
    for _ in 0..2 * LABELS {
        if maker.card().free_labels() > 12 {
            maker.play(&[(1, moved_trees)], 0);
        }
    }
}

pub fn step(maker: &mut Maker) {
    match maker.rng.below(100) {
        0..=2 => swap_card(maker),
        3 => maker.play(LOSSES, 30),
        4..=45 => near_move(maker),
        46..=60 => approach(maker),
        _ => maker.play(COUNTED, 15),
    }
}

/// How many trees of the root stand, and how many of them are lone.
pub fn counts(card: &Card, root: &[u8]) -> (usize, usize) {
    let lone = card.trees_of(root).filter(|tree| tree.is_lone()).count();
    (card.trees_of(root).count(), lone)
}

/// A route order for a root of which the free labels lie between the bounds,
/// or one beside them.
fn near_move(maker: &mut Maker) {
    let card = maker.card();
    let free = card.free_labels();
    let is_near = |root: &&Vec<u8>| {
        let (all, lone) = counts(card, root);
        all > 0 && (all - lone).saturating_sub(1) <= free && free <= all + 1
    };
    let near: Vec<Vec<u8>> = maker.world.roots.iter().filter(is_near).cloned().collect();
    let Some(root) = maker.rng.pick(&near) else {
        return approach(maker);
    };
    let to = new_way(maker, &root);
    maker.give(Order::Route(root, to));
    maker.look(20);
}

/// Often to a neighbour of a lone branch, which needs no label then; now and
/// then to nobody, which needs none at all.
fn new_way(maker: &mut Maker, root: &[u8]) -> u32 {
    let trees = maker.card().trees_of(root).filter(|tree| tree.is_lone());
    let lone: Vec<u32> = trees.flat_map(|t| t.branches.keys().copied()).collect();
    match maker.rng.below(10) {
        0..=4 => maker.rng.pick(&lone).unwrap_or(NEIGHBOURS - 1),
        5 => THIS_NODE,
        6 => NO_ROUTE,
        _ => any_neighbour(&mut maker.rng),
    }
}

/// Labels come back or are used up until just as many are free as a bound of
/// some root, or one more or fewer.
fn approach(maker: &mut Maker) {
    let Some(tree) = maker.rng.pick(maker.bench.card.trees()) else {
        return maker.play(GROW, 10);
    };
    let (all, lone) = counts(maker.card(), &tree.name.root);
    let bound = [all, all - lone][maker.rng.below(2)];
    let wanted = (bound + maker.rng.below(3)).saturating_sub(1);
    for _ in 0..20 {
        let free = maker.card().free_labels();
        if free < wanted {
            maker.play(&[(1, awaited_release)], 0);
        } else if free > wanted {
            maker.play(&[(2, moved_trees), (1, new_leaf), (1, new_tree)], 0);
        }
    }
}

/// By a save of either form: the counts are worked out anew.
fn swap_card(maker: &mut Maker) {
    let room = maker.bench.room as u32;
    maker.give(Order::Room(u32::MAX));
    maker.give(Order::SaveTwo);
    let Ok(two) = maker.card().save_two(save_two::LONGEST_SAVE_TWO) else {
        return;
    };
    let one = save_two::older(&two, LONGEST_SAVE);
    if maker.rng.percent(30) {
        restart(maker);
    }
    let restore = match one {
        Ok(one) if maker.rng.percent(50) => Order::Restore(one),
        _ => Order::RestoreTwo(two),
    };
    maker.give(restore);
    maker.give(Order::Room(room));
    near_move(maker);
}

#[cfg(test)]
#[path = "counts_days_tests.rs"]
mod tests;
