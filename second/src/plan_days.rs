//! Days of plans, of request [13]: lines that a plan empties and that are then
//! looked at, lists of every sort, labels that just suffice or do not.

use super::*;
use crate::card::Name;
use crate::plan::{Move, Permit};
use crate::plan_events::{any_line, any_permits};

/// Every second root is behind one neighbour.
pub fn open(maker: &mut Maker) {
    maker.settle(9, (6, 4), FEW_LONG);
    let line = any_neighbour(&mut maker.rng);
    let roots = maker.world.roots.clone();
    for (place, root) in roots.into_iter().enumerate() {
        let any = any_neighbour(&mut maker.rng);
        let to = if place % 2 == 0 { line } else { any };
        maker.give(Order::Route(root, to));
    }
    maker.grow(24);
}

/// Between the plans labels run short, so that they do not always suffice.
pub fn step(maker: &mut Maker) {
    let recipe = [HELD, NO_RELEASE, MOVES][maker.rng.below(3)];
    match maker.rng.below(20) {
        0 | 1 => planned_line(maker),
        2 => edge(maker),
        3..=9 => maker.play(PLANS, 10),
        _ => maker.run_short((30, 4, 40), 10, (recipe, 20)),
    }
}

/// A plan is made, and carried out if there is one.
fn planned_line(maker: &mut Maker) {
    let from = any_line(&mut maker.scene());
    let permits = any_permits(&mut maker.scene());
    let plan = maker.card().plan(from, &permits);
    maker.give(Order::Plan(from, permits.clone()));
    if let Ok(Some(list)) = plan {
        empty_line(maker, from, permits, list);
    }
}

/// The list is vetted and carried out. Then the line is looked at: a new plan
/// for it has no root, and every leaf is reached by name and by label.
fn empty_line(maker: &mut Maker, from: u32, permits: Vec<Permit>, list: Vec<Move>) {
    maker.give(Order::Vet(from, permits.clone(), list.clone()));
    for entry in &list {
        maker.give(Order::Route(entry.root.clone(), entry.to));
    }
    maker.give(Order::Plan(from, permits));
    let roots = list.iter().map(|entry| &entry.root);
    let trees = roots.flat_map(|root| maker.bench.card.trees_of(root));
    let leaves: Vec<Name> = trees.filter(|t| t.leaf).map(|t| t.name.clone()).collect();
    for name in leaves {
        maker.give(Order::Tree(wire::write_element(&name)));
        if let Some((label, _)) = maker.card().label_of(&name) {
            maker.give(Order::Label(label));
        }
    }
}

/// A plan that needs one label more than are free, and then, when one has come
/// back, just those.
fn edge(maker: &mut Maker) {
    let from = any_line(&mut maker.scene());
    let permits = everywhere(maker.card(), from);
    approach(maker, from, &permits);
    for _ in 0..2 {
        let Some(list) = maker.card().cheapest(from, &permits) else {
            return;
        };
        maker.give(Order::Plan(from, permits.clone()));
        if maker.card().plan(from, &permits) == Ok(Some(list.clone())) {
            return empty_line(maker, from, permits, list);
        }
        maker.give(Order::Vet(from, permits.clone(), list));
        maker.play(&[(1, awaited_release)], 0);
    }
}

/// Each root behind the neighbour may move anywhere.
fn everywhere(card: &Card, from: u32) -> Vec<Permit> {
    let set = u16::MAX;
    let roots = card.roots_through(from).into_iter();
    roots.map(|root| Permit { root, set }).collect()
}

/// Labels come back or are used up until one is lacking.
fn approach(maker: &mut Maker, from: u32, permits: &[Permit]) {
    for _ in 0..30 {
        let card = maker.card();
        let needed = card.cheapest(from, permits).map(|l| card.labels_for(&l));
        let lacking = needed.map(|needed| needed as i64 - card.free_labels() as i64);
        match lacking {
            Some(2..) => maker.play(&[(1, awaited_release)], 0),
            Some(..=0) => maker.play(&[(2, moved_trees), (1, new_leaf), (1, new_tree)], 0),
            _ => return,
        }
    }
}

#[cfg(test)]
#[path = "plan_days_tests.rs"]
mod tests;
