use super::*;
use crate::card::Route;
use std::collections::BTreeMap;

/// What the request's two numbers say of a route order that another neighbour
/// is to follow, and what was answered.
fn bound(card: &Card, root: &[u8], to: u32, number: u8) -> Option<String> {
    let ((all, lone), free) = (counts(card, root), card.free_labels());
    let present = card.routes().get(root);
    let same = match to {
        THIS_NODE => present == Some(&Route::ThisNode),
        NO_ROUTE => present.is_none(),
        _ => present == Some(&Route::Neighbour(to)),
    };
    if same || all == 0 {
        return None;
    }
    let place = if all <= free {
        "enough"
    } else if all - lone > free {
        "short"
    } else {
        "between"
    };
    let edge = all == free || all == free + 1 || all - lone == free || all - lone == free + 1;
    let way = match to {
        THIS_NODE => "this node",
        NO_ROUTE => "no route",
        _ if present.is_none() => "a new root",
        _ => "a neighbour",
    };
    if to < NEIGHBOURS && number != 16 && number != 15 {
        assert!(place != "enough" || number == 0, "{all} {lone} {free}");
        assert!(place != "short" || number == 12, "{all} {lone} {free}");
    } else {
        assert_ne!(number, 12);
    }
    let edge = if edge { ", at an edge" } else { "" };
    Some(format!("{place}, {way}: {number}{edge}"))
}

/// The bounds never say what the card does not, and each is met.
#[test]
fn a_day_of_counts_has_its_occasions() {
    for seed in 1..=2 {
        let mut met: BTreeMap<String, usize> = BTreeMap::new();
        let mut bench = Bench::new();
        let mut swapped = false;
        for line in make(kind_named("counts").expect("a kind"), seed, 4000) {
            let Said::Order(order) = bench::read_line(&line) else {
                continue;
            };
            let before = bench.card.clone();
            let written = bench.obey(&order);
            let number = bench::written_number(&written).unwrap_or(0);
            match &order {
                Order::Route(root, to) => {
                    if let Some(what) = bound(&before, root, *to, number) {
                        if swapped && what.contains("edge") {
                            *met.entry("after a swap".to_string()).or_insert(0) += 1;
                        }
                        *met.entry(what).or_insert(0) += 1;
                    }
                    swapped = false;
                }
                Order::Restore(_) | Order::RestoreTwo(_) => swapped = number == 0,
                _ => {}
            }
        }
        for what in [
            "after a swap",
            "between, a neighbour: 0, at an edge",
            "between, a neighbour: 12, at an edge",
            "between, a new root: 0, at an edge",
            "between, a new root: 12, at an edge",
            "enough, a neighbour: 0, at an edge",
            "enough, a new root: 0, at an edge",
            "short, a neighbour: 12, at an edge",
            "short, a new root: 12, at an edge",
            "short, no route: 0, at an edge",
            "short, this node: 0, at an edge",
        ] {
            assert!(met.get(what).is_some_and(|n| *n >= 3), "{what}: {met:?}");
        }
    }
}
