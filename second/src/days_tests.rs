use super::*;
use crate::bench::written_numbers as numbers;
use crate::card::LabelUse;
use crate::notice::Notice;
use crate::session::Program;
use std::collections::{BTreeMap, BTreeSet};

/// The lines written for a day.
fn answers(lines: &[Vec<u8>]) -> Vec<String> {
    Program::Bench.answers(&lines.join(&b'\n'))
}

#[test]
fn days_have_their_length_and_repeat() {
    for (kind, Kind { name, .. }) in KINDS.iter().enumerate() {
        for lines in [0, 1, 7, 500] {
            let day = make(kind, 3, lines);
            assert_eq!(day.len(), lines, "{name}");
            assert_eq!(day, make(kind, 3, lines));
            assert!(day.iter().all(|line| !line.contains(&b'\n')));
        }
        assert_ne!(make(kind, 3, 500), make(kind, 4, 500));
    }
}

#[test]
fn a_mixed_day_gives_every_refusal() {
    let mixed = kind_named("mixed").expect("it is one of the kinds");
    for seed in 1..=5 {
        let given: BTreeSet<u8> = numbers(&answers(&make(mixed, seed, 12_000)))
            .into_iter()
            .collect();
        assert_eq!(given, (0..=19).chain([22]).collect(), "seed {seed}");
    }
}

#[test]
fn days_are_deep() {
    for (name, share) in [
        ("ordinary", 80),
        ("full", 50),
        ("moves", 85),
        ("exhaust", 60),
        ("room", 50),
        ("mixed", 50),
    ] {
        let kind = kind_named(name).expect("it is one of the kinds");
        let numbers = numbers(&answers(&make(kind, 2, 3000)));
        let accepted = numbers.iter().filter(|number| **number == 0).count();
        assert!(100 * accepted >= share * numbers.len(), "{name}");
    }
}

#[test]
fn a_full_day_reaches_the_edges() {
    let full = kind_named("full").expect("it is one of the kinds");
    let answers = answers(&make(full, 1, 2000));
    assert!(answers.iter().any(|answer| answer == "free 0"));
    let given: BTreeSet<u8> = numbers(&answers).into_iter().collect();
    assert!([10, 11, 12, 13, 14, 15].iter().all(|n| given.contains(n)));
}

/// In every kind of day; every record reads back.
#[test]
fn days_have_notices() {
    let mut told = BTreeSet::new();
    let mut numbers = BTreeSet::new();
    for (kind, Kind { name, .. }) in KINDS.iter().enumerate() {
        let day = make(kind, 5, 2000);
        let orders = day.iter().filter(|line| line.starts_with(b"notice "));
        assert!(orders.count() > 0, "{name}");
        for answer in answers(&day) {
            if let Some(octets) = bench::notice_record(&answer) {
                let notice = Notice::read(&octets).expect("the card wrote it");
                told.insert(notice.status);
            } else if let Some(number) = answer.strip_prefix("notice ") {
                numbers.insert(number.to_string());
            }
        }
    }
    assert_eq!(told, [4, 5, 6, 7, 8, 12, 14, 22].into());
    assert_eq!(numbers, ["0", "1", "16"].map(String::from).into());
}

/// What an order of a day meets on the card as it stands, and its answer.
fn occasion(card: &Card, order: &Order, number: u8) -> Option<&'static str> {
    match order {
        Order::Take(from, octets) => {
            let message = wire::read_message(octets).ok()?;
            let upstream = card.upstream(&message.name.root)?;
            let back = *from == upstream;
            let tree = card.tree(&message.name);
            let silent = tree.is_some_and(|tree| !tree.serves(Some(upstream)));
            let bound = tree.is_some_and(|tree| tree.branches.contains_key(&upstream));
            match (message.kind, tree.is_some(), number) {
                (wire::Kind::Mapping, false, 0) if back => Some("new tree mapped back"),
                (wire::Kind::Mapping, true, 0) if back => Some("mapped back"),
                (wire::Kind::Mapping, true, 10) if back => Some("mapped back, other label"),
                (wire::Kind::Mapping, true, 0) if silent => Some("silent tree grows"),
                (wire::Kind::Mapping, true, 12) => Some("no label for a branch"),
                (wire::Kind::Withdraw, true, 0) if bound && !back => Some("withdraw beside held"),
                _ => None,
            }
        }
        Order::Join(element) => {
            let stands = card.tree(&wire::read_element(element).ok()?).is_some();
            (stands && number == 12).then_some("no label for a leaf")
        }
        Order::Route(root, to) if *to < 16 && card.upstream(root) != Some(*to) => {
            let (needed, free) = (card.labels_needed(root, *to), card.free_labels());
            let trees = card.trees_of(root).count();
            match number {
                12 if needed == free + 1 => Some("one label short"),
                0 if needed == free && trees > free => Some("just enough, not for all"),
                0 if needed < trees => Some("a move that silences"),
                _ => None,
            }
        }
        _ => None,
    }
}

/// How often a day of that kind meets each occasion: what it is, by the card
/// before an order, the order, the number written, and the card afterwards.
pub fn occasions<What: Ord>(
    name: &str,
    seed: u64,
    what: impl Fn(&Card, &Order, u8, &Card) -> Option<What>,
) -> BTreeMap<What, usize> {
    let kind = kind_named(name).expect("it is one of the kinds");
    let mut met = BTreeMap::new();
    let mut bench = Bench::new();
    for line in make(kind, seed, 3000) {
        let Said::Order(order) = bench::read_line(&line) else {
            continue;
        };
        let before = bench.card.clone();
        let written = bench.obey(&order);
        let number = bench::written_number(&written).unwrap_or(0);
        if let Some(what) = what(&before, &order, number, &bench.card) {
            *met.entry(what).or_insert(0) += 1;
        }
    }
    met
}

#[test]
fn a_held_day_has_its_occasions() {
    for seed in 1..=3 {
        let met = occasions("held", seed, |before, order, number, _| {
            occasion(before, order, number)
        });
        assert!(met.len() == 10 && met.values().all(|n| *n >= 5), "{met:?}");
    }
}

/// Where the labels that an event gave lie, after the last given before it.
fn turn(before: &Card, number: u8, after: &Card) -> Option<&'static str> {
    let (last, given) = (before.last_given()?, after.last_given());
    let Some(given) = given.filter(|given| *given != last) else {
        let needed_more = number == 16 && before == after;
        return needed_more.then_some("refused, not moved");
    };
    let free = |label: u32| {
        let found = before.labels().find(|(other, _)| *other == label);
        found.is_some_and(|(_, held)| *held == LabelUse::Free)
    };
    Some(if given < last {
        "round the block"
    } else if given == last + 1 {
        "the very next"
    } else if (last + 1..given).all(|label| !free(label)) {
        "over labels in use"
    } else {
        "several"
    })
}

#[test]
fn a_round_day_goes_round() {
    for seed in 1..=3 {
        let met = occasions("round", seed, |before, order, number, after| match order {
            Order::Restore(_) if before.last_given() != after.last_given() => Some("set back"),
            Order::Restore(_) | Order::Start(_) => None,
            _ => turn(before, number, after),
        });
        assert!(met.len() >= 5 && met.values().all(|n| *n >= 3), "{met:?}");
    }
}

/// What a loss of a day takes, by what it leaves.
fn loss(before: &Card, order: &Order, number: u8, after: &Card) -> Option<&'static str> {
    let Order::Lost(_) = order else {
        return None;
    };
    let sent = after.next_identifier() - before.next_identifier();
    let trees = after.trees().len() < before.trees().len();
    let routes = after.routes().len() < before.routes().len();
    Some(match (number, sent, trees, routes) {
        (1, ..) => "a stranger",
        (16, ..) => "no room",
        _ if before == after => "of nobody",
        (_, 0, false, false) => "branches or awaited labels alone",
        (_, 0, true, false) => "trees without a label",
        (_, 0, false, true) => "an upstream",
        (_, 0, true, true) => "an upstream and its trees",
        (_, _, false, _) => "labels of trees that stay",
        (_, 1, true, _) => "one tree, or one of them with a label",
        _ => "several trees",
    })
}

#[test]
fn a_day_of_losses_has_its_occasions() {
    for seed in 1..=3 {
        let met = occasions("lost", seed, loss);
        assert!(met.len() == 10 && met.values().all(|n| *n >= 2), "{met:?}");
    }
}

#[test]
fn a_day_of_layers_has_its_occasions() {
    for seed in 1..=3 {
        let kind = kind_named("layers").expect("it is one of the kinds");
        let answers = answers(&make(kind, seed, 3000));
        let count = |begin: &str| answers.iter().filter(|a| a.starts_with(begin)).count();
        for begin in [
            "layers 0",
            "unwrap 0",
            "wrap 0",
            "unwrap 22",
            "wrap 7",
            "unwrap 18",
        ] {
            assert!(count(begin) >= 20, "{begin}");
        }
        for begin in [
            "wrap 16",
            "unwrap 16",
            "wrap 6",
            "unwrap 6",
            "layers 6",
            "wrap 18",
        ] {
            assert!(count(begin) >= 5, "{begin}");
        }
        let deep = answers.iter().map(|a| a.matches(" > ").count()).max();
        assert!(deep >= Some(6), "{deep:?}");
        assert!(answers
            .iter()
            .any(|a| a.starts_with("layers 0") && a.contains('/')));
    }
}

/// What a restore of a day meets: whether it is taken, whether a table stands
/// in the way, and whether the octets are those of the table that stands.
fn swap(before: &Card, order: &Order, number: u8) -> Option<&'static str> {
    let Order::Restore(octets) = order else {
        return None;
    };
    let own = before.save(LONGEST_SAVE).expect("there is room");
    Some(match number {
        0 if own == *octets => "no event came between",
        0 if before.trees().is_empty() => "on a fresh card",
        0 => "events came between",
        _ if octets.len() < own.len() => "refused, shorter",
        _ if octets.len() > own.len() => "refused, longer",
        _ => "refused, as long",
    })
}

#[test]
fn a_day_of_saves_has_its_occasions() {
    for seed in 1..=3 {
        let met = occasions("saves", seed, |before, order, number, after| {
            if number == 19 {
                assert_eq!(after, before);
            }
            match order {
                Order::Save if number == 16 => Some("no room"),
                Order::Save if number == 19 => Some("no space"),
                Order::Save => Some("saved"),
                _ => swap(before, order, number),
            }
        });
        assert!(met.len() == 9 && met.values().all(|n| *n >= 10), "{met:?}");
    }
}

/// Spoiled saves are refused for the most part, and some are another table's.
#[test]
fn spoiled_saves() {
    let saves = kind_named("saves").expect("it is one of the kinds");
    let answers = answers(&make(saves, 1, 3000));
    let count = |text| answers.iter().filter(|answer| *answer == text).count();
    assert!(count("restore 19") > 200 && count("restore 0") > 200);
}
