use super::super::tests::occasions;
use super::*;

/// What a plan or a list of a day meets.
fn meets(before: &Card, order: &Order) -> Option<&'static str> {
    match order {
        Order::Plan(from, sets) => Some(match before.plan(*from, sets) {
            Ok(Some(list)) if list.is_empty() => "nothing to move",
            Ok(Some(list)) if list.len() == 1 => "one root",
            Ok(Some(_)) => "several roots",
            Ok(None) if before.cheapest(*from, sets).is_some() => "too few labels",
            Ok(None) => "no way",
            Err(_) => "a stranger's line",
        }),
        Order::Vet(from, sets, list) => Some(match before.vet(*from, sets, list) {
            Ok(true) => "accepted",
            Ok(false) => "rejected",
            Err(_) => "a stranger's list",
        }),
        _ => None,
    }
}

#[test]
fn a_day_of_plans_has_its_occasions() {
    for seed in 1..=3 {
        let met = occasions("plans", seed, |before, order, _, _| meets(before, order));
        let rare = ["a stranger's line", "a stranger's list"];
        let often = |(what, count): (&&str, &usize)| *count >= 20 || rare.contains(what);
        assert!(met.len() == 9 && met.iter().all(often), "{met:?}");
    }
}

/// The planner's own list, with just as many labels free as it needs, or one
/// fewer.
fn at_the_edge(before: &Card, order: &Order) -> Option<&'static str> {
    let Order::Vet(from, sets, list) = order else {
        return None;
    };
    let needed = before.labels_for(list);
    if needed == 0 || before.cheapest(*from, sets).as_ref() != Some(list) {
        return None;
    }
    let accepted = before.vet(*from, sets, list) == Ok(true);
    match before.free_labels() {
        free if free == needed => Some(if accepted { "just enough" } else { "wrong" }),
        free if free + 1 == needed => Some(if accepted { "wrong" } else { "one lacks" }),
        _ => None,
    }
}

#[test]
fn a_day_of_plans_meets_the_edge() {
    for seed in 1..=3 {
        let met = occasions("plans", seed, |before, order, _, _| {
            at_the_edge(before, order)
        });
        let both = ["just enough", "one lacks"].map(|what| met.get(what) >= Some(&10));
        assert!(met.len() == 2 && both == [true; 2], "{met:?}");
    }
}

/// No refusal, no route through the neighbour, and every leaf is still reached.
fn is_emptied(mut bench: Bench, from: u32, moves: &[Order]) {
    let before = bench.card.clone();
    for order in moves {
        assert!(bench.obey(order).starts_with("route 0"));
    }
    let card = &bench.card;
    assert!(card.roots_through(from).is_empty());
    for tree in before.trees().iter().filter(|tree| tree.leaf) {
        let found = card.find_tree(&wire::write_element(&tree.name));
        assert!(found.is_some_and(|found| found.leaf));
        if let Some(upstream) = card.upstream(&tree.name.root) {
            let (label, to) = card.label_of(&tree.name).expect("it has a label");
            let found = card.find_label(label);
            assert!(to == upstream && found.is_some_and(|found| found.leaf));
        }
    }
}

#[test]
fn lines_are_emptied() {
    for seed in 1..=3 {
        let day = make(kind_named("plans").expect("a kind"), seed, 3000);
        let said = day.iter().map(|line| bench::read_line(line));
        let orders: Vec<Order> = said
            .filter_map(|said| match said {
                Said::Order(order) => Some(order),
                _ => None,
            })
            .collect();
        let (mut bench, mut emptied) = (Bench::new(), 0);
        for (place, order) in orders.iter().enumerate() {
            let accepted = bench.obey(order) == "vet 0";
            let Order::Vet(from, _, list) = order else {
                continue;
            };
            let moves = list.iter().map(|m| Order::Route(m.root.clone(), m.to));
            let moves: Vec<Order> = moves.collect();
            let carried_out = orders[place + 1..].starts_with(&moves);
            if accepted && carried_out && !moves.is_empty() {
                is_emptied(bench.clone(), *from, &moves);
                emptied += 1;
            }
        }
        assert!(emptied >= 30, "{emptied}");
    }
}
