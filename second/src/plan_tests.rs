use super::*;
use crate::bench::{answer_number, Bench, Order, WHOLE_BUFFER};
use crate::days;
use crate::rng::Rng;
use crate::wire::{self, TreeName};

/// Cards of made days, as they stand every now and then.
fn cards() -> Vec<Card> {
    let names = ["exhaust", "held", "lost", "plans"].into_iter();
    let kinds = names.map(|name| days::kind_named(name).expect("it is one of the kinds"));
    kinds
        .flat_map(|kind| days::cards(kind, 7, 900, 60))
        .collect()
}

fn any_permits(rng: &mut Rng, roots: &[Vec<u8>]) -> Vec<Permit> {
    let permit = |root: &Vec<u8>| Permit {
        root: root.clone(),
        set: (rng.number() & rng.number() & rng.number()) as u16,
    };
    roots.iter().map(permit).collect()
}

/// Every way to move the roots, to permitted neighbours or others.
fn all_lists(roots: &[Vec<u8>]) -> Vec<Vec<Move>> {
    let mut lists = vec![Vec::new()];
    for root in roots {
        let longer = |list: &Vec<Move>| {
            let list = list.clone();
            (0..NEIGHBOURS).map(move |to| {
                let entry = Move {
                    root: root.clone(),
                    to,
                };
                [&list[..], &[entry]].concat()
            })
        };
        lists = lists.iter().flat_map(longer).collect();
    }
    lists
}

/// The list is carried out in order: how many labels that takes, if there is
/// no refusal and no route stays.
fn carried_out(card: &Card, from: u32, list: &[Move]) -> Option<usize> {
    let mut card = card.clone();
    let free = card.free_labels();
    for entry in list {
        card.route(&entry.root, entry.to, WHOLE_BUFFER).ok()?;
    }
    let emptied = card.roots_through(from).is_empty();
    emptied.then(|| free - card.free_labels())
}

/// By brute force: of all accepted lists the planner's takes the fewest
/// labels, and the lowest neighbours of those that take as many.
#[test]
fn the_planner_finds_a_list_whenever_there_is_one() {
    let mut rng = Rng::new(3);
    let (mut found, mut none) = (0, 0);
    for card in cards() {
        for from in 0..NEIGHBOURS {
            let roots = card.roots_through(from);
            if roots.len() > 2 {
                continue;
            }
            let permits = any_permits(&mut rng, &roots);
            let lists = all_lists(&roots).into_iter();
            let accepted = lists.filter(|list| card.vet(from, &permits, list) == Ok(true));
            let best = accepted.min_by_key(|list| {
                let labels = carried_out(&card, from, list).expect("nothing is refused");
                (labels, list.iter().map(|m| m.to).collect::<Vec<u32>>())
            });
            let plan = card.plan(from, &permits).expect("it is a neighbour");
            assert_eq!(plan, best);
            let count = if plan.is_some() {
                &mut found
            } else {
                &mut none
            };
            *count += 1;
        }
    }
    assert!(found > 100 && none > 20, "{found} {none}");
}

/// Every list of up to three moves of three roots.
fn short_lists(roots: &[Vec<u8>]) -> Vec<Vec<Move>> {
    let moves = roots.iter().flat_map(|root| {
        let to = [0, 1, 2, NEIGHBOURS].into_iter();
        to.map(|to| Move {
            root: root.clone(),
            to,
        })
    });
    let moves: Vec<Move> = moves.collect();
    let mut lists = vec![Vec::new()];
    let mut begin = 0;
    for _ in 0..3 {
        let end = lists.len();
        for place in begin..end {
            let longer = moves
                .iter()
                .map(|m| [&lists[place][..], std::slice::from_ref(m)].concat());
            lists.extend(longer.collect::<Vec<_>>());
        }
        begin = end;
    }
    lists
}

/// Three roots with a tree each, some of them behind 0, and so many labels.
fn small(behind: [bool; 3], leaves: [bool; 3], free: usize) -> (Card, Vec<Vec<u8>>) {
    let mut bench = Bench::new();
    let roots = [vec![10, 0, 0, 1], vec![10, 0, 0, 2], vec![10; 16]];
    for ((root, behind), leaf) in roots.iter().zip(behind).zip(leaves) {
        let name = TreeName {
            root: root.clone(),
            opaque: vec![1, 0, 0],
        };
        bench.obey(&Order::Route(root.clone(), if behind { 0 } else { 3 }));
        let order = if leaf {
            Order::Join(wire::write_element(&name))
        } else {
            let message = wire::write_message(wire::Kind::Mapping, 1, &name, 100);
            Order::Take(1, message)
        };
        bench.obey(&order);
    }
    bench.card.use_up_beyond(free);
    (bench.card, roots.to_vec())
}

/// What the request says of a list, in its order.
fn as_the_request_says(card: &Card, permits: &[Permit], list: &[Move]) -> bool {
    let times = |root: &Vec<u8>| list.iter().filter(|m| m.root == *root).count();
    let once = |root: &Vec<u8>| times(root) == usize::from(card.upstream(root) == Some(0));
    let permitted = |m: &Move| {
        permits
            .iter()
            .any(|p| p.root == m.root && u32::from(p.set) >> m.to & 1 == 1)
    };
    let roots = permits.iter().all(|p| once(&p.root));
    roots
        && list.iter().all(|m| permitted(m) && m.to != 0)
        && list
            .iter()
            .map(|m| card.labels_needed(&m.root, m.to))
            .sum::<usize>()
            <= card.free_labels()
}

/// Every short list for every small table: the checker accepts what the
/// request says, which is then carried out, and the planner finds one.
#[test]
fn all_short_lists_on_small_tables() {
    let (mut accepted, mut none) = (0, 0);
    for case in 0..64u8 {
        let bit = |place: u8| case >> place & 1 == 1;
        for free in 0..4 {
            let behind = [bit(0), bit(1), bit(2)];
            let (card, roots) = small(behind, [bit(3), bit(4), bit(5)], free);
            let sets = [0x0006, 0x0003, 0xffff];
            let permit = |(root, set): (&Vec<u8>, u16)| permit(root, set);
            let permits: Vec<Permit> = roots.iter().zip(sets).map(permit).collect();
            let mut any = false;
            for list in short_lists(&roots) {
                let taken = as_the_request_says(&card, &permits, &list);
                assert_eq!(card.vet(0, &permits, &list), Ok(taken), "{list:?}");
                assert!(!taken || carried_out(&card, 0, &list).is_some());
                accepted += usize::from(taken);
                any |= taken;
            }
            let plan = card.plan(0, &permits).expect("0 is a neighbour");
            assert_eq!(plan.is_some(), any);
            none += usize::from(!any);
        }
    }
    assert!(accepted > 300 && none > 30, "{accepted} {none}");
}

fn planned() -> Card {
    let mut bench = Bench::new();
    let mut give = |order: Order| drop(bench.obey(&order));
    for last in [9, 1] {
        give(Order::Route(vec![10, 0, 0, last], 3));
    }
    give(Order::Route(vec![1; 16], 3));
    give(Order::Route(vec![2; 16], 4));
    bench.card
}

fn permit(root: &[u8], set: u16) -> Permit {
    let root = root.to_vec();
    Permit { root, set }
}

#[test]
fn a_plan_is_sorted() {
    let all = [
        permit(&[1; 16], 0x8008),
        permit(&[10, 0, 0, 9], 0xffff),
        permit(&[10, 0, 0, 1], 0x000c),
    ];
    let plan = planned().plan(3, &all).expect("3 is a neighbour");
    let moves: Vec<(usize, u32)> = plan
        .expect("there is one")
        .iter()
        .map(|entry| (entry.root.len() + usize::from(entry.root[3]), entry.to))
        .collect();
    assert_eq!(moves, [(5, 2), (13, 0), (17, 15)]);
    assert_eq!(planned().plan(3, &all[..2]), Ok(None));
    assert_eq!(planned().plan(5, &[]), Ok(Some(vec![])));
    assert_eq!(answer_number(&planned().plan(16, &all)), 1);
}

#[test]
fn lists_are_vetted() {
    let card = planned();
    let permits = [[10, 0, 0, 9].as_slice(), &[10, 0, 0, 1], &[1; 16], &[2; 16]]
        .map(|root| permit(root, 0xfff8));
    let entry = |root: &[u8], to| Move {
        root: root.to_vec(),
        to,
    };
    let (one, nine) = (entry(&[10, 0, 0, 1], 15), entry(&[10, 0, 0, 9], 4));
    let (long, other) = (entry(&[1; 16], 5), entry(&[2; 16], 5));
    let vet = |list: &[&Move]| {
        let list: Vec<Move> = list.iter().map(|entry| (*entry).clone()).collect();
        card.vet(3, &permits, &list)
    };
    assert_eq!(vet(&[&one, &nine, &long]), Ok(true));
    assert_eq!(vet(&[&long, &one, &nine]), Ok(true));
    for list in [
        &[&one, &nine][..],
        &[&one, &nine, &long, &one],
        &[&one, &one, &long],
        &[&one, &nine, &long, &other],
        &[&one, &nine, &other],
        &[&one, &nine, &entry(&[1; 16], 2)],
        &[&one, &nine, &entry(&[1; 16], 3)],
        &[&one, &nine, &entry(&[1; 16], 16)],
        &[&one, &nine, &entry(&[1; 16], 255)],
        &[&one, &nine, &entry(&[1; 4], 5)],
        &[&one, &nine, &entry(&[], 5)],
        &[],
    ] {
        assert_eq!(vet(list), Ok(false), "{list:?}");
    }
    assert_eq!(answer_number(&card.vet(16, &[], &[])), 1);
    assert_eq!(card.vet(5, &[], &[]), Ok(true));
}

#[test]
fn sets_and_lists_as_octets() {
    let sets = [permit(&[10, 0, 0, 9], 0x8001), permit(&[1; 16], 2)];
    let octets = write_sets(&sets);
    assert_eq!(octets.len(), 38);
    assert_eq!(octets[..8], [0x80, 0x01, 4, 10, 0, 0, 9, 0]);
    assert_eq!(read_sets(&octets), sets);
    assert_eq!(read_sets(&octets[..37]), sets[..1]);
    assert_eq!(read_sets(&octets[..18]), []);
    let list = [Move {
        root: vec![10, 0, 0, 9],
        to: 255,
    }];
    let octets = write_list(&list);
    assert_eq!(octets[..6], [255, 4, 10, 0, 0, 9]);
    assert_eq!(octets.len(), 18);
    assert_eq!(read_list(&octets), list);
    let more = [&octets[..], &[5, 4, 10, 0, 0, 1]].concat();
    let read = read_list(&more);
    assert_eq!(
        (&read[..1], read[1].root.len(), read.len()),
        (&list[..], 0, 2)
    );
    assert_eq!(read_list(&octets[..17])[0].root, []);
    // A length of 17 goes beyond the space.
    let field = [&[0, 1, 17][..], &[9; 16]].concat();
    assert_eq!(read_sets(&field), [permit(&[], 1)]);
}
