//! Plans and lists, of request [13], for made days.

use crate::bench::Order;
use crate::card::{Card, NEIGHBOURS};
use crate::events::{any_neighbour, Scene};
use crate::plan::{Move, Permit};
use crate::rng::Rng;

/// Most often one who has roots behind it.
pub fn any_line(scene: &mut Scene) -> u32 {
    let card = scene.card;
    let upstreams: Vec<u32> = card
        .routes()
        .keys()
        .filter_map(|root| card.upstream(root))
        .collect();
    let any = any_neighbour(scene.rng);
    match scene.rng.below(20) {
        0 => any,
        1 => [16, 17, 256, u32::MAX][scene.rng.below(4)],
        _ => scene.rng.pick(&upstreams).unwrap_or(any),
    }
}

/// A set for each root that has a route, now and then without one of them and
/// with others, in any order.
pub fn any_permits(scene: &mut Scene) -> Vec<Permit> {
    let rng = &mut *scene.rng;
    let mut roots: Vec<Vec<u8>> = scene.card.routes().keys().cloned().collect();
    if rng.percent(15) && !roots.is_empty() {
        roots.remove(rng.below(roots.len()));
    }
    let unrouted = |root: &&Vec<u8>| !scene.card.routes().contains_key(*root);
    let others = scene.world.roots.iter().filter(unrouted);
    roots.extend(others.take(rng.below(2)).cloned());
    for place in 1..roots.len() {
        roots.swap(place, rng.below(place + 1));
    }
    let generous = rng.percent(60);
    let permit = |root| Permit {
        root,
        set: any_set(rng, generous),
    };
    roots.into_iter().map(permit).collect()
}

fn any_set(rng: &mut Rng, generous: bool) -> u16 {
    match rng.below(12) {
        0 if !generous => 0,
        0..=3 => u16::MAX,
        4..=6 => 1 << rng.below(NEIGHBOURS as usize),
        7 | 8 => rng.next() as u16,
        _ => (rng.next() & rng.next()) as u16 | 1 << rng.below(NEIGHBOURS as usize),
    }
}

/// The planner's own list, for which there may be too few labels, another in
/// which some entries go elsewhere, or one that is spoiled.
pub fn any_list(scene: &mut Scene, from: u32, permits: &[Permit]) -> Vec<Move> {
    let card = scene.card;
    let cheapest = card.cheapest(from, permits);
    let mut list = cheapest.unwrap_or_else(|| straight_on(card, from));
    let rng = &mut *scene.rng;
    if !list.is_empty() {
        for _ in 0..[0, 0, 1, 2][rng.below(4)] {
            change(rng, &mut list);
        }
    }
    list
}

/// Every root behind the neighbour, to the next one.
fn straight_on(card: &Card, from: u32) -> Vec<Move> {
    let to = (from + 1) % NEIGHBOURS;
    let roots = card.roots_through(from).into_iter();
    roots.map(|root| Move { root, to }).collect()
}

fn change(rng: &mut Rng, list: &mut Vec<Move>) {
    let (place, other) = (rng.below(list.len()), rng.below(list.len()));
    match rng.below(8) {
        0 => list.swap(place, other),
        1 if list.len() > 1 => drop(list.remove(place)),
        2 => list.push(list[place].clone()),
        3 => list[place].root = list[other].root.clone(),
        4 => other_family(&mut list[place].root),
        5 => list[place].to = rng.between(14, 18) as u32,
        _ => list[place].to = any_neighbour(rng),
    }
}

/// 4 octets for 16, and the other way round.
fn other_family(root: &mut Vec<u8>) {
    let length = 20 - root.len();
    root.resize(length, 0);
}

pub fn any_plan(scene: &mut Scene) -> Option<Order> {
    let from = any_line(scene);
    let permits = any_permits(scene);
    Some(Order::Plan(from, permits))
}

pub fn any_vet(scene: &mut Scene) -> Option<Order> {
    let from = any_line(scene);
    let permits = any_permits(scene);
    let list = any_list(scene, from, &permits);
    Some(Order::Vet(from, permits, list))
}
