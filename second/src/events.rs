//! Events that suit the card as it stands, for made days.

use crate::bench::Order;
use crate::card::{Card, LabelUse, Name, Route, Tree, NEIGHBOURS, NO_ROUTE, THIS_NODE};
use crate::formed;
use crate::rng::Rng;
use crate::wire::{self, Kind, TreeName};
use crate::world::World;

pub struct Scene<'a> {
    pub rng: &'a mut Rng,
    pub card: &'a Card,
    pub world: &'a World,
}

/// None where the card gives no occasion for the event.
pub type Event = fn(&mut Scene) -> Option<Order>;

/// How often each event is tried.
pub type Recipe = [(usize, Event)];

const TRIES: usize = 20;

pub fn choose(recipe: &Recipe, scene: &mut Scene) -> Order {
    let total = recipe.iter().map(|(weight, _)| weight).sum();
    for _ in 0..TRIES {
        let event = weighed(recipe, scene.rng.below(total));
        if let Some(order) = event(scene) {
            return order;
        }
    }
    Order::Free
}

fn weighed(recipe: &Recipe, mut place: usize) -> Event {
    for (weight, event) in recipe {
        if place < *weight {
            return *event;
        }
        place -= weight;
    }
    unreachable!("the place is below the sum of the weights")
}

/// A message as a neighbour would send it, now and then with further TLVs
/// that are to be stepped over.
pub fn message(rng: &mut Rng, kind: Kind, name: &TreeName, label: u32) -> Vec<u8> {
    let mut tlvs = wire::write_tlv(wire::FEC, &wire::write_element(name));
    tlvs.extend(wire::write_tlv(wire::GENERIC_LABEL, &label.to_be_bytes()));
    if rng.percent(8) {
        for _ in 0..rng.between(1, 3) {
            let field = wire::U_BIT | rng.next() as u16;
            let length = rng.below(7);
            tlvs.extend(wire::write_tlv(field, &rng.octets(length)));
        }
    }
    wire::write_frame(kind.code(), rng.number(), &tlvs)
}

pub fn told(scene: &mut Scene, from: u32, kind: Kind, name: &TreeName, label: u32) -> Order {
    Order::Take(from, message(scene.rng, kind, name, label))
}

pub fn any_neighbour(rng: &mut Rng) -> u32 {
    rng.below(NEIGHBOURS as usize) as u32
}

/// A label a neighbour may give, the ends of the range included.
pub fn any_label(rng: &mut Rng) -> u32 {
    match rng.below(10) {
        0 => wire::LOWEST_LABEL,
        1 => wire::HIGHEST_LABEL,
        2 => rng.between(16, 1_048_575) as u32,
        _ => rng.between(100, 120) as u32,
    }
}

pub fn standing(scene: &mut Scene) -> Option<Tree> {
    scene.rng.pick(scene.card.trees())
}

fn standing_branch(scene: &mut Scene) -> Option<(Name, u32, u32)> {
    let tree = standing(scene)?;
    let branches: Vec<(u32, u32)> = tree.branches.into_iter().collect();
    let (neighbour, label) = scene.rng.pick(&branches)?;
    Some((tree.name, neighbour, label))
}

pub fn unknown_name(scene: &mut Scene) -> Option<TreeName> {
    let name = scene.rng.pick(&scene.world.names)?;
    scene.card.tree(&name).is_none().then_some(name)
}

pub fn new_tree(scene: &mut Scene) -> Option<Order> {
    let name = unknown_name(scene)?;
    let (from, label) = (any_neighbour(scene.rng), any_label(scene.rng));
    Some(told(scene, from, Kind::Mapping, &name, label))
}

pub fn new_leaf(scene: &mut Scene) -> Option<Order> {
    let name = unknown_name(scene)?;
    Some(Order::Join(wire::write_element(&name)))
}

pub fn further_branch(scene: &mut Scene) -> Option<Order> {
    let tree = standing(scene)?;
    let lacking: Vec<u32> = (0..NEIGHBOURS)
        .filter(|neighbour| !tree.branches.contains_key(neighbour))
        .collect();
    let from = scene.rng.pick(&lacking)?;
    let label = any_label(scene.rng);
    Some(told(scene, from, Kind::Mapping, &tree.name, label))
}

pub fn repeated_branch(scene: &mut Scene) -> Option<Order> {
    let (name, from, label) = standing_branch(scene)?;
    Some(told(scene, from, Kind::Mapping, &name, label))
}

pub fn changed_branch(scene: &mut Scene) -> Option<Order> {
    let (name, from, label) = standing_branch(scene)?;
    let other = any_label(scene.rng);
    (other != label).then(|| told(scene, from, Kind::Mapping, &name, other))
}

pub fn branch_withdraw(scene: &mut Scene) -> Option<Order> {
    let (name, from, label) = standing_branch(scene)?;
    Some(told(scene, from, Kind::Withdraw, &name, label))
}

/// Takes the last branch or the leaf from a tree, which then goes.
pub fn last_goes(scene: &mut Scene) -> Option<Order> {
    let thin = |tree: &&Tree| tree.branches.len() + usize::from(tree.leaf) == 1;
    let trees: Vec<Tree> = scene.card.trees().iter().filter(thin).cloned().collect();
    let tree = scene.rng.pick(&trees)?;
    Some(match tree.branches.first_key_value() {
        Some((&from, &label)) => told(scene, from, Kind::Withdraw, &tree.name, label),
        None => Order::Leave(wire::write_element(&tree.name)),
    })
}

/// A Withdraw for a branch or a tree that does not stand.
pub fn stray_withdraw(scene: &mut Scene) -> Option<Order> {
    let (from, label) = (any_neighbour(scene.rng), any_label(scene.rng));
    let name = match scene.rng.below(3) {
        0 => unknown_name(scene)?,
        1 => (*standing(scene)?.name).clone(),
        _ => {
            let (name, from, label) = standing_branch(scene)?;
            let near = near_name(scene.rng, &name);
            return Some(told(scene, from, Kind::Withdraw, &near, label));
        }
    };
    Some(told(scene, from, Kind::Withdraw, &name, label))
}

/// `LabelUse::Mapped` or `LabelUse::Awaiting`.
type Use = fn(u32, Name) -> LabelUse;

/// Label, neighbour and name of each label in that use.
fn labels_in(card: &Card, wanted: Use) -> Vec<(u32, u32, Name)> {
    card.labels()
        .filter_map(|(label, held)| match held {
            LabelUse::Mapped(neighbour, name) | LabelUse::Awaiting(neighbour, name) => {
                let in_use = *held == wanted(*neighbour, name.clone());
                in_use.then(|| (label, *neighbour, name.clone()))
            }
            LabelUse::Free => None,
        })
        .collect()
}

/// Those of a name that a message can have.
fn awaiting(card: &Card) -> Vec<(u32, u32, Name)> {
    let mut labels = labels_in(card, LabelUse::Awaiting);
    labels.retain(|(_, _, name)| !name.root.is_empty());
    labels
}

pub fn awaited_release(scene: &mut Scene) -> Option<Order> {
    let (label, from, name) = scene.rng.pick(&awaiting(scene.card))?;
    Some(told(scene, from, Kind::Release, &name, label))
}

/// The Release of each label that is awaited for the name.
pub fn awaited_releases(scene: &mut Scene, name: &TreeName) -> Vec<Order> {
    let mut labels = awaiting(scene.card);
    labels.retain(|(_, _, awaited)| **awaited == *name);
    let release = |(label, from, name): (u32, u32, Name)| {
        let message = message(scene.rng, Kind::Release, &name, label);
        Order::Take(from, message)
    };
    labels.into_iter().map(release).collect()
}

/// A name that differs from the given one as little as can be.
fn near_name(rng: &mut Rng, name: &TreeName) -> TreeName {
    let mut near = name.clone();
    match rng.below(5) {
        0 if near.opaque.len() + formed::SHORTEST <= wire::LONGEST_OPAQUE => {
            near.opaque.extend(formed::bare(0));
        }
        1 => drop(near.opaque.pop()),
        2 | 3 => near.root.resize(20 - near.root.len(), 0),
        _ => *near.opaque.last_mut().expect("names have an octet") ^= 1,
    }
    near
}

/// A Release that is right but for one of neighbour, name and label.
pub fn stray_release(scene: &mut Scene) -> Option<Order> {
    let (mut label, mut from, name) = scene.rng.pick(&awaiting(scene.card))?;
    let mut name = (*name).clone();
    match scene.rng.below(5) {
        0 => from = (from + 1 + scene.rng.below(15) as u32) % NEIGHBOURS,
        1 => name = scene.rng.pick(&scene.world.names)?,
        2 => name = near_name(scene.rng, &name),
        3 => label = scene.card.base() + scene.rng.below(256) as u32,
        _ => label = any_label(scene.rng),
    }
    Some(told(scene, from, Kind::Release, &name, label))
}

/// A Release of a label that is still mapped, from the very upstream.
pub fn early_release(scene: &mut Scene) -> Option<Order> {
    let (label, from, name) = scene.rng.pick(&labels_in(scene.card, LabelUse::Mapped))?;
    Some(told(scene, from, Kind::Release, &name, label))
}

pub fn standing_join(scene: &mut Scene) -> Option<Order> {
    Some(Order::Join(wire::write_element(&standing(scene)?.name)))
}

pub fn leaf_leave(scene: &mut Scene) -> Option<Order> {
    let leaves: Vec<Tree> = scene
        .card
        .trees()
        .iter()
        .filter(|tree| tree.leaf)
        .cloned()
        .collect();
    let tree = scene.rng.pick(&leaves)?;
    Some(Order::Leave(wire::write_element(&tree.name)))
}

pub fn stray_leave(scene: &mut Scene) -> Option<Order> {
    let name = scene.rng.pick(&scene.world.names)?;
    let leaf = scene.card.tree(&name).is_some_and(|tree| tree.leaf);
    (!leaf).then(|| Order::Leave(wire::write_element(&name)))
}

/// A root of the world that has no route gets one.
pub fn new_route(scene: &mut Scene) -> Option<Order> {
    let root = scene.rng.pick(&scene.world.roots)?;
    if scene.card.routes().contains_key(&root) {
        return None;
    }
    let route = if scene.rng.percent(10) {
        THIS_NODE
    } else {
        any_neighbour(scene.rng)
    };
    Some(Order::Route(root, route))
}

fn routed(scene: &mut Scene) -> Option<(Vec<u8>, Route)> {
    let routes: Vec<(Vec<u8>, Route)> = scene
        .card
        .routes()
        .iter()
        .map(|(root, route)| (root.clone(), *route))
        .collect();
    scene.rng.pick(&routes)
}

pub fn moved_route(scene: &mut Scene) -> Option<Order> {
    let (root, route) = routed(scene)?;
    let to = any_neighbour(scene.rng);
    (route != Route::Neighbour(to)).then_some(Order::Route(root, to))
}

/// The root of some tree moves, so that roots of many trees move often.
pub fn moved_trees(scene: &mut Scene) -> Option<Order> {
    let root = standing(scene)?.name.root.clone();
    let to = any_neighbour(scene.rng);
    let same = scene.card.routes().get(&root) == Some(&Route::Neighbour(to));
    (!same).then_some(Order::Route(root, to))
}

pub fn same_route(scene: &mut Scene) -> Option<Order> {
    let (root, route) = routed(scene)?;
    let again = match route {
        Route::Neighbour(neighbour) => neighbour,
        Route::ThisNode => THIS_NODE,
    };
    Some(Order::Route(root, again))
}

pub fn ended_route(scene: &mut Scene) -> Option<Order> {
    let (root, _) = routed(scene)?;
    let route = if scene.rng.percent(50) {
        THIS_NODE
    } else {
        NO_ROUTE
    };
    Some(Order::Route(root, route))
}

pub fn any_route(scene: &mut Scene) -> Option<Order> {
    let root = scene.rng.pick(&scene.world.roots)?;
    Some(Order::Route(root, scene.rng.below(18) as u32))
}

/// Asks the card something, most often about what it holds.
pub fn lookup(scene: &mut Scene) -> Order {
    match scene.rng.below(10) {
        0 | 1 => Order::Free,
        2..=5 => Order::Label(asked_label(scene)),
        6 | 7 => standing(scene).map_or(Order::Free, |tree| {
            Order::Tree(wire::write_element(&tree.name))
        }),
        _ => scene
            .rng
            .pick(&scene.world.names)
            .map_or(Order::Free, |name| Order::Tree(wire::write_element(&name))),
    }
}

fn asked_label(scene: &mut Scene) -> u32 {
    if scene.rng.percent(6) {
        let base = scene.card.base();
        let outside = [0, 15, base - 1, base + 256, 1_048_576, u32::MAX];
        return outside[scene.rng.below(outside.len())];
    }
    block_label(scene)
}

/// A label of the block, most often one in use.
pub fn block_label(scene: &mut Scene) -> u32 {
    let uses = match scene.rng.below(10) {
        0..=6 => labels_in(scene.card, LabelUse::Mapped),
        7 | 8 => awaiting(scene.card),
        _ => Vec::new(),
    };
    let any = scene.card.base() + scene.rng.below(256) as u32;
    scene.rng.pick(&uses).map_or(any, |(label, _, _)| label)
}
