//! Events about branches from the upstream, of request [2], for made days.

use crate::bench::Order;
use crate::card::{Card, Tree, NEIGHBOURS, NO_ROUTE, THIS_NODE};
use crate::events::{any_label, any_neighbour, standing, told, unknown_name, Scene};
use crate::wire::{self, Kind};

/// A tree that stands and whose route is a neighbour, with that neighbour, if
/// it is as wanted.
fn tree_where(
    scene: &mut Scene,
    wanted: impl Fn(&Card, &Tree, u32) -> bool,
) -> Option<(Tree, u32)> {
    let card = scene.card;
    let trees: Vec<(Tree, u32)> = card
        .trees()
        .iter()
        .filter_map(|tree| Some((tree.clone(), card.upstream(&tree.name.root)?)))
        .filter(|(tree, upstream)| wanted(card, tree, *upstream))
        .collect();
    scene.rng.pick(&trees)
}

fn holds_one(_: &Card, tree: &Tree, upstream: u32) -> bool {
    tree.branches.contains_key(&upstream)
}

/// The two boxes of the request: the upstream of a tree maps it to us.
pub fn mapped_back(scene: &mut Scene) -> Option<Order> {
    let (tree, upstream) = tree_where(scene, |card, tree, up| !holds_one(card, tree, up))?;
    let label = any_label(scene.rng);
    Some(told(scene, upstream, Kind::Mapping, &tree.name, label))
}

pub fn new_tree_mapped_back(scene: &mut Scene) -> Option<Order> {
    let name = unknown_name(scene)?;
    let upstream = scene.card.upstream(&name.root)?;
    let label = any_label(scene.rng);
    Some(told(scene, upstream, Kind::Mapping, &name, label))
}

/// The held branch once more, with the same label or another.
pub fn mapped_back_again(scene: &mut Scene) -> Option<Order> {
    let (tree, upstream) = tree_where(scene, holds_one)?;
    let label = if scene.rng.percent(50) {
        tree.branches[&upstream]
    } else {
        any_label(scene.rng)
    };
    Some(told(scene, upstream, Kind::Mapping, &tree.name, label))
}

/// A branch or a leaf for a tree that stands by its held branch alone.
pub fn silent_tree_grows(scene: &mut Scene) -> Option<Order> {
    let (tree, upstream) = tree_where(scene, |_, tree, up| !tree.serves(Some(up)))?;
    if scene.rng.percent(50) {
        return Some(Order::Join(wire::write_element(&tree.name)));
    }
    let from = (upstream + 1 + scene.rng.below(15) as u32) % NEIGHBOURS;
    let label = any_label(scene.rng);
    Some(told(scene, from, Kind::Mapping, &tree.name, label))
}

/// The last that is not held goes from a tree with a held branch.
pub fn last_live_goes(scene: &mut Scene) -> Option<Order> {
    let (tree, upstream) = tree_where(scene, |card, tree, up| {
        let live = tree.live(Some(up)).count() + usize::from(tree.leaf);
        holds_one(card, tree, up) && live == 1
    })?;
    let branch = tree.live(Some(upstream)).next();
    Some(match branch {
        Some((from, label)) => told(scene, from, Kind::Withdraw, &tree.name, label),
        None => Order::Leave(wire::write_element(&tree.name)),
    })
}

pub fn held_goes(scene: &mut Scene) -> Option<Order> {
    let (tree, upstream) = tree_where(scene, holds_one)?;
    let label = tree.branches[&upstream];
    Some(told(scene, upstream, Kind::Withdraw, &tree.name, label))
}

/// The upstream of a held branch changes.
pub fn waking_route(scene: &mut Scene) -> Option<Order> {
    let (tree, _) = tree_where(scene, holds_one)?;
    let to = match scene.rng.below(10) {
        0 => THIS_NODE,
        1 => NO_ROUTE,
        _ => any_neighbour(scene.rng),
    };
    Some(Order::Route(tree.name.root.clone(), to))
}

/// The neighbour of a branch becomes the upstream.
pub fn silencing_route(scene: &mut Scene) -> Option<Order> {
    let tree = standing(scene)?;
    let neighbours: Vec<u32> = tree.branches.into_keys().collect();
    let to = scene.rng.pick(&neighbours)?;
    Some(Order::Route(tree.name.root.clone(), to))
}

/// A move of a root to another neighbour, if one is as wanted.
fn move_where(scene: &mut Scene, wanted: impl Fn(&[u8], u32) -> bool) -> Option<Order> {
    let card = scene.card;
    let mut orders = Vec::new();
    for root in &scene.world.roots {
        let others = (0..NEIGHBOURS).filter(|to| card.upstream(root) != Some(*to));
        orders.extend(others.filter(|to| wanted(root, *to)).map(|to| (root, to)));
    }
    let (root, to) = scene.rng.pick(&orders)?;
    Some(Order::Route(root.clone(), to))
}

/// A move that needs one label more than are free; or just those, or fewer
/// than there are trees, some of which need none.
pub fn counted_route(scene: &mut Scene) -> Option<Order> {
    let (card, free) = (scene.card, scene.card.free_labels());
    let short = scene.rng.percent(40);
    move_where(scene, |root, to| {
        let (needed, trees) = (card.labels_needed(root, to), card.trees_of(root).count());
        if short {
            needed == free + 1
        } else {
            needed == free || (needed < free && free < trees)
        }
    })
}

/// A move of a root of which all trees are just as many as the free labels, or
/// one more; or all but those that have one branch alone.
pub fn bounded_route(scene: &mut Scene) -> Option<Order> {
    let (card, free) = (scene.card, scene.card.free_labels());
    let over = scene.rng.below(2);
    let least = scene.rng.percent(60);
    move_where(scene, |root, _| {
        let trees = card.trees_of(root).count();
        let bound = if least {
            trees - card.trees_of(root).filter(|tree| tree.is_lone()).count()
        } else {
            trees
        };
        trees > 0 && bound == free + over
    })
}
