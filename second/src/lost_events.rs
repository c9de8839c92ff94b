//! Losses of neighbours, of request [11], for made days.

use crate::bench::Order;
use crate::card::{Card, LabelUse, Tree, NEIGHBOURS};
use crate::events::{any_neighbour, standing, Scene};

/// One of the neighbours that are as wanted.
fn neighbour_where(scene: &mut Scene, wanted: impl Fn(&Card, u32) -> bool) -> Option<Order> {
    let card = scene.card;
    let suited: Vec<u32> = (0..NEIGHBOURS).filter(|n| wanted(card, *n)).collect();
    scene.rng.pick(&suited).map(Order::Lost)
}

fn upstream_of(card: &Card, tree: &Tree) -> Option<u32> {
    card.upstream(&tree.name.root)
}

fn has_branch(card: &Card, neighbour: u32) -> bool {
    let trees = card.trees();
    trees.iter().any(|t| t.branches.contains_key(&neighbour))
}

pub fn any_loss(scene: &mut Scene) -> Option<Order> {
    Some(Order::Lost(any_neighbour(scene.rng)))
}

pub fn stranger_loss(scene: &mut Scene) -> Option<Order> {
    scene
        .rng
        .pick(&[16, 17, 255, 65536, u32::MAX])
        .map(Order::Lost)
}

/// Who has no branch, no label and no route.
pub fn loss_of_nobody(scene: &mut Scene) -> Option<Order> {
    neighbour_where(scene, |card, neighbour| {
        let used = card.labels().any(|(_, l)| l.neighbour() == Some(neighbour));
        let routed = card
            .routes()
            .keys()
            .any(|r| card.upstream(r) == Some(neighbour));
        !used && !routed && !has_branch(card, neighbour)
    })
}

/// The upstream of some tree, so that one of many trees is often lost.
pub fn upstream_loss(scene: &mut Scene) -> Option<Order> {
    let tree = standing(scene)?;
    upstream_of(scene.card, &tree).map(Order::Lost)
}

pub fn branch_loss(scene: &mut Scene) -> Option<Order> {
    neighbour_where(scene, has_branch)
}

/// Who has branches, and each of them is held.
pub fn held_loss(scene: &mut Scene) -> Option<Order> {
    neighbour_where(scene, |card, neighbour| {
        let theirs = |t: &&Tree| t.branches.contains_key(&neighbour);
        let mut trees = card.trees().iter().filter(theirs);
        has_branch(card, neighbour) && trees.all(|t| upstream_of(card, t) == Some(neighbour))
    })
}

/// Who has the last branch that is fed, of a tree behind another.
pub fn last_live_loss(scene: &mut Scene) -> Option<Order> {
    neighbour_where(scene, |card, neighbour| {
        card.trees().iter().any(|tree| {
            let upstream = upstream_of(card, tree);
            let mut live = tree.live(upstream).map(|(n, _)| n);
            let alone = live.next() == Some(neighbour) && live.next().is_none();
            upstream.is_some() && !tree.leaf && alone
        })
    })
}

/// From whom a label is awaited.
pub fn awaited_loss(scene: &mut Scene) -> Option<Order> {
    neighbour_where(scene, |card, neighbour| {
        let awaited = |held: &LabelUse| matches!(held, LabelUse::Awaiting(n, _) if *n == neighbour);
        card.labels().any(|(_, held)| awaited(held))
    })
}
