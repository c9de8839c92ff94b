//! Names inside names, of request [9], for made days.

use crate::bench::{Order, WHOLE_BUFFER};
use crate::damage;
use crate::events::Scene;
use crate::formed;
use crate::layers::{self, Layer, EIGHT, RECURSIVE, VPN_RECURSIVE};
use crate::rng::Rng;
use crate::wire::{self, write_opaque_element as held, TreeName};

const MOST_LAYERS: usize = 9;
const DEEP: usize = 8;

fn any_layer(scene: &mut Scene) -> Layer {
    let rng = &mut *scene.rng;
    let root = match rng.below(3) {
        0 => rng.octets(4),
        1 => rng.octets(16),
        _ => rng.pick(&scene.world.roots).unwrap_or_default(),
    };
    let eight = if rng.percent(50) { EIGHT } else { 0 };
    Layer {
        root,
        eight: rng.octets(eight),
    }
}

/// The shortest name in eight to ten of the shortest layers, of which the tenth has no place: ten layers with it are the most.
fn deep_name(scene: &mut Scene) -> Vec<u8> {
    let rng = &mut *scene.rng;
    let opaque = formed::bare(1);
    let root = rng.octets(4);
    let mut element = wire::write_element(&TreeName { root, opaque });
    for _ in 0..DEEP + rng.below(3) {
        let layer = Layer {
            root: rng.octets(4),
            eight: Vec::new(),
        };
        element = layers::wrap(&layer, &element, WHOLE_BUFFER).unwrap_or(element);
    }
    element
}

/// A name in as many layers as chance will have it and have place.
fn wrapped_name(scene: &mut Scene) -> Option<Vec<u8>> {
    if scene.rng.percent(10) {
        return Some(deep_name(scene));
    }
    let name = scene.rng.pick(&scene.world.names)?;
    let mut element = wire::write_element(&name);
    for _ in 0..scene.rng.below(MOST_LAYERS) {
        let layer = any_layer(scene);
        element = layers::wrap(&layer, &element, WHOLE_BUFFER).unwrap_or(element);
    }
    Some(element)
}

/// Now and then spoiled, outside or within, or held as no name is.
fn any_name(scene: &mut Scene) -> Option<Vec<u8>> {
    let mut element = wrapped_name(scene)?;
    let rng = &mut *scene.rng;
    match rng.below(11) {
        0 => damage::spoil_element(rng, &mut element),
        10 => damage::misform(rng, &mut element),
        1 | 2 => {
            let place = rng.below(element.len());
            element[place] = element[place].wrapping_add([1, 255, 7][rng.below(3)]);
        }
        3 | 4 => {
            let root = rng.pick(&scene.world.roots)?;
            let opaque = odd_holder(rng, &element);
            element = wire::write_element(&TreeName { root, opaque });
        }
        _ => {}
    }
    Some(element)
}

fn odd_holder(rng: &mut Rng, inner: &[u8]) -> Vec<u8> {
    let kind = [RECURSIVE, VPN_RECURSIVE][rng.below(2)];
    let front = [0, 1, EIGHT - 1, EIGHT, EIGHT + 1][rng.below(5)];
    let front = rng.octets(front);
    let value = [&front[..], inner].concat();
    match rng.below(5) {
        0 => held(rng.between(5, 9) as u8, &value),
        1 => [held(kind, &value), formed::bare(1)].concat(),
        2 => [formed::bare(1), held(kind, &value)].concat(),
        3 => held(kind, &value[..rng.below(value.len())]),
        _ => held(kind, &value),
    }
}

pub fn shown_layers(scene: &mut Scene) -> Option<Order> {
    any_name(scene).map(Order::Layers)
}

pub fn unwrapped_name(scene: &mut Scene) -> Option<Order> {
    any_name(scene).map(Order::Unwrap)
}

/// Also in a layer that is none.
pub fn name_to_wrap(scene: &mut Scene) -> Option<Order> {
    let mut layer = any_layer(scene);
    if scene.rng.percent(10) {
        layer.root.resize([0, 3, 5, 15, 17][scene.rng.below(5)], 1);
    }
    if scene.rng.percent(10) {
        layer.eight.resize([1, 7, 9, 16][scene.rng.below(4)], 1);
    }
    any_name(scene).map(|element| Order::Wrap(layer, element))
}

/// A wrapped name in the place of a tree's.
pub fn wrapped_tree(scene: &mut Scene) -> Option<Order> {
    let element = wrapped_name(scene)?;
    Some(match scene.rng.below(3) {
        0 => Order::Join(element),
        1 => Order::Leave(element),
        _ => Order::Tree(element),
    })
}
