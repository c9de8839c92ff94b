//! Days of saves in form one: at any moment, restored on the same card or
//! another, whole or spoiled.

use super::*;
use crate::save_damage;

/// Few trees: a save of a full card makes a line of 46 thousand digits.
pub fn open(maker: &mut Maker) {
    maker.settle(4, (3, 2), SAVED_LENGTHS);
    maker.give(Order::Room(LONGEST_SAVE as u32));
    maker.route_roots(3);
    maker.grow(3);
}

/// Saves now and then, and restores, with or without events between and also
/// on another card, what was saved or something near it.
pub fn step(maker: &mut Maker) {
    match maker.rng.below(15) {
        0..=5 => maker.play(ORDINARY, 25),
        14 => save_a_long_name(maker),
        6 => maker.play(HELD, 25),
        7 | 8 => save_now(maker),
        9 | 10 => restore(maker, false),
        _ => restore(maker, true),
    }
}

/// A name that the form has no space for comes and goes; its label stays, if
/// it had one, until it is released.
fn save_a_long_name(maker: &mut Maker) {
    let Some(name) = maker.world.long_name(&mut maker.rng) else {
        return;
    };
    let element = wire::write_element(&name);
    for order in [Order::Join(element.clone()), Order::Leave(element)] {
        maker.give(order);
        save_now(maker);
    }
    for order in awaited_releases(&mut maker.scene(), &name) {
        maker.give(order);
    }
}

/// Also in hardly room enough.
fn save_now(maker: &mut Maker) {
    let scarce = maker.rng.percent(30);
    if scarce {
        let needed = maker.needed_room(&Order::Save);
        let room = room_near(&mut maker.rng, needed);
        maker.give(Order::Room(room));
    }
    maker.give(Order::Save);
    if scarce {
        maker.give(Order::Room(LONGEST_SAVE as u32));
    }
}

fn restore(maker: &mut Maker, spoiled: bool) {
    let Some(save) = maker.rng.pick(&maker.saves) else {
        return save_now(maker);
    };
    let octets = if spoiled {
        save_damage::spoil(&mut maker.rng, &save)
    } else {
        save
    };
    if maker.rng.percent(20) {
        restart(maker);
    }
    maker.give(Order::Restore(octets));
    maker.look(60);
    if maker.rng.percent(20) {
        save_now(maker);
    }
}
