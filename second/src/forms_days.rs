//! Days of saves in both forms: written, moved to and fro, spoiled, taken for
//! one of the other form, restored.

use super::*;
use crate::save_damage;
use crate::save_two::LONGEST_SAVE_TWO;

/// The kinds of the heads.
const ONE: u8 = 1;
const TWO: u8 = 5;

/// Names that form one has no space for come and go by themselves, so that
/// about half of the tables have a save of form one.
pub fn open(maker: &mut Maker) {
    maker.settle(4, (3, 2), SAVED_LENGTHS);
    maker.give(Order::Room(LONGEST_SAVE_TWO as u32));
    maker.route_roots(3);
    maker.grow(3);
}

pub fn step(maker: &mut Maker) {
    match maker.rng.below(22) {
        0..=4 => maker.play(ORDINARY, 25),
        5 => maker.play(HELD, 25),
        6 => long_name(maker),
        7 => write_in_room(maker, Order::Save),
        8 | 9 => write_in_room(maker, Order::SaveTwo),
        10 => to_and_fro(maker),
        11 => all_come_back(maker),
        12 | 13 => {
            let octets = some_octets(maker, ONE);
            write_in_room(maker, Order::Newer(octets));
        }
        14..=16 => {
            let octets = some_octets(maker, TWO);
            write_in_room(maker, Order::Older(octets));
        }
        17 => {
            let octets = some_octets(maker, ONE);
            restore_form(maker, Order::Restore(octets));
        }
        _ => {
            let octets = some_octets(maker, TWO);
            restore_form(maker, Order::RestoreTwo(octets));
        }
    }
}

/// A tree whose name is long comes; it goes at once, and its label later, or
/// stays for a while.
fn long_name(maker: &mut Maker) {
    let Some(name) = maker.world.long_name(&mut maker.rng) else {
        return;
    };
    let element = wire::write_element(&name);
    maker.give(Order::Join(element.clone()));
    if maker.rng.percent(60) {
        write_in_room(maker, Order::SaveTwo);
    }
    maker.give(Order::Leave(element));
    if maker.rng.percent(60) {
        write_in_room(maker, Order::SaveTwo);
    }
    if maker.rng.percent(80) {
        for order in awaited_releases(&mut maker.scene(), &name) {
            maker.give(order);
        }
    }
}

/// Until no label is in use, or nearly so: "none" is then near.
fn all_come_back(maker: &mut Maker) {
    if maker.rng.percent(30) {
        restart(maker);
        return write_in_room(maker, Order::SaveTwo);
    }
    for root in maker.world.roots.clone() {
        maker.give(Order::Route(root, NO_ROUTE));
    }
    while let Some(order) = awaited_release(&mut maker.scene()) {
        maker.give(order);
    }
    write_in_room(maker, Order::SaveTwo);
    let routed = maker.rng.between(1, 3);
    maker.route_roots(routed);
}

/// What the order writes is kept. Often in hardly room enough.
fn write_in_room(maker: &mut Maker, order: Order) {
    let scarce = maker.rng.percent(35);
    if scarce {
        let mut trial = maker.bench.clone();
        trial.room = LONGEST_SAVE_TWO;
        let needed = bench::octets_of_form(&trial.obey(&order)).map_or(0, |o| o.len());
        let room = room_near(&mut maker.rng, needed);
        maker.give(Order::Room(room));
    }
    maker.give(order);
    if scarce {
        maker.give(Order::Room(LONGEST_SAVE_TWO as u32));
    }
}

/// A save that the day has seen, mostly of the form that is wanted; whole or
/// spoiled.
fn some_octets(maker: &mut Maker, head: u8) -> Vec<u8> {
    let wanted = if maker.rng.percent(90) {
        head
    } else {
        ONE + TWO - head
    };
    let of_form = |save: &&Vec<u8>| save[2] == wanted;
    let saves: Vec<Vec<u8>> = maker.forms.iter().filter(of_form).cloned().collect();
    let Some(save) = maker.rng.pick(&saves) else {
        return Vec::new();
    };
    match maker.rng.below(10) {
        0..=4 => save,
        5 if save[2] == TWO => save_damage::last_given(&mut maker.rng, save),
        6 => other_head(save),
        _ => save_damage::spoil(&mut maker.rng, &save),
    }
}

/// The head's kind alone is that of the other form.
fn other_head(mut save: Vec<u8>) -> Vec<u8> {
    save[2] = ONE + TWO - save[2];
    save
}

fn restore_form(maker: &mut Maker, order: Order) {
    if maker.rng.percent(20) {
        restart(maker);
    }
    maker.give(order);
    maker.look(40);
    if maker.rng.percent(40) {
        maker.give(Order::SaveTwo);
    }
    // Which label is next shows what was given last.
    if maker.rng.percent(40) {
        maker.play(&[(1, new_leaf)], 0);
    }
}

/// The table as it stands goes through both forms and is restored.
fn to_and_fro(maker: &mut Maker) {
    let Ok(two) = maker.card().save_two(LONGEST_SAVE_TWO) else {
        return;
    };
    maker.give(Order::SaveTwo);
    maker.give(Order::Older(two.clone()));
    match save_two::older(&two, LONGEST_SAVE_TWO) {
        Ok(one) => {
            maker.give(Order::Newer(one.clone()));
            let swapped = maker.rng.percent(50);
            maker.give(if swapped {
                Order::Restore(one)
            } else {
                Order::RestoreTwo(two)
            });
        }
        Err(_) => maker.give(Order::RestoreTwo(two)),
    }
    maker.play(&[(1, new_leaf), (1, new_tree)], 30);
}

#[cfg(test)]
#[path = "forms_days_tests.rs"]
mod tests;
