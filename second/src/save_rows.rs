//! Saves of made cards as rows of a table in a proof language: the events that
//! lead from one to the next, the octets, and spoiled ones with their answer.

use crate::bench::Order;
use crate::bench::{self, WHOLE_BUFFER};
use crate::card::Card;
use crate::events::{any_neighbour, choose, Scene};
use crate::recipes::{HELD, MOVES, ORDINARY};
use crate::rng::Rng;
use crate::rows::{event_text, is_event, list};
use crate::save::LONGEST_SAVE;
use crate::save_damage;
use crate::world::{World, SAVED_LENGTHS};

/// None where the base is refused.
pub fn make(base: u32, seed: u64, count: usize) -> Option<Vec<String>> {
    let (answer, mut card) = Card::start(base);
    answer.ok()?;
    let mut rng = Rng::new(seed);
    let world = World::new(&mut rng, 3, (3, 2), SAVED_LENGTHS);
    let rows = (0..count).map(|place| row(&mut rng, &mut card, &world, place));
    Some(rows.collect())
}

fn row(rng: &mut Rng, card: &mut Card, world: &World, place: usize) -> String {
    let mut events = String::new();
    for number in 0..rng.between(1, 5) {
        let event = next_event(rng, card, world, 5 * place + number);
        if is_event(&event) {
            // A refused event leaves the card, there and here.
            let _ = bench::event_answer(card, &event, WHOLE_BUFFER);
            events.push_str(&format!("{} ∷ ", event_text(&event)));
        }
    }
    let save = card.save(LONGEST_SAVE).expect("there is room and space");
    let spoiled = save_damage::spoil(rng, &save);
    let taken = card.clone().restore(&spoiled).is_ok();
    format!(
        "    step ({events}[]) ({}) ({} ({})) ∷",
        list(&save),
        if taken { "takes" } else { "refuses" },
        list(&spoiled),
    )
}

fn next_event(rng: &mut Rng, card: &Card, world: &World, place: usize) -> Order {
    if place < 3 {
        return Order::Route(world.roots[place].clone(), any_neighbour(rng));
    }
    let recipe = [ORDINARY, HELD, MOVES][rng.below(3)];
    choose(recipe, &mut Scene { rng, card, world })
}
