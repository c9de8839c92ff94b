//! A made day as rows of a table in a proof language, each with the whole card
//! that the event leaves.

use crate::bench::{self, Order, WHOLE_BUFFER};
use crate::card::{Card, Found};
use crate::days::{room_near, spoil};
use crate::events::{any_neighbour, block_label, choose, Scene};
use crate::recipes::{HELD, LOSSES, MOVES, ORDINARY};
use crate::refusal::Refusal;
use crate::rng::Rng;
use crate::row_cards::{card_text, Words};
use crate::world::{World, FEW_LONG};

/// None where the base is refused. With a number of free labels, the day is
/// one on a card that has no more.
pub fn make(base: u32, seed: u64, count: usize, free: Option<usize>) -> Option<Vec<String>> {
    let (answer, mut card) = Card::start(base);
    answer.ok()?;
    if let Some(free) = free {
        card.use_up_beyond(free);
    }
    let mut rng = Rng::new(seed);
    let world = World::new(&mut rng, 6, (8, 4), FEW_LONG);
    let mut words = Words::new();
    let mut rows = Vec::new();
    while rows.len() < count {
        let event = next_event(&mut rng, &card, &world, rows.len());
        if !is_event(&event) {
            continue;
        }
        let room = next_room(&mut rng, &card, &event, rows.len());
        let row = row(&mut rng, &mut card, &world, &event, room);
        let left = card_text(&card, &mut words);
        rows.push(format!("    leaves ({row}) ({left}) ∷"));
    }
    let mut lines = words.lines();
    lines.extend(["unfoldable pub day : List Whole", "day ="].map(String::from));
    lines.append(&mut rows);
    lines.push("    []".to_string());
    Some(lines)
}

pub fn is_event(order: &Order) -> bool {
    matches!(
        order,
        Order::Take(..) | Order::Join(_) | Order::Leave(_) | Order::Route(..) | Order::Lost(_)
    )
}

/// The first events give the first roots their routes.
fn next_event(rng: &mut Rng, card: &Card, world: &World, place: usize) -> Order {
    if place < 3 {
        return Order::Route(world.roots[place].clone(), any_neighbour(rng));
    }
    let recipe = match rng.below(10) {
        0..=2 => MOVES,
        3..=5 => HELD,
        6 if rng.percent(40) => LOSSES,
        _ => ORDINARY,
    };
    let event = choose(recipe, &mut Scene { rng, card, world });
    if rng.percent(12) {
        spoil(rng, event)
    } else {
        event
    }
}

fn next_room(rng: &mut Rng, card: &Card, event: &Order, place: usize) -> usize {
    if place == 0 || !rng.percent(10) {
        return WHOLE_BUFFER;
    }
    let needed = bench::event_answer(&mut card.clone(), event, WHOLE_BUFFER)
        .map_or(0, |records| records.len());
    (room_near(rng, needed) as usize).min(WHOLE_BUFFER)
}

fn row(rng: &mut Rng, card: &mut Card, world: &World, event: &Order, room: usize) -> String {
    let answer = bench::event_answer(card, event, room);
    let asked = block_label(&mut Scene { rng, card, world });
    let facts = format!(
        "then ({}) {} {asked} ({})",
        event_text(event),
        outcome_text(&answer, card.free_labels()),
        list(&gives(card.find_label(asked))),
    );
    if room == WHOLE_BUFFER {
        facts
    } else {
        format!("in_room {room} ({facts})")
    }
}

pub fn event_text(event: &Order) -> String {
    match event {
        Order::Take(from, octets) => format!("receive {from} ({})", list(octets)),
        Order::Join(octets) => format!("join ({})", list(octets)),
        Order::Leave(octets) => format!("leave ({})", list(octets)),
        Order::Route(root, route) => format!("route ({}) {route}", list(root)),
        Order::Lost(neighbour) => format!("lost {neighbour}"),
        other => unreachable!("{other:?} is no event"),
    }
}

fn outcome_text(answer: &Result<Vec<u8>, Refusal>, free: usize) -> String {
    let octets = answer.as_deref().unwrap_or(&[]);
    let number = bench::answer_number(answer);
    format!("{number} ({}) {free}", list(octets))
}

/// Neighbour and label of each branch, then 1 for the leaf.
fn gives(found: Option<Found>) -> Vec<u32> {
    let Some(found) = found else {
        return Vec::new();
    };
    let branches = found.branches.into_iter().flat_map(|(n, l)| [n, l]);
    branches.chain(found.leaf.then_some(1)).collect()
}

pub fn list<T: ToString>(numbers: &[T]) -> String {
    let mut text: String = numbers
        .iter()
        .map(|number| number.to_string() + " ∷ ")
        .collect();
    text.push_str("[]");
    text
}

#[cfg(test)]
mod tests {
    use super::*;

    /// The rows, without what the words stand for.
    fn rows(base: u32, seed: u64, count: usize, free: Option<usize>) -> Vec<String> {
        let lines = make(base, seed, count, free).expect("it is a base");
        let rows = lines.iter().filter(|line| line.starts_with("    leaves ("));
        rows.cloned().collect()
    }

    #[test]
    fn rows_have_their_form() {
        let rows = rows(16, 1, 300, None);
        assert_eq!(rows.len(), 300);
        assert!(rows[0].starts_with("    leaves (then (route ("));
        assert!(rows
            .iter()
            .all(|row| row.contains("(then (") || row.contains("(in_room ")));
        assert!(rows.iter().all(|row| row.ends_with(")) ∷")));
        assert!(rows.iter().any(|row| row.contains("in_room 0 (then (")));
        assert!(rows.iter().any(|row| row.contains("(then (lost ")));
    }

    #[test]
    fn first_row_in_full() {
        let rows = rows(16, 7, 1, None);
        assert!(rows[0].starts_with("    leaves (then (route"));
        assert!(rows[0].contains(") 0 ([]) 256 "));
        assert!(rows[0].contains(" ([])) (card 16 1 0 (by t0 "));
        assert!(rows[0].ends_with(" ∷ []) ([]) (replicate 256 (free))) ∷"));
    }

    #[test]
    fn refused_base_gives_no_rows() {
        assert!(make(15, 1, 1, None).is_none());
        assert!(make(1_048_320, 1, 1, None).is_some());
    }

    #[test]
    fn few_labels_run_short() {
        let rows = rows(16, 9, 80, Some(6));
        assert!(rows[0].contains(") 0 ([]) 6 "));
        assert!(rows.iter().any(|row| row.contains(") 12 ([]) ")));
    }

    #[test]
    fn lists() {
        assert_eq!(list::<u8>(&[]), "[]");
        assert_eq!(list(&[4, 0, 33]), "4 ∷ 0 ∷ 33 ∷ []");
        let found = Found {
            leaf: true,
            branches: vec![(1, 100), (3, 300)],
        };
        assert_eq!(gives(Some(found)), [1, 100, 3, 300, 1]);
    }
}
