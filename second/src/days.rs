//! Made days: order files that lead a card into deep states and odd corners.
//! The maker runs the card beside, so that it knows what would suit.

use crate::bench::{self, Bench, Order, Said};
use crate::card::{Card, MOST_ROOTS, MOST_TREES, NO_ROUTE};
use crate::damage;
use crate::events::*;
use crate::held_events::mapped_back;
use crate::odd_lines;
use crate::random::*;
use crate::recipes::*;
use crate::rng::Rng;
use crate::save::LONGEST_SAVE;
use crate::save_two;
use crate::wire;
use crate::world::{World, ALL_LENGTHS, FEW_LONG, SAVED_LENGTHS};

#[path = "counts_days.rs"]
mod counts;
#[path = "forms_days.rs"]
mod forms;
#[path = "plan_days.rs"]
mod plans;
#[path = "saves_days.rs"]
mod saves;

pub struct Kind {
    pub name: &'static str,
    open: fn(&mut Maker),
    step: fn(&mut Maker),
}

const DAMAGED: usize = 4;
const MIXED: usize = 16;

pub const KINDS: [Kind; MIXED + 1] = [
    kind("ordinary", open_ordinary, step_ordinary),
    kind("full", open_full, step_full),
    kind("moves", open_moves, step_moves),
    kind("exhaust", open_exhaust, step_exhaust),
    kind("damaged", open_ordinary, step_damaged),
    kind("random", open_ordinary, step_random),
    kind("room", open_room, step_room),
    kind("lines", open_ordinary, step_lines),
    kind("held", open_held, step_held),
    kind("saves", saves::open, saves::step),
    kind("forms", forms::open, forms::step),
    kind("counts", counts::open, counts::step),
    kind("round", open_round, step_round),
    kind("lost", open_lost, step_lost),
    kind("layers", open_ordinary, step_layers),
    kind("plans", plans::open, plans::step),
    kind("mixed", open_ordinary, step_mixed),
];

const fn kind(name: &'static str, open: fn(&mut Maker), step: fn(&mut Maker)) -> Kind {
    Kind { name, open, step }
}

pub fn kind_named(name: &str) -> Option<usize> {
    KINDS.iter().position(|kind| kind.name == name)
}

pub struct Maker {
    rng: Rng,
    bench: Bench,
    world: World,
    lines: Vec<Vec<u8>>,
    /// How many awaited releases come next.
    releases_due: usize,
    /// The chance of notices, by itself: a day's other orders do not hang on it.
    whys: Rng,
    /// The last few saves that were written.
    saves: Vec<Vec<u8>>,
    /// And those of either form, moved ones too.
    forms: Vec<Vec<u8>>,
}

const SAVES_KEPT: usize = 4;
const FORMS_KEPT: usize = 8;

impl Maker {
    fn new(seed: u64) -> Maker {
        let mut rng = Rng::new(seed);
        Maker {
            world: World::new(&mut rng, 1, (1, 1), ALL_LENGTHS),
            rng,
            bench: Bench::new(),
            lines: Vec::new(),
            releases_due: 0,
            whys: Rng::new(!seed),
            saves: Vec::new(),
            forms: Vec::new(),
        }
    }

    fn card(&self) -> &Card {
        &self.bench.card
    }

    fn give(&mut self, order: Order) {
        self.give_line(order.to_line().into_bytes());
    }

    fn give_line(&mut self, line: Vec<u8>) {
        let said = bench::read_line(&line);
        self.lines.push(line);
        if let Said::Order(order) = said {
            let written = self.bench.obey(&order);
            self.keep_save(&written);
            self.tell_why(&order, &written);
        }
    }

    fn keep_save(&mut self, written: &str) {
        if let Some(octets) = bench::saved_octets(written) {
            self.saves.push(octets);
            let over = self.saves.len().saturating_sub(SAVES_KEPT);
            self.saves.drain(..over);
        }
        if let Some(octets) = bench::octets_of_form(written) {
            self.forms.push(octets);
            let over = self.forms.len().saturating_sub(FORMS_KEPT);
            self.forms.drain(..over);
        }
    }

    /// After a refused message, often the notice of it, and now and then one
    /// that is odd or has hardly room enough.
    fn tell_why(&mut self, order: &Order, written: &str) {
        let Order::Take(from, octets) = order else {
            return;
        };
        let number = bench::written_number(written).unwrap_or(0);
        if number == 0 || self.whys.percent(40) {
            return;
        }
        let notice = Order::Notice(*from, number.into(), octets.clone());
        let odd = self.whys.percent(35);
        let notice = if odd {
            spoil(&mut self.whys, notice)
        } else {
            notice
        };
        let room = self.bench.room as u32;
        let scarce = self.whys.percent(15);
        if scarce {
            let rooms = [0, 25, 25, 26, 26, 27];
            let little = rooms[self.whys.below(rooms.len())];
            self.give(Order::Room(little));
        }
        self.give(notice);
        if scarce {
            self.give(Order::Room(room));
        }
    }

    fn scene(&mut self) -> Scene<'_> {
        Scene {
            rng: &mut self.rng,
            card: &self.bench.card,
            world: &self.world,
        }
    }

    fn choose(&mut self, recipe: &Recipe) -> Order {
        choose(recipe, &mut self.scene())
    }

    fn play(&mut self, recipe: &Recipe, lookups: usize) {
        let order = self.choose(recipe);
        self.give(order);
        self.look(lookups);
    }

    /// Where labels run short, a few come back (by what chance in a hundred, how few, how many) and are soon used up,
    /// so that events need just as many as are free, or one more.
    fn run_short(
        &mut self,
        (chance, fewest, most): (usize, usize, usize),
        lookups: usize,
        (recipe, busy): (&Recipe, usize),
    ) {
        if self.releases_due > 0 {
            self.releases_due -= 1;
            self.play(&[(1, awaited_release)], lookups);
        } else if self.card().free_labels() < 3 && self.rng.percent(chance) {
            self.releases_due = self.rng.between(fewest, most);
        } else {
            self.play(recipe, busy);
        }
    }

    /// Asks the card something, in that share of a hundred.
    fn look(&mut self, share: usize) {
        if self.rng.percent(share) {
            let order = lookup(&mut self.scene());
            self.give(order);
        }
    }

    /// How many octets the order would write, given room.
    fn needed_room(&self, order: &Order) -> usize {
        let mut trial = self.bench.clone();
        trial.room = LONGEST_SAVE;
        let written = trial.obey(order);
        written.split(' ').nth(2).map_or(0, |hex| hex.len() / 2)
    }

    /// Names for the day: such as have these lengths, or such as can be saved.
    fn settle(&mut self, roots: usize, names: (usize, usize), lengths: &[usize]) {
        let saved = self.rng.percent(40);
        let lengths = if saved { SAVED_LENGTHS } else { lengths };
        self.world = World::new(&mut self.rng, roots, names, lengths);
    }

    fn route_roots(&mut self, count: usize) {
        let roots: Vec<Vec<u8>> = self.world.roots.iter().take(count).cloned().collect();
        for root in roots {
            let route = any_neighbour(&mut self.rng);
            self.give(Order::Route(root, route));
        }
    }

    /// Enters trees until so many stand, as far as the card takes them.
    fn grow(&mut self, trees: usize) {
        for _ in 0..2 * trees {
            if self.card().trees().len() < trees {
                self.play(GROW, 0);
            }
        }
    }
}

/// By the name, so that a new kind leaves the days of the others alone.
fn seed_for(name: &str, seed: u64) -> u64 {
    let mix = |sum: u64, octet| sum.wrapping_mul(31).wrapping_add(u64::from(octet));
    name.bytes().fold(seed, mix)
}

/// A day of exactly so many lines.
pub fn make(kind: usize, seed: u64, lines: usize) -> Vec<Vec<u8>> {
    let mut maker = Maker::new(seed_for(KINDS[kind].name, seed));
    (KINDS[kind].open)(&mut maker);
    while maker.lines.len() < lines {
        (KINDS[kind].step)(&mut maker);
    }
    maker.lines.truncate(lines);
    maker.lines
}

/// The cards that a day leads to, each after so many lines more.
#[cfg(test)]
pub fn cards(kind: usize, seed: u64, lines: usize, every: usize) -> Vec<Card> {
    let mut bench = Bench::new();
    let mut cards = Vec::new();
    for part in make(kind, seed, lines).chunks(every) {
        for line in part {
            if let Said::Order(order) = bench::read_line(line) {
                bench.obey(&order);
            }
        }
        cards.push(bench.card.clone());
    }
    cards
}

fn open_ordinary(maker: &mut Maker) {
    let roots = maker.rng.between(3, 7);
    maker.settle(roots, (6, 4), ALL_LENGTHS);
    maker.route_roots(2);
    maker.grow(4);
}

fn step_ordinary(maker: &mut Maker) {
    maker.play(ORDINARY, 40);
}

/// To 32 roots, 64 trees and no free label.
fn open_full(maker: &mut Maker) {
    maker.settle(MOST_ROOTS + 8, (34, 2), FEW_LONG);
    maker.route_roots(MOST_ROOTS);
    maker.grow(MOST_TREES);
    for _ in 0..60 {
        if maker.card().free_labels() > 0 {
            maker.play(DRAIN, 0);
        }
    }
}

/// Keeps the card near the edge: what has gone soon comes back.
fn step_full(maker: &mut Maker) {
    let card = maker.card();
    let (trees, roots, free) = (card.trees().len(), card.routes().len(), card.free_labels());
    let refill = maker.rng.percent(45);
    if refill && roots < MOST_ROOTS {
        maker.play(&[(1, new_route)], 20);
    } else if refill && trees < MOST_TREES && free > 0 {
        maker.play(GROW, 20);
    } else if refill && trees < MOST_TREES {
        maker.play(&[(1, awaited_release)], 20);
    } else if refill && free > 3 {
        maker.play(DRAIN, 20);
    } else {
        maker.play(AT_THE_EDGE, 35);
    }
}

fn open_moves(maker: &mut Maker) {
    maker.settle(4, (24, 10), FEW_LONG);
    maker.route_roots(3);
    maker.grow(36);
}

fn step_moves(maker: &mut Maker) {
    if maker.card().free_labels() < 40 && maker.rng.percent(75) {
        maker.play(&[(1, awaited_release)], 10);
    } else {
        maker.play(MOVES, 45);
    }
}

fn open_exhaust(maker: &mut Maker) {
    maker.settle(5, (14, 6), FEW_LONG);
    maker.route_roots(4);
    maker.grow(20);
}

fn step_exhaust(maker: &mut Maker) {
    maker.run_short((5, 2, 20), 15, (NO_RELEASE, 30));
}

fn open_held(maker: &mut Maker) {
    maker.settle(5, (12, 5), FEW_LONG);
    maker.route_roots(4);
    maker.grow(20);
}

fn step_held(maker: &mut Maker) {
    maker.run_short((12, 1, 9), 10, (HELD, 40));
}

fn open_round(maker: &mut Maker) {
    restart(maker);
    maker.settle(4, (12, 6), FEW_LONG);
    maker.route_roots(4);
    maker.grow(20);
}

/// Labels go round the block again and again, and find its free ones here and
/// there; events that are refused and swaps of the card come between.
fn step_round(maker: &mut Maker) {
    match maker.rng.below(100) {
        0 => swap(maker),
        1..=5 => refused_first(maker, &[(2, moved_trees), (1, new_leaf)]),
        _ => maker.run_short((40, 5, 50), 8, (ROUND, 30)),
    }
}

/// The card goes on as its save has it.
fn swap(maker: &mut Maker) {
    maker.give(Order::Save);
    if let Ok(save) = maker.card().save(maker.bench.room) {
        maker.give(Order::Restore(save));
    }
}

/// An event in one octet less than it needs, and then with room.
fn refused_first(maker: &mut Maker, recipe: &Recipe) {
    let order = maker.choose(recipe);
    let room = maker.bench.room as u32;
    if let Some(short) = maker.needed_room(&order).checked_sub(1) {
        maker.give(Order::Room(short as u32));
        maker.give(order.clone());
        maker.give(Order::Room(room));
    }
    maker.give(order);
}

/// One in three on a full card.
fn open_lost(maker: &mut Maker) {
    if maker.rng.percent(33) {
        return open_full(maker);
    }
    open_held(maker);
}

/// Losses, and enough between them for the next to find something.
fn step_lost(maker: &mut Maker) {
    let routes = maker.card().routes().len();
    let busy = [ORDINARY, HELD, MOVES][maker.rng.below(3)];
    match maker.rng.below(100) {
        0..=4 => refused_first(maker, LOSSES),
        5..=9 => lost_twice(maker),
        10..=14 => maker.play(LOSSES, 80),
        _ if routes < 3 => maker.play(&[(1, new_route)], 20),
        15..=39 => maker.play(GROW, 20),
        40..=54 => maker.play(&[(1, further_branch), (1, mapped_back)], 20),
        _ => maker.play(busy, 25),
    }
}

/// At once, or with something between.
fn lost_twice(maker: &mut Maker) {
    let loss = maker.choose(LOSSES);
    maker.give(loss.clone());
    if maker.rng.percent(50) {
        maker.play(ORDINARY, 50);
    }
    maker.give(loss);
    maker.look(50);
}

/// Names inside names, now and then in hardly room enough.
fn step_layers(maker: &mut Maker) {
    if maker.rng.percent(15) {
        return maker.play(ORDINARY, 10);
    }
    let order = maker.choose(LAYERS);
    let scarce = maker.rng.percent(20);
    let room = maker.bench.room as u32;
    if scarce {
        let needed = maker.needed_room(&order);
        let little = room_near(&mut maker.rng, needed);
        maker.give(Order::Room(little));
    }
    maker.give(order);
    if scarce {
        maker.give(Order::Room(room));
    }
}

fn step_damaged(maker: &mut Maker) {
    let order = maker.choose(ORDINARY);
    let order = if maker.rng.percent(65) {
        spoil(&mut maker.rng, order)
    } else {
        order
    };
    maker.give(order);
    maker.look(25);
}

pub fn spoil(rng: &mut Rng, order: Order) -> Order {
    match order {
        Order::Take(from, octets) => spoil_take(rng, from, &octets),
        Order::Join(octets) => Order::Join(spoiled_element(rng, octets)),
        Order::Leave(octets) => Order::Leave(spoiled_element(rng, octets)),
        Order::Route(root, route) => spoil_route(rng, root, route),
        Order::Notice(to, number, octets) => spoil_notice(rng, to, number, octets),
        other => other,
    }
}

fn spoil_take(rng: &mut Rng, from: u32, octets: &[u8]) -> Order {
    if rng.percent(6) {
        let strangers = [16, 17, 255, 256, 65536, u32::MAX];
        return Order::Take(strangers[rng.below(strangers.len())], octets.to_vec());
    }
    Order::Take(from, damage::spoil_message(rng, octets))
}

fn spoiled_element(rng: &mut Rng, mut octets: Vec<u8>) -> Vec<u8> {
    damage::spoil_element(rng, &mut octets);
    octets
}

fn spoil_route(rng: &mut Rng, mut root: Vec<u8>, mut route: u32) -> Order {
    if rng.percent(70) {
        root.resize([0, 1, 3, 4, 5, 15, 16, 17, 32][rng.below(9)], 0);
    }
    if rng.percent(50) {
        route = [16, 17, 18, 19, 255, 256, u32::MAX][rng.below(7)];
    }
    Order::Route(root, route)
}

/// To another neighbour, of another number, of octets that have hardly a head
/// or none, or of a type that has the U bit or lacks it.
fn spoil_notice(rng: &mut Rng, mut to: u32, mut number: u32, mut octets: Vec<u8>) -> Order {
    match rng.below(6) {
        0 => to = [14, 15, 16, 17, 65537, u32::MAX][rng.below(6)],
        1 | 2 => number = rng.below(24) as u32,
        3 => number = [18, 21, 258, 65539, u32::MAX][rng.below(5)],
        4 => octets.resize([0, 1, 2, 4, 7, 8, 9][rng.below(7)], 0x84),
        _ => {
            number = 3;
            damage::turn_u_bit(&mut octets);
        }
    }
    Order::Notice(to, number, octets)
}

fn step_random(maker: &mut Maker) {
    if maker.rng.percent(15) {
        return maker.play(ORDINARY, 20);
    }
    let rng = &mut maker.rng;
    let length = rng.below(70);
    let order = match rng.below(13) {
        0..=2 => Order::Take(random_number(rng), rng.octets(length)),
        3..=6 => Order::Take(any_neighbour(rng), random_message(rng)),
        7 => Order::Join(random_element(rng)),
        8 => Order::Leave(random_element(rng)),
        9 => Order::Tree(random_element(rng)),
        10 => Order::Route(random_root(rng), random_number(rng)),
        11 => Order::Notice(random_number(rng), random_number(rng), rng.octets(length)),
        _ => Order::Label(random_number(rng)),
    };
    maker.give(order);
}

fn open_room(maker: &mut Maker) {
    if maker.rng.percent(60) {
        return open_ordinary(maker);
    }
    maker.world = World::longest(&mut maker.rng);
    maker.route_roots(1);
    maker.grow(MOST_TREES);
}

/// Lends an event about as much room as it needs.
fn step_room(maker: &mut Maker) {
    let recipe = if maker.rng.percent(40) {
        MOVES
    } else {
        ORDINARY
    };
    let order = maker.choose(recipe);
    let needed = maker.needed_room(&order);
    let room = room_near(&mut maker.rng, needed);
    maker.give(Order::Room(room));
    maker.give(order);
    maker.look(30);
}

pub fn room_near(rng: &mut Rng, needed: usize) -> u32 {
    let room = match rng.below(20) {
        0..=7 => needed,
        8..=11 => needed.saturating_sub(1),
        12 | 13 => needed + 1,
        14 => needed.saturating_sub(37),
        15 => needed / 2,
        16 | 17 => 0,
        18 => near_whole(rng),
        _ => rng.below(160),
    };
    room as u32
}

fn near_whole(rng: &mut Rng) -> usize {
    let whole = bench::WHOLE_BUFFER;
    [whole - 1, whole, whole + 1, 65536, u32::MAX as usize][rng.below(5)]
}

fn step_lines(maker: &mut Maker) {
    let order = if maker.rng.percent(30) {
        lookup(&mut maker.scene())
    } else {
        maker.choose(ORDINARY)
    };
    if maker.rng.percent(25) {
        return maker.give(order);
    }
    if let (Order::Take(from, octets), true) = (&order, maker.rng.percent(5)) {
        let length = maker.rng.between(4095, 4097);
        let padded = damage::pad_message(octets, length);
        return maker.give(Order::Take(*from, padded));
    }
    let line = odd_lines::odd_line(&mut maker.rng, order.to_line().as_bytes());
    maker.give_line(line);
}

/// A stretch of another kind, often from a fresh card. Little room that the
/// stretch before left behind now and then lasts beyond the start.
fn step_mixed(maker: &mut Maker) {
    let kind = match maker.rng.below(4) {
        0 => &KINDS[DAMAGED],
        _ => &KINDS[maker.rng.below(MIXED)],
    };
    let whole_buffer = Order::Room(bench::WHOLE_BUFFER as u32);
    let late = maker.rng.percent(25);
    if !late {
        maker.give(whole_buffer.clone());
    }
    if kind.name == "full" || maker.rng.percent(50) {
        restart(maker);
    }
    (kind.open)(maker);
    if late {
        maker.give(whole_buffer);
    }
    for _ in 0..maker.rng.between(15, 100) {
        (kind.step)(maker);
    }
}

fn restart(maker: &mut Maker) {
    let bases = [16, 17, 1_048_319, 1_048_320];
    let refused = [0, 15, 1_048_321, u32::MAX];
    let base = match maker.rng.below(10) {
        0..=3 => bases[maker.rng.below(4)],
        4 | 5 => refused[maker.rng.below(4)],
        _ => maker.rng.between(16, 1_048_320) as u32,
    };
    maker.give(Order::Start(base));
}

#[cfg(test)]
#[path = "days_tests.rs"]
mod tests;
