//! Made days for the session box: messages in PDUs, cut anywhere, spoiled, and
//! packed again.

use crate::bench::{self, Answer, Order, WHOLE_BUFFER};
use crate::damage;
use crate::days::room_near;
use crate::events::{choose, lookup, Scene};
use crate::pdu::{self, LEAST_ROOM, LONGEST, PDU_HEAD};
use crate::recipes::{HELD, MOVES, ORDINARY};
use crate::rng::Rng;
use crate::session::{BoxOrder, SessionBox, STREAMS};
use crate::world::{World, FEW_LONG};

/// What a line of hex may have.
const MOST_OFFERED: usize = bench::LONGEST_HEX;
const TRIES: usize = 12;

struct Maker {
    rng: Rng,
    session: SessionBox,
    world: World,
    lines: Vec<String>,
    /// Messages of each neighbour that are in no PDU yet.
    batches: Vec<Vec<u8>>,
    /// What each neighbour has sent and the box has not been offered.
    under_way: Vec<Vec<u8>>,
    /// What was written last.
    records: Vec<u8>,
}

/// A day of exactly so many lines.
pub fn make(seed: u64, count: usize) -> Vec<String> {
    let mut rng = Rng::new(seed);
    let world = World::new(&mut rng, 5, (8, 4), FEW_LONG);
    let mut maker = Maker {
        rng,
        session: SessionBox::new(),
        world,
        lines: Vec::new(),
        batches: vec![Vec::new(); STREAMS as usize],
        under_way: vec![Vec::new(); STREAMS as usize],
        records: Vec::new(),
    };
    maker.open();
    while maker.lines.len() < count {
        maker.step();
    }
    maker.lines.truncate(count);
    maker.lines
}

impl Maker {
    fn open(&mut self) {
        for (place, root) in (0..).zip(self.world.roots.clone()) {
            self.bench(Order::Route(root, place % 6));
        }
    }

    fn step(&mut self) {
        match self.rng.below(42) {
            0..=17 => self.event(),
            18..=27 => self.offer(),
            28 => self.long_message(),
            29..=31 => {
                let order = lookup(&mut self.scene());
                self.bench(order);
            }
            32..=37 => self.pack(),
            38 => self.little_room(),
            39..=40 => self.lose(),
            _ => self.stranger(),
        }
    }

    fn scene(&mut self) -> Scene<'_> {
        Scene {
            rng: &mut self.rng,
            card: &self.session.bench.card,
            world: &self.world,
        }
    }

    fn bench(&mut self, order: Order) {
        self.give(BoxOrder::Bench(order));
    }

    /// The line may be a bad one.
    fn give(&mut self, order: BoxOrder) {
        let line = order.to_line();
        if let Answer::Line(written) = self.session.answer(line.as_bytes()) {
            let words = written.split([' ', ':']);
            let records: String = words.filter(|word| word.starts_with("4c44")).collect();
            let octets = bench::read_hex_to(records.as_bytes(), WHOLE_BUFFER);
            if let Some(records) = octets.filter(|octets| !octets.is_empty()) {
                self.records = records;
            }
        }
        self.lines.push(line);
    }

    /// A message of a neighbour that has a stream goes into it; now and then
    /// something else happens.
    fn event(&mut self) {
        let recipe = [ORDINARY, ORDINARY, HELD, MOVES][self.rng.below(4)];
        for _ in 0..TRIES {
            let order = choose(recipe, &mut self.scene());
            match order {
                Order::Take(from, octets) if from < STREAMS => return self.send(from, octets),
                Order::Take(..) => {}
                other if self.rng.percent(25) => return self.bench(other),
                _ => {}
            }
        }
        let order = choose(recipe, &mut self.scene());
        self.bench(order);
    }

    fn send(&mut self, from: u32, message: Vec<u8>) {
        let message = if self.rng.percent(8) {
            damage::spoil_message(&mut self.rng, &message)
        } else {
            message
        };
        let place = from as usize;
        if pdu::PDU_HEAD + self.batches[place].len() + message.len() > LONGEST {
            self.close(place);
        }
        self.batches[place].extend(message);
        if self.rng.percent(60) {
            self.close(place);
        }
        if self.rng.percent(70) {
            self.offer_from(place);
        }
    }

    /// The neighbour's messages make a PDU, now and then a wrong one.
    fn close(&mut self, place: usize) {
        let messages = std::mem::take(&mut self.batches[place]);
        let mut octets = pdu::write(pdu::identifier(place as u8), &messages);
        if self.rng.percent(10) {
            spoil(&mut self.rng, &mut octets);
        }
        self.under_way[place].extend(octets);
    }

    /// Something that is under way, if anything is.
    fn offer(&mut self) {
        let is_waiting = |place: &usize| !self.under_way[*place].is_empty();
        let waiting: Vec<usize> = (0..self.under_way.len()).filter(is_waiting).collect();
        match self.rng.pick(&waiting) {
            Some(place) => self.offer_from(place),
            None => self.event(),
        }
    }

    /// All of what is under way, or a part of it.
    fn offer_from(&mut self, place: usize) {
        let most = self.under_way[place].len().min(MOST_OFFERED);
        let count = match self.rng.below(8) {
            0 => self.rng.below(5),
            1 => PDU_HEAD,
            2 | 3 => self.rng.below(most + 1),
            _ => most,
        };
        let octets: Vec<u8> = self.under_way[place].drain(..count.min(most)).collect();
        self.give(BoxOrder::Octets(place as u32, octets));
        if self.session.streams[place].is_stopped() && self.rng.percent(30) {
            self.lose_stream(place);
        }
    }

    /// One that nearly fills a PDU.
    fn long_message(&mut self) {
        let order = choose(ORDINARY, &mut self.scene());
        let Order::Take(from, octets) = order else {
            return;
        };
        let place = (from % STREAMS) as usize;
        self.close_if_any(place);
        let length = self.rng.between(LONGEST - 20, LONGEST - 5);
        self.batches[place] = damage::pad_message(&octets, length);
        self.close(place);
        self.offer_from(place);
    }

    fn close_if_any(&mut self, place: usize) {
        if !self.batches[place].is_empty() {
            self.close(place);
        }
    }

    /// The last records, as many as a line has place for, or with something
    /// wrong; for a neighbour that they may be for.
    fn pack(&mut self) {
        let records = pdu::cut_records(&self.records);
        let named: Vec<u32> = records.iter().map(|record| record.neighbour).collect();
        let to = match self.rng.below(10) {
            0 => [3, 4, 15, 16, u32::MAX][self.rng.below(5)],
            _ => self.rng.pick(&named).unwrap_or(0),
        };
        let mut octets = self.records.clone();
        if self.rng.percent(90) {
            octets.truncate(MOST_OFFERED);
        }
        if self.rng.percent(20) {
            spoil_records(&mut self.rng, &mut octets);
        }
        self.pack_in_room(BoxOrder::Pack(to, octets));
    }

    /// Often in hardly room enough.
    fn pack_in_room(&mut self, order: BoxOrder) {
        let needed = self.session.clone().obey(&order).len().saturating_sub(7) / 2;
        let scarce = self.rng.percent(30);
        if scarce {
            let room = room_near(&mut self.rng, needed);
            self.bench(Order::Room(room));
        }
        self.give(order);
        if scarce {
            self.bench(Order::Room(WHOLE_BUFFER as u32));
        }
    }

    /// Too little for any message, or just enough.
    fn little_room(&mut self) {
        let room = [0, LEAST_ROOM - 1, LEAST_ROOM, LEAST_ROOM + 1][self.rng.below(4)];
        let place = self.rng.below(self.under_way.len());
        let before = self.under_way[place].clone();
        self.bench(Order::Room(room as u32));
        self.offer_from(place);
        if room < LEAST_ROOM {
            self.under_way[place] = before;
        }
        self.bench(Order::Room(WHOLE_BUFFER as u32));
    }

    fn lose(&mut self) {
        let place = self.rng.below(STREAMS as usize + 2);
        if place < self.under_way.len() {
            return self.lose_stream(place);
        }
        let any = self.rng.below(18) as u32;
        self.bench(Order::Lost(any));
    }

    /// With what was under way, for the most part.
    fn lose_stream(&mut self, place: usize) {
        self.bench(Order::Lost(place as u32));
        if self.rng.percent(85) {
            self.under_way[place].clear();
            self.batches[place].clear();
        }
    }

    fn stranger(&mut self) {
        let from = [4, 15, 16, 17, u32::MAX][self.rng.below(5)];
        let count = self.rng.below(20);
        let octets = self.rng.octets(count);
        self.give(BoxOrder::Octets(from, octets));
    }
}

/// An octet, or the end.
fn spoil_records(rng: &mut Rng, octets: &mut Vec<u8>) {
    let place = rng.below(octets.len() + 1);
    match octets.get_mut(place) {
        Some(octet) if rng.percent(70) => *octet ^= 1 << rng.below(8),
        _ => octets.truncate(place),
    }
}

/// Version, length, identifier, the first message's length, any octet, or the
/// end.
fn spoil(rng: &mut Rng, octets: &mut Vec<u8>) {
    let place = rng.below(octets.len());
    match rng.below(9) {
        0 => octets[1] = [0, 2, 255][rng.below(3)],
        1 => octets[3] = octets[3].wrapping_add([1, 2, 4, 255, 252][rng.below(5)]),
        2 => {
            let lengths: [u16; 6] = [0, 13, 14, 4096, 4097, u16::MAX];
            octets[2..4].copy_from_slice(&lengths[rng.below(6)].to_be_bytes());
        }
        3 => octets[rng.between(4, 9)] ^= 1,
        4 => octets[place] ^= 1 << rng.below(8),
        5 => octets.truncate(place),
        6 => octets.extend(octets.clone()),
        _ => {
            let more = [1, 1, 4, 255][rng.below(4)];
            if let Some(octet) = octets.get_mut(PDU_HEAD + rng.between(2, 3)) {
                *octet = octet.wrapping_add(more);
            }
        }
    }
}

#[cfg(test)]
mod tests {
    use super::*;
    use crate::pdu::Stream;
    use crate::session::{self, Program};
    use std::collections::BTreeMap;

    fn answers(seed: u64, count: usize) -> Vec<String> {
        Program::Box.answers(make(seed, count).join("\n").as_bytes())
    }

    #[test]
    fn days_have_their_length_and_repeat() {
        for count in [0, 1, 300] {
            assert_eq!(make(1, count).len(), count);
        }
        assert_eq!(make(2, 300), make(2, 300));
        assert_ne!(make(2, 300), make(3, 300));
    }

    #[test]
    fn a_day_has_its_occasions() {
        for seed in 1..=3 {
            let answers = answers(seed, 3000);
            let count =
                |wanted: &dyn Fn(&str) -> bool| answers.iter().filter(|a| wanted(a)).count();
            let octets = |a: &str| a.starts_with("octets ");
            assert!(count(&|a| octets(a) && a.contains("4c44")) > 100);
            assert!(count(&|a| octets(a) && a.split(' ').count() > 2) > 50);
            assert!(count(&|a| a.starts_with("octets 13:")) > 1);
            assert!(count(&|a| a == "octets 20:0") > 10);
            assert!(count(&|a| a == "octets 1:0") > 5);
            assert!(count(&|a| a.starts_with("pack 0 0001")) > 30);
            assert!(count(&|a| a == "pack 16") > 10 && count(&|a| a == "pack 1") > 1);
            assert!(count(&|a| a.starts_with("lost 0")) > 20);
            assert!(count(&|a| a.starts_with('?')) > 10);
        }
    }

    /// By what the octets stop the stream, if they come one by one.
    fn stopped_by(mut stream: Stream, octets: &[u8]) -> &'static str {
        for octet in octets {
            let in_pdu = stream.is_in_pdu();
            stream.offer(&[*octet], LEAST_ROOM, |_| Ok(Vec::new()));
            match (stream.is_stopped(), in_pdu) {
                (false, _) => {}
                (true, false) => return "stopped by a head",
                (true, true) => return "stopped by a message",
            }
        }
        "stopped for nothing"
    }

    /// What a line does to its stream.
    fn done_to(before: &SessionBox, order: &BoxOrder, after: &SessionBox) -> Option<&'static str> {
        let of = |session: &SessionBox, place: u32| session.streams.get(place as usize).cloned();
        match order {
            BoxOrder::Octets(from, octets) => {
                let (before, after) = (of(before, *from)?, of(after, *from)?);
                match (before.is_stopped(), after.is_stopped()) {
                    (false, true) => Some(stopped_by(before, octets)),
                    (true, true) if !octets.is_empty() => Some("dropped"),
                    _ if after.is_in_pdu() => Some("a PDU in parts"),
                    _ => None,
                }
            }
            BoxOrder::Bench(Order::Lost(neighbour)) => {
                let (before, after) = (of(before, *neighbour)?, of(after, *neighbour)?);
                match (before == after, before.is_stopped()) {
                    (true, _) => None,
                    (_, true) => Some("stopped and lost"),
                    (_, false) => Some("lost within a PDU"),
                }
            }
            _ => None,
        }
    }

    #[test]
    fn streams_have_their_occasions() {
        for seed in 1..=3 {
            let mut met: BTreeMap<&str, usize> = BTreeMap::new();
            let mut session = SessionBox::new();
            for line in make(seed, 3000) {
                let Some(Some(order)) = session::read_line(line.as_bytes()) else {
                    continue;
                };
                let before = session.clone();
                session.obey(&order);
                if let Some(what) = done_to(&before, &order, &session) {
                    *met.entry(what).or_insert(0) += 1;
                }
            }
            assert!(met.len() == 6 && met.values().all(|n| *n >= 8), "{met:?}");
        }
    }
}
