//! The session box: the bench with a stream of PDUs from each of four
//! neighbours, of request [12].

use crate::bench::{self, Answer, Bench, Order, Said, WHOLE_BUFFER};
use crate::card::NEIGHBOURS;
use crate::pdu::{self, Call, Stream};
use crate::refusal::Refusal;
use std::io::{self, BufRead, Write};

pub const STREAMS: u32 = 4;
/// The last octet of the card's own address.
const OWN: u8 = 254;

pub enum BoxOrder {
    Bench(Order),
    Octets(u32, Vec<u8>),
    /// The messages to a neighbour, of records.
    Pack(u32, Vec<u8>),
}

impl BoxOrder {
    pub fn to_line(&self) -> String {
        match self {
            BoxOrder::Bench(order) => order.to_line(),
            BoxOrder::Octets(from, octets) => format!("octets {from} {}", bench::hex_word(octets)),
            BoxOrder::Pack(to, records) => format!("pack {to} {}", bench::hex_word(records)),
        }
    }
}

/// None where the line is no order; Some(None) where it says nothing.
pub fn read_line(line: &[u8]) -> Option<Option<BoxOrder>> {
    match bench::read_line(line) {
        Said::Nothing => Some(None),
        Said::Order(order) => Some(Some(BoxOrder::Bench(order))),
        Said::Bad => read_box_order(&bench::words(line)?).map(Some),
    }
}

fn read_box_order(words: &[&[u8]]) -> Option<BoxOrder> {
    match *words {
        [b"octets", from, octets] => {
            let from = bench::read_number(from)?;
            let octets = bench::read_hex(octets)?;
            let has_none = (STREAMS..NEIGHBOURS).contains(&from);
            (!has_none).then_some(BoxOrder::Octets(from, octets))
        }
        [b"pack", to, records] => {
            let (to, records) = (bench::read_number(to)?, bench::read_hex(records)?);
            Some(BoxOrder::Pack(to, records))
        }
        _ => None,
    }
}

#[derive(Clone)]
pub struct SessionBox {
    pub bench: Bench,
    pub streams: Vec<Stream>,
}

impl SessionBox {
    pub fn new() -> SessionBox {
        let stream = |number: u32| Stream::new(pdu::identifier(number as u8));
        SessionBox {
            bench: Bench::new(),
            streams: (0..STREAMS).map(stream).collect(),
        }
    }

    pub fn answer(&mut self, line: &[u8]) -> Answer {
        match read_line(line) {
            None => Answer::Bad,
            Some(None) => Answer::Nothing,
            Some(Some(order)) => Answer::Line(self.obey(&order)),
        }
    }

    pub fn obey(&mut self, order: &BoxOrder) -> String {
        match order {
            BoxOrder::Bench(order) => {
                let line = self.bench.obey(order);
                if let (Order::Lost(neighbour), true) = (order, line.starts_with("lost 0")) {
                    self.empty_stream(*neighbour);
                }
                line
            }
            BoxOrder::Octets(from, octets) => self.octets_line(*from, octets),
            BoxOrder::Pack(to, records) => {
                let room = self.bench.room.min(WHOLE_BUFFER);
                let answer = pdu::pack(pdu::identifier(OWN), *to, records, room);
                bench::event_line("pack", &answer)
            }
        }
    }

    fn empty_stream(&mut self, neighbour: u32) {
        if let Some(stream) = self.streams.get_mut(neighbour as usize) {
            stream.empty();
        }
    }

    /// Calls until all is eaten and no whole message is held, or one refuses
    /// to go on.
    fn octets_line(&mut self, from: u32, octets: &[u8]) -> String {
        let mut line = "octets".to_string();
        let mut rest = octets;
        loop {
            let call = self.call(from, rest);
            rest = &rest[call.eaten..];
            line.push_str(&format!(" {}:{}", call.answer, call.eaten));
            if !call.records.is_empty() {
                line.push(':');
                line.push_str(&bench::to_hex(&call.records));
            }
            let goes_on = self
                .streams
                .get(from as usize)
                .is_some_and(Stream::holds_message);
            let refused = [Refusal::Neighbour, Refusal::Unfit].map(Refusal::number);
            if refused.contains(&call.answer) || (rest.is_empty() && !goes_on) {
                return line;
            }
        }
    }

    fn call(&mut self, from: u32, octets: &[u8]) -> Call {
        let Some(stream) = self.streams.get_mut(from as usize) else {
            return Call::refused(Refusal::Neighbour);
        };
        let room = self.bench.room.min(WHOLE_BUFFER);
        let card = &mut self.bench.card;
        stream.offer(octets, room, |message| card.take(from, message, room))
    }
}

/// What a day is run on.
#[derive(Clone, Copy)]
pub enum Program {
    Bench,
    Box,
}

impl Program {
    /// Hands on each line's number and octets with its answer.
    pub fn replay(
        self,
        input: impl BufRead,
        hand_on: impl FnMut(u64, &[u8], String) -> io::Result<()>,
    ) -> io::Result<()> {
        let mut session = SessionBox::new();
        match self {
            Program::Bench => bench::replay(input, hand_on),
            Program::Box => bench::replay_on(input, |line| session.answer(line), hand_on),
        }
    }

    /// The lines that are written for the text's.
    #[cfg(test)]
    pub fn answers(self, text: &[u8]) -> Vec<String> {
        let mut answers = Vec::new();
        let replayed = self.replay(text, |_, _, answer| {
            answers.push(answer);
            Ok(())
        });
        replayed.expect("memory can be read");
        answers
    }

    pub fn run(self, input: impl BufRead, output: &mut impl Write) -> io::Result<()> {
        self.replay(input, |_, _, answer| writeln!(output, "{answer}"))?;
        output.flush()
    }
}

#[cfg(test)]
#[path = "session_tests.rs"]
mod tests;
