//! Request [12], "The session box", as a page of cases.

use crate::bench::{Order, LONGEST_HEX, WHOLE_BUFFER};
use crate::card::Card;
use crate::cases::{numbered, tree_a, Page, OTHER_ROOT, ROOT};
use crate::damage;
use crate::layers::{self, Layer};
use crate::pdu::{self, LEAST_ROOM, LONGEST};
use crate::plan::{Move, Permit};
use crate::save::LONGEST_SAVE;
use crate::save_two::LONGEST_SAVE_TWO;
use crate::session::BoxOrder;
use crate::wire::{self, Kind, TreeName};

pub fn day() -> Vec<String> {
    let mut page = Page::new();
    page.comment("request [12]: neighbours 0 to 3 have streams. The route of A's root is 0.");
    page.one_message();
    page.several_messages();
    page.cut_anywhere();
    page.refused_messages();
    page.wrong_heads();
    page.lengths();
    page.running_past();
    page.longest_pdu();
    page.rooms();
    page.neighbours();
    page.packed();
    page.longest_packed();
    page.every_order();
    page.lines
}

fn message(kind: Kind, name: &TreeName, label: u32) -> Vec<u8> {
    wire::write_message(kind, 7, name, label)
}

fn mapping_a(label: u32) -> Vec<u8> {
    message(Kind::Mapping, &tree_a(), label)
}

/// A PDU of neighbour 1.
fn from_1(messages: &[Vec<u8>]) -> Vec<u8> {
    pdu::write(pdu::identifier(1), &messages.concat())
}

/// A Mapping of A, and its Withdraw.
fn good() -> Vec<u8> {
    from_1(&[mapping_a(100), message(Kind::Withdraw, &tree_a(), 100)])
}

impl Page {
    fn octets(&mut self, from: u32, octets: &[u8]) {
        self.text(BoxOrder::Octets(from, octets.to_vec()).to_line());
    }

    /// A fresh card, and an empty stream of 1.
    fn fresh_stream(&mut self) {
        self.fresh();
        self.order(Order::Lost(1));
    }

    fn ask_tree_a(&mut self) {
        self.ask(&[], &[tree_a()]);
    }

    fn one_message(&mut self) {
        self.comment("Mapping <A, 100> in a PDU of 1: what case 1 writes");
        self.room(WHOLE_BUFFER);
        self.fresh_stream();
        self.octets(1, &from_1(&[mapping_a(100)]));
        self.octets(1, &[]);
        self.ask_tree_a();
    }

    fn several_messages(&mut self) {
        self.comment(
            "a Mapping and a Withdraw in one PDU, and two PDUs at once: a call for each message",
        );
        self.fresh_stream();
        self.octets(1, &good());
        self.octets(1, &[good(), good()].concat());
        self.ask_tree_a();
    }

    fn cut_anywhere(&mut self) {
        self.comment(
            "a Mapping and a Withdraw, cut behind every octet; then a Mapping octet by octet",
        );
        self.fresh_stream();
        for place in 1..good().len() {
            self.octets(1, &good()[..place]);
            self.octets(1, &good()[place..]);
        }
        self.fresh_stream();
        for octet in from_1(&[mapping_a(100)]) {
            self.octets(1, &[octet]);
        }
        self.ask_tree_a();
        self.comment("two streams at once, each in two parts");
        self.fresh_stream();
        let other = pdu::write(pdu::identifier(2), &mapping_a(200));
        self.octets(1, &good()[..20]);
        self.octets(2, &other[..11]);
        self.octets(1, &good()[20..]);
        self.octets(2, &other[11..]);
        self.ask_tree_a();
    }

    fn refused_messages(&mut self) {
        self.comment("messages that are refused 3, 8, 13, and 2 for 4 and 7 octets: each is eaten, and the Mapping behind them is taken");
        self.fresh_stream();
        let unknown = wire::write_frame(0x0401, 1, &[]);
        let short = |length: u8| [vec![4, 0, 0, length], vec![9; usize::from(length)]].concat();
        let release = message(Kind::Release, &tree_a(), 16);
        let all = [
            unknown,
            mapping_a(15),
            release,
            short(0),
            short(3),
            mapping_a(100),
        ];
        self.octets(1, &from_1(&all));
        self.ask_tree_a();
    }

    /// The octets come, then good ones in vain, until 1 is lost.
    fn stops(&mut self, octets: &[u8]) {
        self.octets(1, octets);
        self.octets(1, &good());
        self.order(Order::Lost(1));
    }

    fn wrong_heads(&mut self) {
        self.comment("a wrong version or identifier stops the stream until 1 is lost; 16 and 2 being lost does not help");
        self.fresh_stream();
        for (place, octet) in [(0, 1), (1, 0), (1, 2), (4, 10), (7, 2), (8, 1), (9, 1)] {
            let mut octets = good();
            octets[place] = octet;
            self.stops(&octets);
        }
        let mut octets = good();
        octets[1] = 2;
        self.octets(1, &octets[..9]);
        self.octets(1, &octets[9..10]);
        for neighbour in [16, 2, 1] {
            self.octets(1, &good());
            self.order(Order::Lost(neighbour));
        }
        self.octets(1, &good());
        self.comment("a wrong head behind a good PDU: what came before it is done");
        octets.splice(..0, from_1(&[mapping_a(100)]));
        self.stops(&octets);
        self.ask_tree_a();
    }

    fn lengths(&mut self) {
        self.comment("length fields 0, 13, 14, 4096, 4097 and 65535 before a message of 8 octets");
        for length in [0u16, 13, 14, 4096, 4097, u16::MAX] {
            let mut octets = from_1(&[wire::write_frame(0x0401, 1, &[])]);
            octets[2..4].copy_from_slice(&length.to_be_bytes());
            self.fresh_stream();
            self.octets(1, &octets);
            self.octets(1, &good());
        }
    }

    fn running_past(&mut self) {
        self.comment("a message that has one octet more than its PDU, alone and behind another; 1 to 3 octets left in a PDU, and 4");
        let alone = from_1(&[mapping_a(100)]);
        let behind = good();
        for octets in [alone, behind] {
            let mut shorter = octets.clone();
            shorter[3] -= 1;
            self.fresh_stream();
            self.stops(&shorter);
        }
        for left in 1..=4 {
            self.fresh_stream();
            self.octets(1, &from_1(&[mapping_a(100), vec![0; left]]));
            self.octets(1, &good());
            self.ask_tree_a();
        }
    }

    fn longest_pdu(&mut self) {
        self.comment("a PDU of 4100 octets, one message of 4090; one octet more runs past");
        self.fresh_stream();
        let longest = damage::pad_message(&mapping_a(100), LONGEST - 6);
        let octets = from_1(&[longest]);
        self.octets(1, &octets[..LONGEST_HEX]);
        self.octets(1, &octets[LONGEST_HEX..]);
        self.ask_tree_a();
        self.comment(
            "4090 octets are held when 4096 are offered: 10 are eaten, the rest is offered again",
        );
        self.octets(1, &octets[..4090]);
        let rest = [&octets[4090..], &octets[..]].concat();
        self.octets(1, &rest[..LONGEST_HEX]);
        self.octets(1, &rest[LONGEST_HEX..]);
        self.octets(1, &good());
        self.ask_tree_a();
    }

    fn rooms(&mut self) {
        self.comment("room for 347 octets is refused 20, with nothing eaten; 348 is enough; a stopped stream is no other");
        self.fresh_stream();
        for room in [0, LEAST_ROOM - 1, LEAST_ROOM] {
            self.room(room);
            self.octets(1, &good());
            self.octets(1, &[]);
        }
        self.octets(1, &[0; 10]);
        self.order(Order::Room(LEAST_ROOM as u32 - 1));
        self.octets(1, &good());
        self.octets(16, &good());
        self.room(WHOLE_BUFFER);
    }

    fn neighbours(&mut self) {
        self.comment("3 has a stream, 4 and 15 have none, 16 is refused 1; bad lines");
        for from in [3, 4, 15, 16, u32::MAX] {
            self.octets(from, &good());
        }
        let hex = "00".repeat(LONGEST_HEX);
        for line in [
            "octets",
            "octets 1",
            "octets 1 0",
            "octets 1 00 00",
            "octets x 00",
            "Octets 1 00",
            "pack",
            "pack 1",
            "pack x -",
            "pack 1 00",
            "pack 1 4c440001",
            "Pack 1 -",
        ] {
            self.text(line.to_string());
        }
        self.order(Order::Lost(3));
        self.text(format!("octets 3 {hex}"));
        self.text(format!("octets 3 {hex}00"));
        self.order(Order::Lost(3));
    }

    fn pack(&mut self, to: u32, records: &[Vec<u8>]) {
        self.text(BoxOrder::Pack(to, records.concat()).to_line());
    }

    fn packed(&mut self) {
        self.comment("the records of a move, packed for 0, 5, who has none, 7, 15 and 16; 7's are two messages, 76 octets in a PDU: refused 16 in room for 75");
        let record = |neighbour, number: u8| {
            let name = numbered(OTHER_ROOT, number);
            wire::write_record(neighbour, &message(Kind::Mapping, &name, 16))
        };
        let records = [record(0, 1), record(7, 1), record(0, 2), record(7, 2)];
        for to in [0, 5, 7, 15, 16] {
            self.pack(to, &records);
        }
        self.pack(0, &[]);
        let whole = 10 + 2 * (record(7, 1).len() - 4);
        for room in [whole - 1, whole, 0] {
            self.room(room);
            self.pack(7, &records);
            self.pack(5, &records);
        }
        self.room(WHOLE_BUFFER);
        self.records_end(&record(7, 1));
    }

    fn records_end(&mut self, good: &[u8]) {
        self.comment("another mark, a message of 7 octets, one that is cut short and half a head end the records: what comes before them is packed");
        let mut unmarked = good.to_vec();
        unmarked[1] = 0x45;
        let short = wire::write_record(7, &[4, 0, 0, 3, 0, 0, 0]);
        for last in [&unmarked[..], &short, &good[..36], &good[..3]] {
            let further = if last.len() == 36 { &[][..] } else { good };
            self.pack(7, &[good.to_vec(), last.to_vec(), further.to_vec()]);
            self.pack(7, &[last.to_vec()]);
        }
        self.comment("neighbour 263 is not 7");
        let mut other = good.to_vec();
        other[2] = 1;
        self.pack(7, &[other, good.to_vec()]);
    }

    fn longest_packed(&mut self) {
        self.comment("a message of 4090 octets fills a PDU, one of 4091 is none; records of 4096 octets are a line, one octet more is a bad one");
        let padded = |length| {
            let message = damage::pad_message(&mapping_a(100), length);
            wire::write_record(2, &message)
        };
        for length in [LONGEST - 6, LONGEST - 5] {
            self.pack(2, &[padded(length)]);
        }
        for last in [2088, 2089] {
            self.pack(2, &[padded(2000), padded(last)]);
        }
    }

    /// While a PDU of 1 is under way, which goes on behind them.
    fn every_order(&mut self) {
        self.comment("every order of the bench, between two parts of a PDU");
        self.fresh_stream();
        self.octets(1, &good()[..20]);
        let (element, message) = (wire::write_element(&tree_a()), mapping_a(100));
        let layer = Layer {
            root: OTHER_ROOT.to_vec(),
            eight: Vec::new(),
        };
        let wrapped = layers::wrap(&layer, &element, WHOLE_BUFFER).expect("it has place");
        let root = ROOT.to_vec();
        let permit = Permit { root, set: 8 };
        let root = ROOT.to_vec();
        for order in [
            Order::Join(element.clone()),
            Order::Leave(element.clone()),
            Order::Take(2, message.clone()),
            Order::Notice(2, 2, message),
            Order::Label(17),
            Order::Layers(wrapped.clone()),
            Order::Wrap(layer, element),
            Order::Unwrap(wrapped),
            Order::Save,
            Order::SaveTwo,
            Order::Plan(0, vec![permit.clone()]),
            Order::Vet(0, vec![permit], vec![Move { root, to: 3 }]),
        ] {
            self.order(order);
        }
        self.restores();
        self.octets(1, &good()[20..]);
        self.ask_tree_a();
    }

    /// Of the table of a fresh card, in either form.
    fn restores(&mut self) {
        let card = Card::start(500).1;
        let one = card.save(LONGEST_SAVE).expect("there is room");
        let two = card.save_two(LONGEST_SAVE_TWO).expect("there is room");
        for order in [
            Order::Newer(one.clone()),
            Order::Older(two.clone()),
            Order::Restore(one),
            Order::RestoreTwo(two),
            Order::Start(600),
        ] {
            self.order(order);
        }
    }
}

#[cfg(test)]
mod tests {
    use super::*;
    use crate::session::Program;
    use std::collections::BTreeSet;

    /// The answers that begin so.
    fn answers(word: &str) -> Vec<String> {
        let mut answers = Program::Box.answers(day().join("\n").as_bytes());
        answers.retain(|answer| answer.starts_with(word));
        answers
    }

    /// How many octets each call for the line ate.
    fn eaten(line: &str) -> Vec<usize> {
        let number = |call: &str| call.split(':').nth(1).expect("eaten").parse();
        let calls = line.split(' ').skip(1);
        calls.map(|call| number(call).expect("a number")).collect()
    }

    #[test]
    fn case_1_comes_out_of_a_stream() {
        let record =
            "4c44000004000021000000010100001106000104c00002010007010004000000070200000400000010";
        assert_eq!(answers("octets ")[0], format!("octets 0:47:{record}"));
        assert_eq!(answers("octets ")[1], "octets 0:0");
    }

    #[test]
    fn all_is_eaten_unless_it_is_refused() {
        let (mut calls, mut part) = (0, 0);
        for line in answers("octets ") {
            let eaten = eaten(&line);
            calls += eaten.len();
            part += usize::from(eaten.len() > 1 && eaten[1] > 0);
        }
        assert!(calls > 180 && part >= 1, "{calls} {part}");
        let refused = answers("octets 20:0").len();
        assert_eq!((refused, answers("octets 1:0").len()), (5, 3));
    }

    /// What stands between two parts of a PDU does not touch the stream.
    #[test]
    fn every_order_is_taken() {
        let words: BTreeSet<String> = answers("")
            .iter()
            .filter_map(|answer| answer.split(' ').next().map(str::to_string))
            .collect();
        assert_eq!(words.len(), 25, "{words:?}");
        let last = answers("octets ").pop().expect("there are some");
        assert!(last.starts_with("octets 0:64 0:0:4c440001"), "{last}");
    }

    #[test]
    fn refusals_are_passed_over() {
        let line = answers("octets 3:").concat();
        let numbers: Vec<&str> = line
            .split(' ')
            .skip(1)
            .map(|call| &call[..call.find(':').expect("one")])
            .collect();
        assert_eq!(numbers[..6], ["3", "8", "13", "2", "2", "0"]);
    }

    #[test]
    fn packs() {
        let packs = answers("pack ");
        let lengths: Vec<usize> = packs
            .iter()
            .map(|line| line.len().saturating_sub(7) / 2)
            .collect();
        let (one, two) = (10 + 33, 10 + 2 * 33);
        assert_eq!(lengths[..8], [0, 0, two, 0, two, 0, 0, 0]);
        assert_eq!(packs[6], "pack 1");
        assert_eq!(lengths[8..14], [0, 0, two, 0, 0, 0]);
        let refused = (packs[8].as_str(), packs[12].as_str());
        assert_eq!(refused, ("pack 16", "pack 16"));
        assert_eq!(lengths[14..23], [one, 0, one, 0, one, 0, one, 0, one]);
        assert_eq!(lengths[23..], [4100, 0, 4098]);
    }
}
