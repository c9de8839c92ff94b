//! The line interface: orders read from lines, answers written as lines.

use crate::card::{Card, Found, MOST_TREES};
use crate::layers::{self, Layer};
use crate::plan::{self, Move, Permit};
use crate::refusal::Refusal;
use crate::save::LONGEST_SAVE;
use crate::save_two::{self, LONGEST_SAVE_TWO};
use crate::wire::LONGEST_RECORD;
use std::io::{self, BufRead};

/// What an event is lent at most, two records for each tree; a save is lent
/// more.
pub const WHOLE_BUFFER: usize = MOST_TREES * 2 * LONGEST_RECORD;
pub const LONGEST_HEX: usize = 4096;
/// A save of form two has up to 111334 digits.
pub const LONGEST_LINE: usize = 131_072;

#[derive(Clone, Debug, PartialEq, Eq)]
pub enum Order {
    Start(u32),
    Room(u32),
    Take(u32, Vec<u8>),
    Join(Vec<u8>),
    Leave(Vec<u8>),
    Route(Vec<u8>, u32),
    Label(u32),
    Tree(Vec<u8>),
    Free,
    /// To a neighbour, of a refusal's number and the refused octets.
    Notice(u32, u32, Vec<u8>),
    Save,
    Restore(Vec<u8>),
    SaveTwo,
    RestoreTwo(Vec<u8>),
    /// Octets in form one, to be moved to form two.
    Newer(Vec<u8>),
    /// And back.
    Older(Vec<u8>),
    /// A neighbour whose session is lost.
    Lost(u32),
    Layers(Vec<u8>),
    /// What goes around a name, and the name.
    Wrap(Layer, Vec<u8>),
    Unwrap(Vec<u8>),
    Plan(u32, Vec<Permit>),
    Vet(u32, Vec<Permit>, Vec<Move>),
}

impl Order {
    pub fn to_line(&self) -> String {
        match self {
            Order::Start(base) => format!("start {base}"),
            Order::Room(room) => format!("room {room}"),
            Order::Take(from, octets) => format!("take {from} {}", hex_word(octets)),
            Order::Join(octets) => format!("join {}", hex_word(octets)),
            Order::Leave(octets) => format!("leave {}", hex_word(octets)),
            Order::Route(root, route) => format!("route {} {route}", hex_word(root)),
            Order::Label(label) => format!("label {label}"),
            Order::Tree(octets) => format!("tree {}", hex_word(octets)),
            Order::Free => "free".to_string(),
            Order::Notice(to, number, octets) => {
                format!("notice {to} {number} {}", hex_word(octets))
            }
            Order::Save => "save".to_string(),
            Order::Restore(octets) => format!("restore {}", hex_word(octets)),
            Order::SaveTwo => "save2".to_string(),
            Order::RestoreTwo(octets) => format!("restore2 {}", hex_word(octets)),
            Order::Newer(octets) => format!("newer {}", hex_word(octets)),
            Order::Older(octets) => format!("older {}", hex_word(octets)),
            Order::Lost(neighbour) => format!("lost {neighbour}"),
            Order::Layers(octets) => format!("layers {}", hex_word(octets)),
            Order::Wrap(Layer { root, eight }, octets) => {
                let words = [root, eight, octets].map(|part| hex_word(part));
                format!("wrap {}", words.join(" "))
            }
            Order::Unwrap(octets) => format!("unwrap {}", hex_word(octets)),
            Order::Plan(from, sets) => format!("plan {from} {}", sets_word(sets)),
            Order::Vet(from, sets, list) => {
                let list = hex_word(&plan::write_list(list));
                format!("vet {from} {} {list}", sets_word(sets))
            }
        }
    }
}

/// What a line of the input says.
#[derive(Clone, Debug, PartialEq, Eq)]
pub enum Said {
    Nothing,
    Order(Order),
    Bad,
}

pub fn read_line(line: &[u8]) -> Said {
    match words(line) {
        None => Said::Bad,
        Some(words) if words.is_empty() => Said::Nothing,
        Some(words) => read_order(&words).map_or(Said::Bad, Said::Order),
    }
}

/// What a line says, before a comment; None where it is too long.
pub fn words(line: &[u8]) -> Option<Vec<&[u8]>> {
    let before_comment = line.split(|&c| c == b'#').next().unwrap_or(&[]);
    let words = before_comment
        .split(|&c| c == b' ' || c == b'\t')
        .filter(|word| !word.is_empty());
    (line.len() <= LONGEST_LINE).then(|| words.collect())
}

fn read_order(words: &[&[u8]]) -> Option<Order> {
    match *words {
        [b"start", base] => Some(Order::Start(read_number(base)?)),
        [b"room", room] => Some(Order::Room(read_number(room)?)),
        [b"take", from, octets] => Some(Order::Take(read_number(from)?, read_hex(octets)?)),
        [b"join", octets] => Some(Order::Join(read_hex(octets)?)),
        [b"leave", octets] => Some(Order::Leave(read_hex(octets)?)),
        [b"route", root, route] => Some(Order::Route(read_hex(root)?, read_number(route)?)),
        [b"label", label] => Some(Order::Label(read_number(label)?)),
        [b"tree", octets] => Some(Order::Tree(read_hex(octets)?)),
        [b"free"] => Some(Order::Free),
        [b"notice", to, number, octets] => Some(Order::Notice(
            read_number(to)?,
            read_number(number)?,
            read_hex(octets)?,
        )),
        [b"save"] => Some(Order::Save),
        [b"layers", octets] => Some(Order::Layers(read_hex(octets)?)),
        [b"wrap", root, eight, octets] => {
            let (root, eight) = (read_hex(root)?, read_hex(eight)?);
            Some(Order::Wrap(Layer { root, eight }, read_hex(octets)?))
        }
        [b"unwrap", octets] => Some(Order::Unwrap(read_hex(octets)?)),
        [b"plan", from, sets] => Some(Order::Plan(read_number(from)?, read_sets(sets)?)),
        [b"vet", from, sets, list] => Some(Order::Vet(
            read_number(from)?,
            read_sets(sets)?,
            plan::read_list(&read_hex(list)?),
        )),
        [b"lost", neighbour] => Some(Order::Lost(read_number(neighbour)?)),
        [b"restore", octets] => Some(Order::Restore(read_hex_to(octets, LONGEST_SAVE)?)),
        [b"save2"] => Some(Order::SaveTwo),
        [b"restore2", octets] => Some(Order::RestoreTwo(read_hex_to(octets, LONGEST_SAVE_TWO)?)),
        [b"newer", octets] => Some(Order::Newer(read_hex_to(octets, LONGEST_SAVE)?)),
        [b"older", octets] => Some(Order::Older(read_hex_to(octets, LONGEST_SAVE_TWO)?)),
        _ => None,
    }
}

pub fn read_number(word: &[u8]) -> Option<u32> {
    word.iter().try_fold(0u32, |number, &digit| {
        let value = digit.is_ascii_digit().then(|| u32::from(digit - b'0'))?;
        number.checked_mul(10)?.checked_add(value)
    })
}

fn read_sets(word: &[u8]) -> Option<Vec<Permit>> {
    Some(plan::read_sets(&read_hex(word)?))
}

fn sets_word(sets: &[Permit]) -> String {
    hex_word(&plan::write_sets(sets))
}

pub fn read_hex(word: &[u8]) -> Option<Vec<u8>> {
    read_hex_to(word, LONGEST_HEX)
}

pub fn read_hex_to(word: &[u8], most: usize) -> Option<Vec<u8>> {
    if word == b"-" {
        return Some(Vec::new());
    }
    if !word.len().is_multiple_of(2) || word.len() > 2 * most {
        return None;
    }
    word.chunks(2)
        .map(|pair| Some(16 * hex_digit(pair[0])? + hex_digit(pair[1])?))
        .collect()
}

fn hex_digit(digit: u8) -> Option<u8> {
    char::from(digit).to_digit(16).map(|value| value as u8)
}

pub fn to_hex(octets: &[u8]) -> String {
    octets.iter().map(|octet| format!("{octet:02x}")).collect()
}

pub fn hex_word(octets: &[u8]) -> String {
    if octets.is_empty() {
        "-".to_string()
    } else {
        to_hex(octets)
    }
}

pub fn answer_number<T>(answer: &Result<T, Refusal>) -> u8 {
    answer.as_ref().err().map_or(0, |refusal| refusal.number())
}

/// The words of the lines that have an answer's number behind them.
const ANSWERED: [&str; 18] = [
    "take", "join", "leave", "route", "notice", "start", "save", "restore", "save2", "restore2",
    "newer", "older", "lost", "layers", "wrap", "unwrap", "plan", "vet",
];

/// The answer number on a line, where it has one.
pub fn written_number(line: &str) -> Option<u8> {
    let mut words = line.split(' ');
    let answered = ANSWERED.contains(&words.next()?);
    answered.then(|| words.next()?.parse().ok())?
}

/// The numbers on those lines that have one.
#[cfg(test)]
pub fn written_numbers(lines: &[String]) -> Vec<u8> {
    let numbers = lines.iter().filter_map(|line| written_number(line));
    numbers.collect()
}

/// The octets of the record on a line written for a notice.
pub fn notice_record(line: &str) -> Option<Vec<u8>> {
    read_hex(line.strip_prefix("notice 0 ")?.as_bytes())
}

/// The octets on a line written for a save.
pub fn saved_octets(line: &str) -> Option<Vec<u8>> {
    read_hex_to(line.strip_prefix("save 0 ")?.as_bytes(), LONGEST_SAVE)
}

/// The octets of a save, of either form, on a line written for one.
pub fn octets_of_form(line: &str) -> Option<Vec<u8>> {
    let (word, hex) = line.split_once(" 0 ")?;
    match word {
        "save" | "older" | "save2" | "newer" => read_hex_to(hex.as_bytes(), LONGEST_SAVE_TWO),
        _ => None,
    }
}

/// The card on the bench and the room that its events and saves are lent, as
/// far as their buffers have it.
#[derive(Clone)]
pub struct Bench {
    pub card: Card,
    pub room: usize,
}

impl Bench {
    pub fn new() -> Bench {
        Bench {
            card: Card::start(16).1,
            room: LONGEST_SAVE_TWO,
        }
    }

    /// Does the order and gives the line to write.
    pub fn obey(&mut self, order: &Order) -> String {
        match order {
            Order::Start(base) => {
                let (answer, card) = Card::start(*base);
                self.card = card;
                format!("start {}", answer_number(&answer))
            }
            Order::Room(room) => {
                self.room = *room as usize;
                format!("room {room}")
            }
            Order::Label(label) => found_line("label", self.card.find_label(*label)),
            Order::Tree(octets) => found_line("tree", self.card.find_tree(octets)),
            Order::Free => format!("free {}", self.card.free_labels()),
            Order::Save => event_line("save", &self.card.save(self.room)),
            Order::Layers(octets) => layers_line(octets),
            Order::Wrap(layer, octets) => {
                event_line("wrap", &layers::wrap(layer, octets, self.room))
            }
            Order::Plan(from, sets) => plan_line(&self.card.plan(*from, sets)),
            Order::Vet(from, sets, list) => vet_line(&self.card.vet(*from, sets, list)),
            Order::Unwrap(octets) => unwrap_line(&layers::unwrap(octets, self.room)),
            Order::Restore(octets) => {
                format!("restore {}", answer_number(&self.card.restore(octets)))
            }
            Order::SaveTwo => event_line("save2", &self.card.save_two(self.room)),
            Order::RestoreTwo(octets) => {
                let answer = self.card.restore_two(octets);
                format!("restore2 {}", answer_number(&answer))
            }
            Order::Newer(octets) => event_line("newer", &save_two::newer(octets, self.room)),
            Order::Older(octets) => event_line("older", &save_two::older(octets, self.room)),
            event => {
                let answer = event_answer(&mut self.card, event, self.room.min(WHOLE_BUFFER));
                event_line(event_word(event), &answer)
            }
        }
    }
}

/// Runs an event; orders that are none answer with no records.
pub fn event_answer(card: &mut Card, event: &Order, room: usize) -> Result<Vec<u8>, Refusal> {
    match event {
        Order::Take(from, octets) => card.take(*from, octets, room),
        Order::Join(octets) => card.join(octets, room),
        Order::Leave(octets) => card.leave(octets, room),
        Order::Route(root, route) => card.route(root, *route, room),
        Order::Notice(to, number, octets) => card.notice(*to, *number, octets, room),
        Order::Lost(neighbour) => card.lost(*neighbour, room),
        _ => Ok(Vec::new()),
    }
}

fn event_word(event: &Order) -> &'static str {
    match event {
        Order::Take(..) => "take",
        Order::Join(_) => "join",
        Order::Leave(_) => "leave",
        Order::Notice(..) => "notice",
        Order::Lost(_) => "lost",
        _ => "route",
    }
}

pub fn event_line(word: &str, answer: &Result<Vec<u8>, Refusal>) -> String {
    match answer {
        Ok(records) if !records.is_empty() => format!("{word} 0 {}", to_hex(records)),
        _ => format!("{word} {}", answer_number(answer)),
    }
}

/// The layers from the outside in, and the innermost opaque value.
fn layers_line(element: &[u8]) -> String {
    let (layers, innermost) = match layers::read(element) {
        Ok(read) => read,
        Err(refusal) => return format!("layers {}", refusal.number()),
    };
    let mut line = "layers 0 ".to_string();
    for Layer { root, eight } in layers {
        line.push_str(&to_hex(&root));
        if !eight.is_empty() {
            line.push('/');
            line.push_str(&to_hex(&eight));
        }
        line.push_str(" > ");
    }
    let (root, opaque) = (to_hex(&innermost.root), to_hex(&innermost.opaque));
    format!("{line}{root} {opaque}")
}

fn unwrap_line(answer: &Result<(Vec<u8>, Layer), Refusal>) -> String {
    match answer {
        Ok((inner, Layer { root, eight })) => {
            let words = [inner, root, eight].map(|part| hex_word(part));
            format!("unwrap 0 {}", words.join(" "))
        }
        Err(refusal) => format!("unwrap {}", refusal.number()),
    }
}

fn plan_line(answer: &Result<Option<Vec<Move>>, Refusal>) -> String {
    match answer {
        Ok(Some(list)) => list.iter().fold("plan 0".to_string(), |line, entry| {
            format!("{line} {}:{}", to_hex(&entry.root), entry.to)
        }),
        Ok(None) => "plan none".to_string(),
        Err(refusal) => format!("plan {}", refusal.number()),
    }
}

fn vet_line(answer: &Result<bool, Refusal>) -> String {
    match answer {
        Ok(false) => "vet rejected".to_string(),
        _ => format!("vet {}", answer_number(answer)),
    }
}

/// A tree that stands with a held branch alone leads to nobody, and is said
/// to be nothing like one that does not stand.
fn found_line(word: &str, found: Option<Found>) -> String {
    let Some(found) = found.filter(|f| f.leaf || !f.branches.is_empty()) else {
        return format!("{word} nothing");
    };
    let mut line = word.to_string();
    if found.leaf {
        line.push_str(" leaf");
    }
    for (neighbour, label) in found.branches {
        line.push_str(&format!(" {neighbour}:{label}"));
    }
    line
}

/// The card that the lines lead to.
pub fn card_after(lines: &[impl AsRef<[u8]>]) -> Card {
    let mut bench = Bench::new();
    for line in lines {
        if let Said::Order(order) = read_line(line.as_ref()) {
            bench.obey(&order);
        }
    }
    bench.card
}

/// Reads a line without its newline, however long, keeping just enough of it
/// to see that it is too long; false at the end of the input.
fn next_line(input: &mut impl BufRead, line: &mut Vec<u8>) -> io::Result<bool> {
    line.clear();
    let mut seen = false;
    loop {
        let part = input.fill_buf()?;
        if part.is_empty() {
            return Ok(seen);
        }
        seen = true;
        let newline = part.iter().position(|&c| c == b'\n');
        let length = newline.unwrap_or(part.len());
        let kept = length.min(LONGEST_LINE + 1 - line.len());
        line.extend(&part[..kept]);
        input.consume(newline.map_or(length, |place| place + 1));
        if newline.is_some() {
            return Ok(true);
        }
    }
}

/// What a line of the input is answered with.
pub enum Answer {
    Nothing,
    Line(String),
    Bad,
}

/// Replays the input; hands on each line's number and octets with its answer.
pub fn replay(
    input: impl BufRead,
    hand_on: impl FnMut(u64, &[u8], String) -> io::Result<()>,
) -> io::Result<()> {
    let mut bench = Bench::new();
    let answer = |line: &[u8]| match read_line(line) {
        Said::Nothing => Answer::Nothing,
        Said::Order(order) => Answer::Line(bench.obey(&order)),
        Said::Bad => Answer::Bad,
    };
    replay_on(input, answer, hand_on)
}

/// The same on whatever answers lines.
pub fn replay_on(
    mut input: impl BufRead,
    mut answer: impl FnMut(&[u8]) -> Answer,
    mut hand_on: impl FnMut(u64, &[u8], String) -> io::Result<()>,
) -> io::Result<()> {
    let mut line = Vec::new();
    let mut number = 0;
    while next_line(&mut input, &mut line)? {
        number += 1;
        match answer(&line) {
            Answer::Nothing => {}
            Answer::Line(written) => hand_on(number, &line, written)?,
            Answer::Bad => hand_on(number, &line, format!("? {number}"))?,
        }
    }
    Ok(())
}

#[cfg(test)]
#[path = "bench_tests.rs"]
mod tests;
