//! LDP PDUs (RFC 5036), as request [12] asks: a stream of them read message by
//! message, and messages packed into them.

use crate::card::NEIGHBOURS;
use crate::refusal::Refusal;
use crate::wire::{LONGEST_RECORD, MARK, MESSAGE_HEAD};

/// What a message may write: a Release and a Withdraw.
pub const LEAST_ROOM: usize = 2 * LONGEST_RECORD;
/// Version, length and identifier.
pub const PDU_HEAD: usize = 10;
pub const VERSION: u16 = 1;
pub const SHORTEST: usize = IDENTIFIER + MESSAGE_HEAD;
pub const LONGEST: usize = 4096;

/// Which the length field counts, unlike what stands before it.
const IDENTIFIER: usize = 6;
/// Type and length of a message, which its length field does not count.
const UNCOUNTED: usize = 4;
const RECORD_HEAD: usize = 4;

/// A router's LDP identifier: 192.0.2.N and label space 0.
pub fn identifier(number: u8) -> [u8; IDENTIFIER] {
    [192, 0, 2, number, 0, 0]
}

/// What a call to a stream gives.
#[derive(Clone, Debug, PartialEq, Eq)]
pub struct Call {
    pub answer: u8,
    pub eaten: usize,
    pub records: Vec<u8>,
}

#[derive(Clone, Debug, PartialEq, Eq)]
pub struct Stream {
    expected: [u8; IDENTIFIER],
    held: Vec<u8>,
    /// How many octets of the present PDU are still to be read; 0 before one.
    left: usize,
    stopped: bool,
}

impl Stream {
    pub fn new(expected: [u8; IDENTIFIER]) -> Stream {
        Stream {
            expected,
            held: Vec::new(),
            left: 0,
            stopped: false,
        }
    }

    /// The neighbour's session is lost.
    pub fn empty(&mut self) {
        *self = Stream::new(self.expected);
    }

    /// Eats up to the end of the present PDU, and hands the label part at most
    /// one message. Refuses 20 where that might want for room.
    pub fn offer(
        &mut self,
        octets: &[u8],
        room: usize,
        take: impl FnOnce(&[u8]) -> Result<Vec<u8>, Refusal>,
    ) -> Call {
        if room < LEAST_ROOM {
            return Call::refused(Refusal::Unfit);
        }
        let eaten = self.eat(octets);
        let message = self.next_message();
        let answer = message.map_or(Ok(Vec::new()), |message| take(&message));
        self.judge();
        // A stopped stream eats all and drops it.
        let eaten = if self.stopped { octets.len() } else { eaten };
        Call::done(eaten, answer)
    }

    /// A head first, and then, if it is right, what follows it.
    fn eat(&mut self, octets: &[u8]) -> usize {
        if self.stopped {
            return octets.len();
        }
        let head = self.hold(octets);
        self.judge();
        let rest = self.hold(&octets[head..]);
        self.judge();
        head + rest
    }

    /// To the end of the present PDU, or of its head where that is not whole.
    fn hold(&mut self, octets: &[u8]) -> usize {
        let end = if self.left == 0 { PDU_HEAD } else { self.left };
        let count = octets.len().min(end - self.held.len());
        self.held.extend(&octets[..count]);
        count
    }

    /// Reads a PDU's head once it is whole, and stops at what is wrong. What
    /// is held when a call ends has always been judged, so that it does not
    /// matter how the stream was cut.
    fn judge(&mut self) {
        if self.left == 0 && self.held.len() >= PDU_HEAD {
            let head: Vec<u8> = self.held.drain(..PDU_HEAD).collect();
            match counted(&head, self.expected) {
                Some(left) => self.left = left,
                None => self.stopped = true,
            }
        }
        let runs_past = match self.message_length() {
            Some(length) => length > self.left,
            None => self.left > 0 && self.left < UNCOUNTED,
        };
        self.stopped |= runs_past && self.left > 0;
        if self.stopped {
            self.held.clear();
            self.left = 0;
        }
    }

    /// Of the message that begins what is held, within a PDU.
    fn message_length(&self) -> Option<usize> {
        let field = self.held.get(2..UNCOUNTED).filter(|_| self.left > 0)?;
        Some(UNCOUNTED + usize::from(u16::from_be_bytes([field[0], field[1]])))
    }

    pub fn is_stopped(&self) -> bool {
        self.stopped
    }

    /// Behind a PDU's head, and before its end.
    #[cfg(test)]
    pub fn is_in_pdu(&self) -> bool {
        self.left > 0
    }

    pub fn holds_message(&self) -> bool {
        let length = self.message_length();
        length.is_some_and(|length| length <= self.held.len())
    }

    fn next_message(&mut self) -> Option<Vec<u8>> {
        let length = self.message_length().filter(|_| self.holds_message())?;
        self.left -= length;
        Some(self.held.drain(..length).collect())
    }
}

impl Call {
    pub fn refused(refusal: Refusal) -> Call {
        Call::done(0, Err(refusal))
    }

    fn done(eaten: usize, answer: Result<Vec<u8>, Refusal>) -> Call {
        Call {
            answer: answer.as_ref().err().map_or(0, |refusal| refusal.number()),
            eaten,
            records: answer.unwrap_or_default(),
        }
    }
}

/// How many octets of messages follow a PDU's head, if it is right.
fn counted(head: &[u8], expected: [u8; IDENTIFIER]) -> Option<usize> {
    let version = u16::from_be_bytes([head[0], head[1]]);
    let length = usize::from(u16::from_be_bytes([head[2], head[3]]));
    let right = version == VERSION && head[4..] == expected;
    let fits = (SHORTEST..=LONGEST).contains(&length);
    (right && fits).then(|| length - IDENTIFIER)
}

/// One PDU around messages.
pub fn write(identifier: [u8; IDENTIFIER], messages: &[u8]) -> Vec<u8> {
    let length = (IDENTIFIER + messages.len()) as u16;
    let mut octets = VERSION.to_be_bytes().to_vec();
    octets.extend(length.to_be_bytes());
    octets.extend(identifier);
    octets.extend(messages);
    octets
}

/// The messages to a neighbour among records, each PDU as full of whole ones
/// as can be.
pub fn pack(
    own: [u8; IDENTIFIER],
    to: u32,
    records: &[u8],
    room: usize,
) -> Result<Vec<u8>, Refusal> {
    if to >= NEIGHBOURS {
        return Err(Refusal::Neighbour);
    }
    let mut groups: Vec<Vec<u8>> = Vec::new();
    for record in cut_records(records).iter().filter(|r| r.neighbour == to) {
        match groups.last_mut() {
            Some(group) if IDENTIFIER + group.len() + record.message.len() <= LONGEST => {
                group.extend(&record.message);
            }
            _ => groups.push(record.message.clone()),
        }
    }
    let octets: Vec<u8> = groups.iter().flat_map(|group| write(own, group)).collect();
    if octets.len() > room {
        return Err(Refusal::Room);
    }
    Ok(octets)
}

#[derive(Clone, Debug, PartialEq, Eq)]
pub struct Record {
    pub neighbour: u32,
    pub message: Vec<u8>,
}

/// What is no whole record of a message that a PDU may have ends the records.
pub fn cut_records(octets: &[u8]) -> Vec<Record> {
    let mut rest = octets;
    let mut records = Vec::new();
    while let Some((record, following)) = cut_record(rest) {
        records.push(record);
        rest = following;
    }
    records
}

fn cut_record(octets: &[u8]) -> Option<(Record, &[u8])> {
    let (head, rest) = octets.split_at_checked(RECORD_HEAD)?;
    let field = rest.get(2..UNCOUNTED)?;
    let length = UNCOUNTED + usize::from(u16::from_be_bytes([field[0], field[1]]));
    let fits = (MESSAGE_HEAD..=LONGEST - IDENTIFIER).contains(&length);
    if head[..2] != MARK || !fits {
        return None;
    }
    let (message, following) = rest.split_at_checked(length)?;
    let record = Record {
        neighbour: u32::from(u16::from_be_bytes([head[2], head[3]])),
        message: message.to_vec(),
    };
    Some((record, following))
}

#[cfg(test)]
#[path = "pdu_tests.rs"]
mod tests;
