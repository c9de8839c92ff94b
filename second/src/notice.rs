//! Notification records: why a neighbour's message was refused, written for
//! that neighbour and read back, as request [1] asks.

use crate::card::NEIGHBOURS;
use crate::refusal::Refusal;
use crate::wire;
use std::fmt;

pub const RECORD: usize = 26;

const NOTIFICATION: u16 = 0x0001;
const STATUS: u16 = 0x0300;
const E_BIT: u32 = 0x8000_0000;
/// Below the E and the F bit.
const DATA_BITS: u32 = 0x3fff_ffff;
const UNKNOWN_TYPE: u32 = 0x04;
const FATAL: [u32; 3] = [0x05, 0x07, 0x08];
/// Each refusal of which the neighbour is told, with its status data.
const TOLD: [(u32, u32); 11] = [
    (2, 0x05),
    (3, UNKNOWN_TYPE),
    (4, 0x07),
    (5, 0x16),
    (6, 0x0c),
    (7, 0x0c),
    (8, 0x08),
    (9, 0x06),
    (11, 0x0e),
    (12, 0x0e),
    (18, 0x0c),
];

/// What a record says.
#[derive(Clone, Copy, Debug, PartialEq, Eq)]
pub struct Notice {
    pub neighbour: u32,
    pub identifier: u32,
    pub status: u32,
    pub refused_identifier: u32,
    pub refused_code: u16,
}

impl Notice {
    /// The record for octets refused by a number; None where none is due.
    pub fn due(neighbour: u32, identifier: u32, number: u32, octets: &[u8]) -> Option<Notice> {
        let (_, status) = *TOLD.iter().find(|(told, _)| *told == number)?;
        let (refused_code, refused_identifier) = head(octets).unwrap_or((0, 0));
        let notice = Notice {
            neighbour,
            identifier,
            status,
            refused_identifier,
            refused_code,
        };
        (!notice.passed_over()).then_some(notice)
    }

    /// An unknown type with the U bit set is to be ignored without a word.
    fn passed_over(&self) -> bool {
        self.status == UNKNOWN_TYPE && self.refused_code & wire::U_BIT != 0
    }

    pub fn write(&self) -> Vec<u8> {
        let fatal = if FATAL.contains(&self.status) {
            E_BIT
        } else {
            0
        };
        let mut value = (fatal | self.status).to_be_bytes().to_vec();
        value.extend(self.refused_identifier.to_be_bytes());
        value.extend(self.refused_code.to_be_bytes());
        let tlv = wire::write_tlv(STATUS, &value);
        let message = wire::write_frame(NOTIFICATION, self.identifier, &tlv);
        wire::write_record(self.neighbour, &message)
    }

    /// Refuses 21 whatever `write` does not write for a notice that is due:
    /// what the fields say is written anew and compared.
    pub fn read(octets: &[u8]) -> Result<Notice, Refusal> {
        if octets.len() != RECORD {
            return Err(Refusal::NoNotice);
        }
        let notice = Notice {
            neighbour: u32::from(two(octets, 2)),
            identifier: four(octets, 8),
            status: four(octets, 16) & DATA_BITS,
            refused_identifier: four(octets, 20),
            refused_code: two(octets, 24),
        };
        let known = TOLD.iter().any(|(_, status)| *status == notice.status);
        let sent = notice.neighbour < NEIGHBOURS && known && !notice.passed_over();
        if sent && notice.write() == octets {
            Ok(notice)
        } else {
            Err(Refusal::NoNotice)
        }
    }
}

impl fmt::Display for Notice {
    fn fmt(&self, out: &mut fmt::Formatter) -> fmt::Result {
        write!(
            out,
            "{} {} {} {} {}",
            self.neighbour,
            self.identifier,
            self.status,
            self.refused_identifier,
            self.refused_code
        )
    }
}

/// Type and identifier, where the octets have a whole head of a message.
fn head(octets: &[u8]) -> Option<(u16, u32)> {
    (octets.len() >= wire::MESSAGE_HEAD).then(|| (two(octets, 0), four(octets, 4)))
}

fn two(octets: &[u8], place: usize) -> u16 {
    u16::from_be_bytes([octets[place], octets[place + 1]])
}

fn four(octets: &[u8], place: usize) -> u32 {
    u32::from(two(octets, place)) << 16 | u32::from(two(octets, place + 2))
}

#[cfg(test)]
#[path = "notice_tests.rs"]
mod tests;
