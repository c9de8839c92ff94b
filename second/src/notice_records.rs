//! Notification records, whole and damaged, for readers of them, and what a
//! reader says.

use crate::bench;
use crate::card::NEIGHBOURS;
use crate::notice::Notice;
use crate::rng::Rng;
use std::io::{self, BufRead};

/// The numbers of which some are told, and octets to be told of.
const NUMBERS: usize = 24;
const LONGEST_REFUSED: usize = 12;

/// Made records in hex, a line each.
pub fn make(seed: u64, count: usize) -> Vec<String> {
    let hex = |octets: &Vec<u8>| bench::hex_word(octets);
    records(seed, count).iter().map(hex).collect()
}

/// Made records, of which two in three are damaged.
pub fn records(seed: u64, count: usize) -> Vec<Vec<u8>> {
    let mut rng = Rng::new(seed);
    let mut records = Vec::new();
    while records.len() < count {
        let Some(notice) = any_notice(&mut rng) else {
            continue;
        };
        let mut octets = notice.write();
        if !rng.percent(33) {
            damage(&mut rng, &mut octets);
        }
        records.push(octets);
    }
    records
}

fn any_notice(rng: &mut Rng) -> Option<Notice> {
    let neighbour = rng.below(NEIGHBOURS as usize) as u32;
    let (identifier, number) = (rng.number(), rng.below(NUMBERS) as u32);
    let length = rng.below(LONGEST_REFUSED);
    Notice::due(neighbour, identifier, number, &rng.octets(length))
}

/// Some of what comes out is a record still.
pub fn damage(rng: &mut Rng, octets: &mut Vec<u8>) {
    let place = rng.below(octets.len());
    match rng.below(8) {
        0 | 1 => octets[place] ^= 1 << rng.below(8),
        2 => octets[place] = rng.next() as u8,
        3 => octets.truncate(place),
        4 => octets.push(rng.next() as u8),
        5 => octets[3] = rng.between(14, 17) as u8,
        6 => octets[19] = rng.below(24) as u8,
        _ => octets[24] ^= 0x80,
    }
}

/// Neighbour, identifier, status data, copied identifier and type behind a 0,
/// or the refusal's number.
pub fn heard(octets: &[u8]) -> String {
    match Notice::read(octets) {
        Ok(notice) => format!("0 {notice}"),
        Err(refusal) => refusal.number().to_string(),
    }
}

/// What the reader says of each record of the run of a day.
pub fn in_run(day: impl BufRead) -> io::Result<Vec<String>> {
    let mut lines = Vec::new();
    bench::replay(day, |_, _, answer| {
        lines.extend(bench::notice_record(&answer).map(|octets| heard(&octets)));
        Ok(())
    })?;
    Ok(lines)
}

/// What the reader says of each line of octets.
pub fn in_lines(input: impl BufRead) -> io::Result<Vec<String>> {
    let said = |line: Vec<u8>| bench::read_hex(&line).map_or("?".to_string(), |o| heard(&o));
    input.split(b'\n').map(|line| line.map(said)).collect()
}

#[cfg(test)]
mod tests {
    use super::*;
    use crate::days;
    use std::collections::BTreeSet;

    #[test]
    fn made_records_are_taken_and_refused() {
        let made = make(1, 3000);
        assert_eq!(made, make(1, 3000));
        let said = in_lines(made.join("\n").as_bytes()).expect("memory can be read");
        let refused = said.iter().filter(|line| *line == "21").count();
        assert!(refused > 900 && refused < 2000, "{refused}");
        let status = |line: &String| line.split(' ').nth(3).map(str::to_string);
        let told: BTreeSet<String> = said.iter().filter_map(status).collect();
        assert_eq!(told.len(), 8);
    }

    /// What is taken is what its fields are written as.
    #[test]
    fn damage_is_refused_unless_it_makes_another_record() {
        let mut rng = Rng::new(2);
        for _ in 0..20_000 {
            let Some(notice) = any_notice(&mut rng) else {
                continue;
            };
            let mut octets = notice.write();
            damage(&mut rng, &mut octets);
            match Notice::read(&octets) {
                Ok(other) => assert_eq!(other.write(), octets),
                Err(refusal) => assert_eq!(refusal.number(), 21),
            }
        }
    }

    #[test]
    fn lines_of_a_reader() {
        let record = "4c44000f00010012010203040300000a80000005a1b2c3d40402";
        let cut = &record[..50];
        let said = in_lines(format!("{record}\n{cut}\n-\n4c4\n").as_bytes());
        let said = said.expect("memory can be read");
        assert_eq!(said, ["0 15 16909060 5 2712847316 1026", "21", "21", "?"]);
    }

    #[test]
    fn every_record_of_a_run_is_heard() {
        let day = days::make(days::kind_named("damaged").expect("a kind"), 1, 1000);
        let said = in_run(day.join(&b'\n').as_slice()).expect("memory can be read");
        assert!(said.len() > 50 && said.iter().all(|line| line.starts_with("0 ")));
    }
}
