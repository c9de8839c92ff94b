//! What the reader of notices says of records, whole and damaged, as rows of a
//! table in a proof language.

use crate::notice::{Notice, RECORD};
use crate::notice_records;
use crate::rows::list;
use crate::wire;

/// A record of each status, one with each octet a step up and a step down, one
/// of each length, and made ones.
pub fn make(seed: u64, count: usize) -> Vec<String> {
    let mut records = of_each_status();
    for record in [records[0].clone(), records[1].clone()] {
        records.extend(stepped(&record));
    }
    let cut = |length: usize| records[0].iter().chain(&[0, 0]).take(length).copied();
    let lengths: Vec<Vec<u8>> = (0..RECORD + 3).map(|n| cut(n).collect()).collect();
    records.extend(lengths);
    records.extend(notice_records::records(seed, count));
    records.iter().map(|octets| row(octets)).collect()
}

/// The first of a fatal status, the second of an unknown type.
fn of_each_status() -> Vec<Vec<u8>> {
    let refused = wire::write_frame(0x0402, 0xa1b2_c3d4, &[]);
    let numbers = [2, 3, 4, 5, 6, 8, 9, 11];
    let notice = |number| Notice::due(number, u32::MAX - number, number, &refused);
    let records = numbers.into_iter().filter_map(notice);
    records.map(|notice| notice.write()).collect()
}

fn stepped(record: &[u8]) -> Vec<Vec<u8>> {
    let step = |place: usize, step: u8| {
        let mut octets = record.to_vec();
        octets[place] = octets[place].wrapping_add(step);
        octets
    };
    (0..record.len())
        .flat_map(|place| [step(place, 1), step(place, 255), step(place, 128)])
        .collect()
}

fn row(octets: &[u8]) -> String {
    match Notice::read(octets) {
        Ok(notice) => {
            let fields = [
                notice.neighbour,
                notice.identifier,
                notice.status,
                notice.refused_identifier,
                notice.refused_code.into(),
            ];
            format!("    reads ({}) ({}) ∷", list(octets), list(&fields))
        }
        Err(_) => format!("    refuses ({}) ∷", list(octets)),
    }
}

#[cfg(test)]
mod tests {
    use super::*;

    #[test]
    fn rows_of_both_sorts() {
        let rows = make(1, 100);
        assert_eq!(rows.len(), 8 + 2 * 3 * RECORD + RECORD + 3 + 100);
        let read = rows.iter().filter(|row| row.starts_with("    reads ("));
        let refused = rows.iter().filter(|row| row.starts_with("    refuses ("));
        let (read, refused) = (read.count(), refused.count());
        assert!(read > 100 && refused > 100, "{read} {refused}");
        assert_eq!(read + refused, rows.len());
    }

    #[test]
    fn the_first_row() {
        let record = "76 ∷ 68 ∷ 0 ∷ 2 ∷ 0 ∷ 1 ∷ 0 ∷ 18 ∷ 255 ∷ 255 ∷ 255 ∷ 253 ∷ 3 ∷ 0 ∷ 0 ∷ 10 ∷ \
                      128 ∷ 0 ∷ 0 ∷ 5 ∷ 161 ∷ 178 ∷ 195 ∷ 212 ∷ 4 ∷ 2 ∷ []";
        let fields = "2 ∷ 4294967293 ∷ 5 ∷ 2712847316 ∷ 1026 ∷ []";
        assert_eq!(make(1, 0)[0], format!("    reads ({record}) ({fields}) ∷"));
    }
}
