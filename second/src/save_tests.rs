use super::*;
use crate::bench::{self, card_after, Bench, Said};
use crate::days;
use crate::rng::Rng;
use crate::save_damage;

/// The card of the example in docs/SAVE.md.
fn swapped() -> Card {
    card_after(&[
        "start 16",
        "route c0000201 0",
        "take 1 04000021000000010100001106000104c00002010007010004000000070200000400000064",
        "join 0600021020010db80000000000000000000000010003090000",
        "route c0000201 3",
    ])
}

fn hex(text: &str) -> Vec<u8> {
    let digits: Vec<u8> = text.bytes().filter(|c| *c != b' ' && *c != b'\n').collect();
    digits
        .chunks(2)
        .map(|pair| u8::from_str_radix(std::str::from_utf8(pair).expect("text"), 16).expect("hex"))
        .collect()
}

fn example() -> Vec<u8> {
    let zeros = |count: usize| "00".repeat(count);
    let name_a = format!("04 c0000201 {} 07 01000400000007 {}", zeros(12), zeros(25));
    let name_b = format!("10 20010db8 {} 01 03 090000 {}", zeros(11), zeros(29));
    hex(&[
        "4c5301 00000010 00000004 01 02 0002".to_string(),
        format!("4c5302 03 04 c0000201 {}", zeros(12)),
        format!("4c5303 {name_a} 00 {} 00000064 {}", zeros(4), zeros(56)),
        format!("4c5303 {name_b} 01 {}", zeros(64)),
        format!("4c5304 00000010 02 00 {name_a}"),
        format!("4c5304 00000011 01 03 {name_a}"),
    ]
    .concat())
}

#[test]
fn the_example() {
    assert_eq!(example().len(), 390);
    assert_eq!(swapped().save(LONGEST_SAVE), Ok(example()));
    let mut card = Card::start(99).1;
    assert_eq!(card.restore(&example()), Ok(()));
    assert_eq!(card, swapped());
}

#[test]
fn room() {
    assert_eq!(swapped().save(389), Err(Refusal::Room));
    assert_eq!(swapped().save(390), Ok(example()));
    let fresh = Card::start(16).1;
    assert_eq!(fresh.save(14), Err(Refusal::Room));
    assert_eq!(fresh.save(15).map(|save| save.len()), Ok(15));
}

/// A name of so many octets, its tree and then its label alone.
#[test]
fn names_beyond_the_space() {
    for (octets, number) in [(32, 0), (33, 19), (90, 19), (128, 19)] {
        let element = format!(
            "06000104c0000201{octets:04x}0700{:02x}{}",
            octets - 3,
            "07".repeat(octets - 3)
        );
        let join = format!("join {element}");
        let leave = format!("leave {element}");
        let lines = ["route c0000201 3", &join, &leave];
        for count in [2, 3] {
            let card = card_after(&lines[..count]);
            let saved = card.save(LONGEST_SAVE);
            assert_eq!(bench::answer_number(&saved), number);
            let in_no_room = if number == 0 { 16 } else { 19 };
            assert_eq!(bench::answer_number(&card.save(0)), in_no_room);
        }
    }
}

#[test]
fn sizes() {
    assert_eq!(LONGEST_SAVE, 23343);
}

/// Every octet of the example, changed in every way: what is taken is what
/// the card that took it writes, and what is refused leaves the card.
#[test]
fn every_octet() {
    let fresh = Card::start(99).1;
    let mut taken = 0;
    for place in 0..example().len() {
        for octet in 0..=255 {
            let mut octets = example();
            octets[place] = octet;
            let mut card = fresh.clone();
            match card.restore(&octets) {
                Ok(()) => {
                    taken += 1;
                    assert_eq!(card.save(LONGEST_SAVE), Ok(octets));
                }
                Err(refusal) => assert_eq!((refusal.number(), &card), (19, &fresh)),
            }
        }
    }
    // Counted by hand. A label's four octets: 15, 255 and 240 other values.
    let head = 4 * 255;
    let tree_a = 1 + (15 + 255 + 239) + 15 * 510;
    // An opaque value: longer by elements of three zeros, or of another type
    // but 255, or with another value.
    let tree_b = 16 * 255 + 9 + 254 + 16 * 510;
    let label_16 = 15 + 1 + 4 * 255 + 8 + 254 + 4 * 255;
    let label_17 = 238;
    assert_eq!(taken, 390 + head + tree_a + tree_b + label_16 + label_17);
}

#[test]
fn every_length() {
    let mut longer = example();
    longer.extend(example());
    for length in 0..longer.len() {
        let taken = Card::start(16).1.restore(&longer[..length]).is_ok();
        assert_eq!(taken, length == 390, "{length}");
    }
}

/// On cards of made days of every kind, and spoiled.
#[test]
fn what_is_written_is_read_back() {
    let mut rng = Rng::new(1);
    let mut saved = 0;
    for (kind, seed) in (0..days::KINDS.len()).flat_map(|k| [(k, 8), (k, 9), (k, 10)]) {
        for card in days::cards(kind, seed, 400, 20) {
            let Ok(save) = card.save(LONGEST_SAVE) else {
                assert!(card.names().any(|name| name.opaque.len() > 32));
                continue;
            };
            let mut other = Card::start(99).1;
            assert_eq!(other.restore(&save), Ok(()));
            assert_eq!(other, card.swapped());
            saved += 1;
            let spoiled = save_damage::spoil(&mut rng, &save);
            if other.restore(&spoiled).is_ok() {
                assert_eq!(other.save(LONGEST_SAVE), Ok(spoiled));
            } else {
                assert_eq!(other, card.swapped());
            }
        }
    }
    assert!(saved > 200, "{saved}");
}

/// Replays a day on a card that is swapped now and then, and on one that just
/// forgets what it gave last; gives the number of swaps.
fn swaps_on(lines: &[Vec<u8>]) -> usize {
    let (mut one, mut other) = (Bench::new(), Bench::new());
    let mut swaps = 0;
    for (place, line) in lines.iter().enumerate() {
        let Said::Order(order) = bench::read_line(line) else {
            continue;
        };
        assert_eq!(one.obey(&order), other.obey(&order));
        if let (0, Ok(save)) = (place % 50, one.card.save(LONGEST_SAVE)) {
            other.card = Card::start(16).1;
            assert_eq!(other.card.restore(&save), Ok(()));
            one.card = one.card.swapped();
            swaps += 1;
        }
    }
    swaps
}

#[test]
fn a_restored_card_goes_on() {
    let full = days::kind_named("full").expect("it is one of the kinds");
    let swaps: usize = (1..=5)
        .map(|seed| swaps_on(&days::make(full, seed, 600)))
        .sum();
    assert!(swaps > 20, "{swaps}");
}
