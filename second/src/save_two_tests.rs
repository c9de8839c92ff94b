use super::*;
use crate::bench;
use crate::cases::Page;
use crate::days;
use crate::rng::Rng;
use crate::save::LONGEST_SAVE;
use crate::save_damage;

/// The card of the example in docs/SAVE.md.
fn swapped() -> Card {
    let mut page = Page::new();
    page.swapped();
    bench::card_after(&page.lines)
}

fn example() -> Vec<u8> {
    let zeros = |count: usize| "00".repeat(count);
    let name_a = "11 06 0001 04 c0000201 0007 01000400000007";
    let name_b = format!("19 06 0002 10 20010db8 {} 01 0003 090000", zeros(11));
    let text = [
        "4c5305 00000010 00000004 01 02 0002 00000011".to_string(),
        format!("4c5302 03 04 c0000201 {}", zeros(12)),
        format!("4c5306 {name_a} 00 {} 00000064 {}", zeros(4), zeros(56)),
        format!("4c5306 {name_b} 01 {}", zeros(64)),
        format!("4c5307 00000010 02 00 {name_a}"),
        format!("4c5307 00000011 01 03 {name_a}"),
    ];
    let digits = text.concat().replace(' ', "");
    bench::read_hex(digits.as_bytes()).expect("hex")
}

#[test]
fn the_example() {
    assert_eq!(example().len(), 274);
    assert_eq!(swapped().save_two(LONGEST_SAVE_TWO), Ok(example()));
    let mut card = Card::start(99).1;
    assert_eq!(card.restore_two(&example()), Ok(()));
    assert_eq!(card, swapped());
    let one = swapped().save(LONGEST_SAVE).expect("there is room");
    assert_eq!(newer(&one, 274), Ok(example()));
    assert_eq!(newer(&one, 273), Err(Refusal::Room));
    assert_eq!(older(&example(), 390), Ok(one));
    assert_eq!(older(&example(), 389), Err(Refusal::Room));
}

#[test]
fn sizes() {
    assert_eq!((HEAD_TWO, LONGEST_SAVE_TWO), (19, 55667));
}

/// Every octet of the example, changed in every way: what is taken is what the
/// card that took it writes, and is taken by `older` too.
#[test]
fn every_octet() {
    let fresh = Card::start(99).1;
    let mut taken = 0;
    for place in 0..example().len() {
        for octet in 0..=255 {
            let mut octets = example();
            octets[place] = octet;
            let mut card = fresh.clone();
            let moved = older(&octets, LONGEST_SAVE);
            match card.restore_two(&octets) {
                Ok(()) => {
                    taken += 1;
                    assert_eq!(moved, card.save(LONGEST_SAVE));
                    assert_eq!(card.save_two(LONGEST_SAVE_TWO), Ok(octets));
                }
                Err(refusal) => {
                    assert_eq!((refusal.number(), &card), (19, &fresh));
                    assert_eq!(moved, Err(refusal));
                }
            }
        }
    }
    // Counted by hand. The next identifier, and the last given from 16 to 255.
    let head = 4 * 255 + 239;
    let tree_a = 1 + (15 + 255 + 239) + 15 * 510;
    // The root, the opaque value's type, and a leaf's branches.
    let tree_b = 16 * 255 + 254 + 16 * 510;
    // Neighbour, root, type of the opaque value's element, its value.
    let label_16 = 15 + 4 * 255 + 254 + 4 * 255;
    let label_17 = 238;
    assert_eq!(taken, 274 + head + tree_a + tree_b + label_16 + label_17);
}

#[test]
fn every_length() {
    let mut longer = example();
    longer.extend(example());
    for length in 0..longer.len() {
        let taken = Card::start(16).1.restore_two(&longer[..length]).is_ok();
        assert_eq!(taken, length == 274, "{length}");
    }
}

/// On cards of made days of every kind, and spoiled.
#[test]
fn to_and_fro() {
    let mut rng = Rng::new(1);
    let (mut short, mut taken, mut refused) = (0, 0, 0);
    for (kind, seed) in (0..days::KINDS.len()).flat_map(|k| [(k, 8), (k, 9), (k, 10)]) {
        for card in days::cards(kind, seed, 400, 20) {
            let two = card.save_two(LONGEST_SAVE_TWO).expect("room");
            let mut other = Card::start(99).1;
            assert_eq!(other.restore_two(&two), Ok(()));
            assert_eq!(other, card);
            let one = card.save(LONGEST_SAVE);
            assert_eq!(older(&two, LONGEST_SAVE), one);
            if let Ok(one) = one {
                let again = newer(&one, LONGEST_SAVE_TWO).expect("room");
                assert_eq!(older(&again, LONGEST_SAVE), Ok(one));
                assert_eq!(other.restore_two(&again), Ok(()));
                assert_eq!(other, card.swapped());
                short += 1;
            }
            let spoiled = save_damage::spoil(&mut rng, &two);
            match other.restore_two(&spoiled) {
                Ok(()) => {
                    taken += 1;
                    assert_eq!(other.save_two(LONGEST_SAVE_TWO), Ok(spoiled));
                }
                Err(_) => refused += 1,
            }
        }
    }
    assert!(
        short > 200 && taken > 100 && refused > 200,
        "{short} {taken} {refused}"
    );
}

/// No octets are a save of both forms.
#[test]
fn the_forms_are_apart() {
    let one = swapped().save(LONGEST_SAVE).expect("there is room");
    let mut card = Card::start(16).1;
    assert_eq!(card.restore(&example()), Err(Refusal::NoSave));
    assert_eq!(card.restore_two(&one), Err(Refusal::NoSave));
    assert_eq!(newer(&example(), 0), Err(Refusal::NoSave));
    assert_eq!(older(&one, 0), Err(Refusal::NoSave));
}
