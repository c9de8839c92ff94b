use super::super::tests::occasions;
use super::*;

/// What an order of the day met.
fn occasion(before: &Card, order: &Order, number: u8, after: &Card) -> Option<String> {
    let form = |octets: &[u8]| match octets.get(2) {
        Some(&ONE) => "one",
        Some(&TWO) => "two",
        _ => "neither",
    };
    Some(match order {
        Order::SaveTwo => format!("save2 {number}"),
        Order::RestoreTwo(octets) => {
            if number != 0 {
                assert_eq!(before, after);
            }
            let last = match (number, after.last_given()) {
                (0, None) => ", none given",
                (0, Some(label)) if after.find_label(label).is_none() => ", at rest",
                (0, _) => ", in use",
                _ => "",
            };
            format!("restore2 {number} of {}{last}", form(octets))
        }
        Order::Restore(octets) => format!("restore {number} of {}", form(octets)),
        Order::Newer(octets) | Order::Older(octets) => {
            assert_eq!(before, after);
            let word = &order.to_line()[..5];
            format!("{word} {number} of {}", form(octets))
        }
        _ => return None,
    })
}

#[test]
fn a_day_of_forms_has_its_occasions() {
    for seed in 1..=3 {
        let met = occasions("forms", seed, occasion);
        for what in [
            "newer 0 of one",
            "newer 16 of one",
            "newer 19 of one",
            "newer 19 of two",
            "older 0 of two",
            "older 16 of two",
            "older 19 of one",
            "older 19 of two",
            "restore 0 of one",
            "restore 19 of one",
            "restore2 0 of two, at rest",
            "restore2 0 of two, in use",
            "restore2 0 of two, none given",
            "restore2 19 of one",
            "restore2 19 of two",
            "save2 0",
            "save2 16",
        ] {
            assert!(met.get(what).is_some_and(|n| *n >= 4), "{what}: {met:?}");
        }
    }
}
