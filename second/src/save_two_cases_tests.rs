use super::*;
use crate::bench::Bench;
use crate::session::Program;

fn answers() -> Vec<String> {
    Program::Bench.answers(day().join("\n").as_bytes())
}

#[test]
fn the_page_is_as_it_says() {
    let answers = answers();
    let count = |text: &str| answers.iter().filter(|answer| *answer == text).count();
    assert_eq!(count("save2 19"), 0);
    assert_eq!(count("save2 16"), 2 + 2 + 1);
    assert_eq!(count("newer 16"), 1 + 1);
    assert_eq!(answers.iter().filter(|a| a.starts_with('?')).count(), 3);
}

/// What is spoiled is refused by both orders.
#[test]
fn spoiled_fields_are_refused() {
    let mut bench = Bench::new();
    let mut page = Page::new();
    page.swapped();
    let two = page.saved_two();
    for (what, place, octet) in SPOILED {
        let mut spoiled = two.clone();
        spoiled[place] = octet;
        assert_ne!(spoiled, two, "{place} {what}");
        for (order, line) in [
            (Order::RestoreTwo(spoiled.clone()), "restore2 19"),
            (Order::Older(spoiled), "older 19"),
        ] {
            assert_eq!(bench.obey(&order), line, "{place} {what}");
        }
    }
    assert_eq!(two.len(), EXAMPLE);
}

#[test]
fn the_longest_save() {
    let longest = "save2 0 ".len() + 2 * LONGEST_SAVE_TWO;
    let answers = answers();
    let most = answers.iter().filter(|answer| answer.len() >= longest);
    assert_eq!(most.map(String::len).collect::<Vec<_>>(), [longest]);
    assert!(answers.iter().any(|answer| answer == "free 0"));
}
