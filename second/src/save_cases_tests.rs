use super::*;
use crate::session::Program;

fn answers() -> Vec<String> {
    Program::Bench.answers(day().join("\n").as_bytes())
}

#[test]
fn the_page_is_as_it_says() {
    let answers = answers();
    let count = |text: &str| answers.iter().filter(|answer| *answer == text).count();
    assert_eq!(count("save 16"), 5);
    assert_eq!(count("restore 19"), 8 + SPOILED.len() + 8);
    assert_eq!(count("restore 0"), 10);
    assert_eq!(answers.iter().filter(|a| a.starts_with('?')).count(), 1);
}

#[test]
fn the_longest_save() {
    let lengths: Vec<usize> = answers().iter().map(|answer| answer.len()).collect();
    let longest = "save 0 ".len() + 2 * LONGEST_SAVE;
    assert_eq!(lengths.iter().filter(|n| **n == longest).count(), 1);
    assert_eq!(lengths.iter().max(), Some(&longest));
    let lines = day();
    let hex = lines
        .iter()
        .filter_map(|line| line.strip_prefix("restore "));
    let most: Vec<usize> = hex
        .map(str::len)
        .filter(|n| *n >= 2 * LONGEST_SAVE)
        .collect();
    assert_eq!(most, [2 * LONGEST_SAVE, 2 * LONGEST_SAVE + 2]);
}

/// Each part of the page that restores shows what stands afterwards.
#[test]
fn the_example_is_saved_again() {
    let answers = answers();
    let saves: Vec<&String> = answers
        .iter()
        .filter(|a| a.starts_with("save 0 "))
        .collect();
    assert_eq!(saves[0].len(), "save 0 ".len() + 2 * EXAMPLE);
    assert!(saves[..3].windows(2).all(|pair| pair[0] == pair[1]));
    assert_eq!(saves[3], saves[4]);
    assert_eq!([saves[5], saves[7], saves[8]], [saves[0]; 3]);
    assert_ne!(saves[5], saves[6]);
    assert_eq!(saves[9], saves[10]);
}
