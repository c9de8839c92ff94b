use super::*;
use crate::bench;

/// A line as written, its records cut down to kind, label and neighbour.
fn short(line: String) -> String {
    let Some((head, hex)) = line.split_once(" 0 4c44") else {
        return line;
    };
    let mut text = format!("{head} 0");
    for record in format!("4c44{hex}").split("4c4400").skip(1) {
        let number = |from, to| u32::from_str_radix(&record[from..to], 16).expect("hex");
        let kind = ["Mapping", "", "Withdraw", "Release"][number(4, 6) as usize];
        let label = number(record.len() - 8, record.len());
        text.push_str(&format!(" {kind} {label} to {}", number(0, 2)));
    }
    text
}

/// What is written for the lines behind each comment.
fn sections() -> Vec<Vec<String>> {
    let mut sections: Vec<Vec<String>> = Vec::new();
    let mut after = Vec::new();
    for line in day() {
        if line.starts_with('#') {
            sections.push(Vec::new());
        } else {
            after.push(sections.len() - 1);
        }
    }
    let mut places = after.into_iter();
    bench::replay(day().join("\n").as_bytes(), |_, _, answer| {
        let place = places.next().expect("a line for each order");
        sections[place].push(short(answer));
        Ok(())
    })
    .expect("memory can be read");
    sections
}

/// The sections from one to another: lines of events and of the lookups by
/// name, those of filling the table left out.
fn shown(from: usize, to: usize) -> Vec<String> {
    let dull = |line: &&String| {
        line.starts_with("label")
            || line.starts_with("free")
            || line.starts_with("start")
            || line.starts_with("room")
            || line.len() > 150
            || *line == "join 0"
    };
    let lines = sections()[from..=to].concat();
    lines.iter().filter(|line| !dull(line)).cloned().collect()
}

#[test]
fn a_tree_without_a_label() {
    assert_eq!(
        shown(1, 3),
        [
            "route 0",
            "take 0",
            "tree nothing",
            "take 0",
            "take 10",
            "take 0 Release 100 to 0",
            "take 0",
            "tree nothing"
        ]
    );
    assert_eq!(sections()[1].last().map(String::as_str), Some("free 256"));
}

#[test]
fn labels_come_and_go() {
    assert_eq!(
        shown(4, 8),
        [
            "take 0 Mapping 16 to 0",
            "tree 1:200",
            "take 0",
            "tree 1:200 2:300",
            "take 0 Release 200 to 1",
            "take 0 Release 300 to 2 Withdraw 16 to 0",
            "take 10",
            "tree nothing",
            "join 0 Mapping 17 to 0",
            "tree leaf",
            "leave 0 Withdraw 17 to 0",
            "tree nothing",
            "leave 14",
            "tree nothing",
            "take 0 Release 101 to 0",
            "take 0",
            "take 0",
            "tree nothing"
        ]
    );
}

#[test]
fn the_two_boxes() {
    assert_eq!(
        shown(9, 10),
        [
            "route 0",
            "take 0 Mapping 16 to 0",
            "take 0",
            "tree 1:200",
            "take 0 Release 16 to 0",
            "tree 1:200"
        ]
    );
    assert_eq!(sections()[9][4], "label 1:200");
}

#[test]
fn branches_wake_and_fall_silent() {
    assert_eq!(
        shown(11, 14),
        [
            "take 0",
            "route 0 Withdraw 16 to 0 Mapping 17 to 1",
            "tree 0:16",
            "take 0 Release 16 to 0 Withdraw 17 to 1",
            "tree nothing",
            "route 0 Mapping 18 to 3",
            "tree 1:200",
            "route 0 Withdraw 18 to 3",
            "tree nothing",
            "route 0",
            "tree 1:200",
            "route 0",
            "tree nothing",
            "route 0",
            "tree 1:200",
            "route 0",
            "tree nothing"
        ]
    );
}

#[test]
fn scarce_labels() {
    assert_eq!(
        shown(15, 17),
        [
            "route 0",
            "take 12",
            "take 0",
            "take 12",
            "join 12",
            "route 12",
            "take 10",
            "route 0",
            "route 0",
            "tree nothing",
            "take 0",
            "join 0 Mapping 16 to 0",
            "take 0",
            "tree leaf 1:200"
        ]
    );
}

#[test]
fn moves_that_are_counted() {
    let three = |a: &str, b: &str, c: &str| [a, b, c].map(|found| format!("tree {found}"));
    let before = three("1:100", "4:100", "nothing");
    let after = three("1:100", "nothing", "0:100");
    let lines = shown(18, 20);
    assert_eq!(
        lines[3..5],
        ["take 0 Mapping 16 to 0", "take 0 Mapping 17 to 0"]
    );
    assert_eq!(lines[8], "route 12");
    assert_eq!(lines[9..12], before);
    let moved = "route 0 Withdraw 16 to 0 Mapping 18 to 4 Withdraw 17 to 0 Mapping 19 to 4";
    assert_eq!(lines[12], moved);
    assert_eq!(lines[13..16], after);
    assert_eq!(lines[16..18], ["take 0", "route 12"]);
    assert_eq!(lines[18..21], after);
    let back = "route 0 Withdraw 18 to 4 Mapping 20 to 0 Mapping 21 to 0 Withdraw 19 to 4";
    assert_eq!(lines[21..23], ["take 0", back]);
    assert_eq!(lines[23..], before);
}

#[test]
fn room_to_the_octet() {
    assert_eq!(
        shown(21, 23),
        [
            "route 0",
            "take 0",
            "join 16",
            "join 0 Mapping 16 to 0",
            "leave 16",
            "leave 0 Withdraw 16 to 0",
            "take 16",
            "take 0 Mapping 17 to 0",
            "take 16",
            "take 0 Release 200 to 1 Withdraw 17 to 0",
            "route 16",
            "route 0 Mapping 18 to 1",
            "route 16",
            "route 0 Withdraw 18 to 1 Mapping 19 to 2",
            "route 16",
            "route 0 Withdraw 19 to 2",
            "tree nothing"
        ]
    );
}
