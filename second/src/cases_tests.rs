use super::*;
use crate::session::Program;

/// The lines written for each case, by its number; 0 is what comes before.
fn outputs() -> Vec<Vec<String>> {
    let mut cases = vec![Vec::new()];
    for line in day() {
        if line.starts_with("# case ") {
            cases.push(Vec::new());
        }
        cases.last_mut().expect("one is there").push(line);
    }
    let mut written = run(&day().join("\n")).into_iter();
    cases
        .iter()
        .map(|lines| lines.iter().filter(|line| !line.starts_with('#')).count())
        .map(|count| written.by_ref().take(count).collect())
        .collect()
}

fn run(text: &str) -> Vec<String> {
    let mut output = Vec::new();
    let run = Program::Bench.run(text.as_bytes(), &mut output);
    run.expect("memory can be written");
    let text = String::from_utf8(output).expect("only text is written");
    text.lines().map(str::to_string).collect()
}

/// A record for A as the requirement lays it out.
fn record(neighbour: u8, kind: u8, identifier: u8, label: u16) -> String {
    format!(
        "4c4400{neighbour:02x}04{kind:02x}0021000000{identifier:02x}\
         0100001106000104c0000201000701000400000007020000040000{label:04x}"
    )
}

const MAPPING: u8 = 0;
const WITHDRAW: u8 = 2;
const RELEASE: u8 = 3;

#[test]
fn there_are_thirteen() {
    let day = day();
    let heads: Vec<&String> = day.iter().filter(|l| l.starts_with("# case ")).collect();
    assert_eq!(heads.len(), 13);
    for (number, head) in (1..).zip(heads) {
        assert!(head.starts_with(&format!("# case {number}: ")));
    }
}

#[test]
fn case_1() {
    let octets = "4C 44 00 00 04 00 00 21 00 00 00 01 01 00 00 11 06 00 01 04 C0 00 02 01 \
                  00 07 01 00 04 00 00 00 07 02 00 00 04 00 00 00 10";
    let octets = octets.replace(' ', "").to_lowercase();
    assert_eq!(octets, record(0, MAPPING, 1, 16));
    assert_eq!(outputs()[0], ["start 0", "route 0"]);
    assert_eq!(
        outputs()[1],
        [
            &format!("take 0 {octets}"),
            "label 1:100",
            "label nothing",
            "tree 1:100",
            "free 255"
        ]
    );
}

#[test]
fn cases_2_to_4() {
    let cases = outputs();
    assert_eq!(cases[2][..2], ["take 0", "label 1:100 2:200"]);
    assert_eq!(
        cases[3][..2],
        [
            &format!("take 0 {}", record(1, RELEASE, 2, 100)),
            "label 2:200"
        ]
    );
    let written = record(2, RELEASE, 3, 200) + &record(0, WITHDRAW, 4, 16);
    assert_eq!(
        cases[4],
        [
            &format!("take 0 {written}"),
            "label nothing",
            "label nothing",
            "tree nothing",
            "free 255"
        ]
    );
}

#[test]
fn cases_5_to_7() {
    let cases = outputs();
    assert_eq!(
        cases[5][..3],
        [
            &format!("take 0 {}", record(0, MAPPING, 5, 17)),
            "label nothing",
            "label 1:300"
        ]
    );
    let answers: Vec<&String> = cases[6].iter().step_by(5).collect();
    assert_eq!(answers, ["take 13", "take 0", "take 13"]);
    let free: Vec<&String> = cases[6].iter().skip(4).step_by(5).collect();
    assert_eq!(free, ["free 254", "free 255", "free 255"]);
    let written = record(0, WITHDRAW, 6, 17) + &record(3, MAPPING, 7, 18);
    assert_eq!(
        cases[7],
        [
            &format!("route 0 {written}"),
            "label nothing",
            "label nothing",
            "label 1:300",
            "tree 1:300",
            "free 254"
        ]
    );
}

#[test]
fn cases_8_to_10() {
    let cases = outputs();
    let taken = format!("take 0 {}", record(0, MAPPING, 1, 16));
    let answers: Vec<&String> = cases[8].iter().skip(2).step_by(6).collect();
    assert_eq!(answers, ["take 8", &taken, &taken, "take 8"]);
    let trees: Vec<&String> = cases[8].iter().skip(4).step_by(6).collect();
    assert_eq!(
        trees,
        [
            "tree nothing",
            "tree 1:16",
            "tree 1:1048575",
            "tree nothing"
        ]
    );
    assert_eq!(
        cases[9][2..],
        [
            "take 2",
            "take 2",
            "take 5",
            "label nothing",
            "tree nothing",
            "free 256"
        ]
    );
    let answers: Vec<&str> = cases[10]
        .iter()
        .skip(2)
        .step_by(6)
        .map(|line| line.split(' ').nth(1).expect("an answer"))
        .collect();
    assert_eq!(answers, ["0", "7", "6", "6"]);
}

#[test]
fn case_11() {
    let case = &outputs()[11];
    let before = 2 + 64 + 3;
    let nothing_moved = [
        "label nothing",
        "label 4:100",
        "label 4:100",
        "tree nothing",
        "tree 4:100",
        "tree 4:100",
        "free 0",
    ];
    assert!(case[..before]
        .iter()
        .all(|l| l.split(' ').nth(1) == Some("0")));
    assert_eq!(case[before..before + 2], ["free 0", "take 11"]);
    assert_eq!(case[before + 2..before + 9], nothing_moved);
    assert_eq!(case[before + 9], "join 11");
    assert_eq!(case[before + 10..before + 17], nothing_moved);
    assert_eq!(case[before + 17], "take 0");
    assert_eq!(case[before + 19], "label 2:200 4:100");
}

#[test]
fn case_12() {
    let case = &outputs()[12];
    assert_eq!(case[3..8], case[9..14]);
    let release = "4c4400010403001d000000020100000d06000104c000020100030900000200000400000064";
    assert_eq!(case[8], format!("take 0 {release}"));
}

#[test]
fn case_13() {
    let case = &outputs()[13];
    let lookups = 4 + 3 + 1;
    let moved_at_last = 2 + 6 + 3 + 1;
    let (before, at_last) = case.split_at(case.len() - moved_at_last);
    let (before, refused) = before.split_at(before.len() - lookups - 1);
    assert_eq!(refused[0], "route 12");
    assert_eq!(refused[1..], before[before.len() - lookups..]);
    assert_eq!(refused[1], "label 1:100");
    assert_eq!(refused[4], "label nothing");
    assert_eq!(refused[lookups], "free 2");
    assert_eq!(at_last[0], "take 0");
    assert!(at_last[1].starts_with("route 0 4c440000"));
    assert_eq!(at_last.last().map(String::as_str), Some("free 0"));
}

#[test]
fn the_longest_output_fills_the_buffer() {
    let lines = run(&longest_output().join("\n"));
    let moves = &lines[3 + 64..];
    assert_eq!(moves[..2], ["route 16", "label 3:1048575"]);
    assert_eq!(moves[2..4], ["label nothing", "label nothing"]);
    assert_eq!(moves[6], "room 22272");
    assert_eq!(moves[7].len(), "route 0 ".len() + 2 * 22272);
    assert_eq!(moves[8..10], ["label nothing", "label 3:1048575"]);
    assert_eq!(moves[12], "free 128");
}

#[test]
fn thirty_two_roots_have_a_route() {
    let lines = run(&most_roots().join("\n"));
    assert!(lines[2..34].iter().all(|line| line == "route 0"));
    assert_eq!(
        lines[34..39],
        ["route 15", "route 15", "route 0", "route 0", "route 15"]
    );
    let mapping = "4c4400040400001d000000010100000d06000104c000020100030100000200000400000010";
    assert_eq!(
        lines[39..42],
        ["route 0", &format!("route 0 {mapping}"), "route 15"]
    );
    assert_eq!(lines[42..], ["label leaf", "tree leaf", "free 255"]);
}

/// A notice's line: the neighbour, the card's identifier, status code, and
/// what is copied.
fn notice(neighbour: u8, identifier: u8, code: u32, copied: &str) -> String {
    format!(
        "notice 0 4c4400{neighbour:02x}00010012000000{identifier:02x}0300000a{code:08x}{copied}"
    )
}

#[test]
fn refused_messages_and_their_notices() {
    let lines = run(&notices().join("\n"));
    assert_eq!(lines[..2], ["start 0", "route 0"]);
    let copied = |identifier: u8, code: u16| format!("000000{identifier:02x}{code:04x}");
    let expected = [
        ("take 2", notice(1, 1, 0x8000_0005, &copied(0, 0))),
        ("take 3", notice(1, 2, 0x04, &copied(3, 0x0401))),
        ("take 3", "notice 0".to_string()),
        ("take 4", notice(1, 3, 0x8000_0007, &copied(4, 0x0400))),
        ("take 5", notice(1, 4, 0x16, &copied(5, 0x0400))),
        ("take 6", notice(1, 5, 0x0c, &copied(6, 0x0400))),
        ("take 7", notice(1, 6, 0x0c, &copied(7, 0x0400))),
        ("take 18", notice(1, 7, 0x0c, &copied(18, 0x0400))),
        ("take 8", notice(1, 8, 0x8000_0008, &copied(8, 0x0400))),
        ("take 9", notice(1, 9, 0x06, &copied(9, 0x0400))),
    ];
    for (pair, (take, notice)) in lines[2..].chunks(2).zip(&expected) {
        assert_eq!(pair, [*take, notice.as_str()]);
    }
    let after = 2 + 2 * expected.len();
    assert_eq!(
        lines[after..after + 3],
        [
            &format!("take 0 {}", record(0, MAPPING, 10, 16)),
            "take 10",
            "notice 0"
        ]
    );
}

#[test]
fn a_notice_of_every_number() {
    let lines = run(&notices().join("\n"));
    let lines = &lines[2 + 20 + 3..][..28];
    let told: Vec<(usize, &String)> = (0..)
        .zip(lines)
        .filter(|(_, line)| *line != "notice 0")
        .collect();
    let numbers: Vec<usize> = told.iter().map(|(number, _)| *number).collect();
    assert_eq!(numbers, [2, 3, 4, 5, 6, 7, 8, 9, 11, 12, 18]);
    let codes = [
        0x8000_0005,
        0x04,
        0x8000_0007,
        0x16,
        0x0c,
        0x0c,
        0x8000_0008,
        0x06,
        0x0e,
        0x0e,
        0x0c,
    ];
    for ((identifier, (_, line)), code) in (11..).zip(told).zip(codes) {
        assert_eq!(*line, notice(0, identifier, code, "a1b2c3d40402"));
    }
}

#[test]
fn edges_of_notices() {
    let lines = run(&notices().join("\n"));
    let lines = &lines[2 + 20 + 3 + 28..];
    let (none, whole) = ("000000000000", "ffffffff8400");
    let two = |identifier, copied| notice(1, identifier, 0x8000_0005, copied);
    let three = |identifier, copied| notice(1, identifier, 0x04, copied);
    assert_eq!(
        lines[..6],
        [
            two(22, none),
            two(23, none),
            two(24, whole),
            three(25, none),
            three(26, none),
            "notice 0".to_string()
        ]
    );
    let lent: Vec<&String> = lines[6..18].iter().skip(1).step_by(2).collect();
    assert_eq!(
        lent,
        [
            "notice 16",
            &two(27, whole),
            "notice 0",
            "notice 0",
            "notice 16",
            &two(28, whole)
        ]
    );
    assert_eq!(lines[18], notice(15, 29, 0x8000_0005, whole));
    assert_eq!(
        lines[19..23],
        ["room 25", "notice 1", "notice 1", "notice 1"]
    );
    let written = record(0, WITHDRAW, 30, 16) + &record(3, MAPPING, 31, 17);
    assert_eq!(lines[24], format!("route 0 {written}"));
}
