use super::*;
use crate::session::Program;

fn output(input: &[u8]) -> String {
    let mut output = Vec::new();
    let run = Program::Bench.run(input, &mut output);
    run.expect("memory can be written");
    String::from_utf8(output).expect("only text is written")
}

#[test]
fn the_example() {
    let message = "04000021000000010100001106000104c00002010007010004000000070200000400000064";
    let input = format!("start 16\nroute c0000201 0\ntake 1 {message}\nlabel 16\ntake 9 00\n");
    assert_eq!(
        output(input.as_bytes()),
        "start 0\nroute 0\ntake 0 4c44000004000021000000010100001106000104c0000201\
         0007010004000000070200000400000010\nlabel 1:100\ntake 2\n"
    );
}

#[test]
fn leaf_comes_before_branches() {
    let element = "06000104c00002010003010000";
    let message = "0400001d00000001 0100000d 06000104c00002010003010000 02000004 00000064";
    let message = message.replace(' ', "");
    let input = format!("take 9 {message}\njoin {element}\ntake 2 {message}\ntree {element}\n");
    assert_eq!(
        output(input.as_bytes()),
        "take 0\njoin 0\ntake 0\ntree leaf 2:100 9:100\n"
    );
}

#[test]
fn spaces_comments_and_blank_lines() {
    assert_eq!(output(b""), "");
    assert_eq!(output(b"\n\n"), "");
    assert_eq!(
        output(b" \t\n# free\n\tfree \t# x\nfree#"),
        "free 256\nfree 256\n"
    );
    assert_eq!(output(b"# \x00\xff\n\nfre#e"), "? 3\n");
}

const BAD_LINES: &[&[u8]] = &[
    b"free\r",
    b"free\x00",
    b"Free",
    b"free 1",
    b"take 1",
    b"take 1 0",
    b"take 1 0g",
    b"take 1 00 00",
    b"take -1 00",
    b"take 1 -0",
    b"label +1",
    b"label 4294967296",
    b"label 99999999999999999999999",
    b"route 1 c0000201",
    b"notice",
    b"notice 1 2",
    b"notice 1 2 00 00",
    b"notice 1 2 0",
    b"notice - 2 00",
    b"notice 1 - 00",
    b"notice 4294967296 2 00",
    b"notice 1 4294967296 00",
    b"Notice 1 2 00",
    b"save 1",
    b"save -",
    b"Save",
    b"restore",
    b"restore 4c5",
    b"restore 4c 53",
    b"restore 4g",
    b"Restore 4c",
    b"save2 1",
    b"save 2",
    b"Save2",
    b"restore2",
    b"restore2 4c5",
    b"restore 2 4c",
    b"newer",
    b"newer 4c 53",
    b"Newer 4c",
    b"older",
    b"older 4g",
    b"older 4c 4c",
    b"start -",
    b"lost",
    b"lost -",
    b"lost 1 2",
    b"lost 4294967296",
    b"Lost 1",
    b"layers",
    b"layers 06 00",
    b"wrap c0000201 06",
    b"wrap c0000201 - 06 -",
    b"unwrap 0",
    b"\x0bfree",
];

#[test]
fn lines_that_cannot_be_taken() {
    for line in BAD_LINES {
        assert_eq!(output(line), "? 1\n", "{}", line.escape_ascii());
    }
}

#[test]
fn numbers() {
    assert_eq!(output(b"label 4294967295"), "label nothing\n");
    assert_eq!(output(b"room 0000000000000000000000123"), "room 123\n");
    assert_eq!(output(b"room 4294967295"), "room 4294967295\n");
    assert_eq!(output(b"take 4294967295 -"), "take 1\n");
    assert_eq!(output(b"notice 4294967295 2 -"), "notice 1\n");
    assert_eq!(output(b"notice 0 4294967295 -"), "notice 0\n");
    assert_eq!(
        output(b"lost 0\nlost 0015\nlost 16\nlost 4294967295"),
        "lost 0\nlost 0\nlost 1\nlost 1\n"
    );
    assert_eq!(
        output(b"route - 4294967295\nroute - 0"),
        "route 1\nroute 6\n"
    );
}

#[test]
fn hex_of_either_case_up_to_4096_octets() {
    assert_eq!(
        output(b"route C0000201 1\nroute c0000201 1"),
        "route 0\nroute 0\n"
    );
    for (octets, answer) in [(4095, "take 2\n"), (4096, "take 2\n"), (4097, "? 1\n")] {
        let line = format!("take 1 {}", "0f".repeat(octets));
        assert_eq!(output(line.as_bytes()), answer);
    }
    assert_eq!(
        output(b"join -\ntree -\nleave -"),
        "join 6\ntree nothing\nleave 6\n"
    );
}

#[test]
fn a_message_of_4096_octets_is_taken() {
    let message = "04000fec00000001 0100000d 06000104c00002010003010000 02000004 00000064";
    let message = message.replace(' ', "");
    let filling = 4096 - message.len() / 2 - 4;
    let line = format!(
        "take 1 {}0ffc{}bf00{filling:04x}{}",
        &message[..4],
        &message[8..],
        "00".repeat(filling)
    );
    assert_eq!(output(line.as_bytes()), "take 0\n");
}

#[test]
fn very_long_lines() {
    let mut comment = vec![b'#'; LONGEST_LINE];
    let mut blank = vec![b' '; LONGEST_LINE];
    assert_eq!(output(&comment), "");
    assert_eq!(output(&blank), "");
    comment.push(b'#');
    blank.extend(b" \nfree");
    assert_eq!(output(&comment), "? 1\n");
    assert_eq!(output(&blank), "? 1\nfree 256\n");
    comment.resize(1_000_000, b'#');
    comment.extend(b"\nfree");
    assert_eq!(output(&comment), "? 1\nfree 256\n");
}

#[test]
fn sizes() {
    assert_eq!(WHOLE_BUFFER, 22272);
}

#[test]
fn room_stays_over_a_start() {
    let element = "06000104c00002010003010000";
    let input = format!(
        "room 36\nstart 20\nroute c0000201 3\njoin {element}\nroom 37\njoin {element}\n\
         start 15\nlabel 16\nroute c0000201 3\njoin {element}\nlabel 16\nlabel 20\n"
    );
    let record = |label: &str| {
        format!("4c4400030400001d000000010100000d06000104c0000201000301000002000004000000{label}")
    };
    assert_eq!(
        output(input.as_bytes()),
        format!(
            "room 36\nstart 0\nroute 0\njoin 16\nroom 37\njoin 0 {}\nstart 17\nlabel nothing\n\
             route 0\njoin 0 {}\nlabel leaf\nlabel nothing\n",
            record("14"),
            record("10")
        )
    );
}

fn wrap_order(root: &[u8], eight: &[u8]) -> Order {
    let (root, eight) = (root.to_vec(), eight.to_vec());
    Order::Wrap(Layer { root, eight }, vec![6])
}

fn permit(set: u16) -> Permit {
    let root = vec![192, 0, 2, 1];
    Permit { root, set }
}

fn entry(to: u32) -> Move {
    let root = vec![9; 16];
    Move { root, to }
}

#[test]
fn orders_read_back_what_they_write() {
    for order in [
        Order::Start(16),
        Order::Room(0),
        Order::Take(3, vec![0xab, 1]),
        Order::Join(vec![]),
        Order::Leave(vec![9]),
        Order::Route(vec![1, 2, 3, 4], 17),
        Order::Label(u32::MAX),
        Order::Tree(vec![6]),
        Order::Free,
        Order::Notice(16, 3, vec![0x84, 0]),
        Order::Notice(0, u32::MAX, vec![]),
        Order::Save,
        Order::Restore(vec![0x4c]),
        Order::SaveTwo,
        Order::RestoreTwo(vec![]),
        Order::Newer(vec![0x4c]),
        Order::Older(vec![0x53]),
        Order::Lost(15),
        Order::Layers(vec![6]),
        Order::Unwrap(vec![]),
        wrap_order(&[192, 0, 2, 1], &[]),
        wrap_order(&[], &[1; 8]),
        Order::Plan(0, vec![]),
        Order::Vet(15, vec![permit(3)], vec![entry(255)]),
    ] {
        assert_eq!(
            read_line(order.to_line().as_bytes()),
            Said::Order(order.clone())
        );
    }
}

#[test]
fn a_notice_is_lent_the_room_and_takes_an_identifier() {
    let (refused, ignored) = ("0401000400000009", "8401000400000009");
    let input = format!(
        "room 25\nnotice 2 3 {refused}\nroom 26\nnotice 2 3 {refused}\nnotice 2 10 {refused}\n\
         notice 2 3 {ignored}\nnotice 16 3 {refused}\nnotice 15 2 -\n"
    );
    assert_eq!(
        output(input.as_bytes()),
        "room 25\nnotice 16\nroom 26\n\
         notice 0 4c44000200010012000000010300000a00000004000000090401\n\
         notice 0\nnotice 0\nnotice 1\n\
         notice 0 4c44000f00010012000000020300000a80000005000000000000\n"
    );
}

#[test]
fn records_are_found_on_the_lines_of_notices() {
    assert_eq!(notice_record("notice 0 4c44"), Some(vec![0x4c, 0x44]));
    assert_eq!(notice_record("notice 0"), None);
    assert_eq!(notice_record("notice 16"), None);
    assert_eq!(notice_record("take 0 4c44"), None);
}

/// A save is lent the room as an event is, but its buffer is larger.
#[test]
fn room_of_a_save() {
    let empty = "4c5301000000100000000100000000";
    assert_eq!(output(b"save"), format!("save 0 {empty}\n"));
    assert_eq!(output(b"room 14\nsave"), "room 14\nsave 16\n");
    let input = format!(
        "room 15\nsave\nstart 99\nrestore {}\nsave",
        empty.to_uppercase()
    );
    let written = format!("room 15\nsave 0 {empty}\nstart 0\nrestore 0\nsave 0 {empty}\n");
    assert_eq!(output(input.as_bytes()), written);
    assert_eq!(
        output(b"restore -\nrestore 4c53"),
        "restore 19\nrestore 19\n"
    );
}

#[test]
fn the_longest_saves() {
    for (word, most) in [
        ("restore", 23343),
        ("restore2", 55667),
        ("newer", 23343),
        ("older", 55667),
    ] {
        let line = format!("{word} {}", "00".repeat(most));
        assert_eq!(output(line.as_bytes()), format!("{word} 19\n"));
        assert_eq!(output((line + "00").as_bytes()), "? 1\n");
    }
}

#[test]
fn both_forms_of_an_empty_table() {
    let (one, two) = (
        "4c5301000000100000000100000000",
        "4c530500000010000000010000000000000000",
    );
    let moved = format!(
        "newer {one}\nolder {two}\nroom 18\nsave2\nnewer {one}\nolder {two}\n\
         room 14\nolder {two}\nolder {one}\nrestore2 {one}\nrestore2 {two}\n"
    );
    assert_eq!(
        output(moved.as_bytes()),
        format!(
            "newer 0 {two}\nolder 0 {one}\nroom 18\nsave2 16\nnewer 16\nolder 0 {one}\n\
             room 14\nolder 16\nolder 19\nrestore2 19\nrestore2 0\n"
        )
    );
}
