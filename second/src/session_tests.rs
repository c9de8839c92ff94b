use super::*;
use crate::box_days;
use crate::rng::Rng;

fn output(lines: &[&str]) -> Vec<String> {
    let mut output = Vec::new();
    let text = lines.join("\n");
    let run = Program::Box.run(text.as_bytes(), &mut output);
    run.expect("memory can be written");
    let text = String::from_utf8(output).expect("only text is written");
    text.lines().map(str::to_string).collect()
}

/// Mapping <A, 100>, in a PDU from 1, and what it writes.
const MAPPING: &str = "04000021000000010100001106000104c00002010007010004000000070200000400000064";
const WRITTEN: &str =
    "4c44000004000021000000010100001106000104c00002010007010004000000070200000400000010";
const PDU: &str = "0001002bc00002010000";

#[test]
fn a_message_from_a_stream() {
    let whole = format!("octets 1 {PDU}{MAPPING}");
    let lines = output(&["route c0000201 0", &whole, "label 16"]);
    assert_eq!(
        lines[1..],
        [format!("octets 0:47:{WRITTEN}"), "label 1:100".to_string()]
    );
}

#[test]
fn in_two_parts() {
    let first = format!("octets 1 {PDU}{}", &MAPPING[..20]);
    let second = format!("octets 1 {}{PDU}{MAPPING}", &MAPPING[20..]);
    let lines = output(&["route c0000201 0", &first, "octets 1 -", &second]);
    let answers = [
        "octets 0:20",
        "octets 0:0",
        &format!("octets 0:27:{WRITTEN} 0:47"),
    ];
    assert_eq!(lines[1..], answers);
}

#[test]
fn refusals_of_the_label_part_do_not_end_it() {
    let refused = "0401000400000001";
    let whole = format!("octets 0 0001001ec00002000000{0}{0}{0}", refused);
    assert_eq!(output(&[&whole]), ["octets 3:34 3:0 3:0"]);
}

#[test]
fn stopped_until_it_is_lost() {
    let good = format!("octets 1 {PDU}{MAPPING}");
    let bad = good.replace("octets 1 0001", "octets 1 0002");
    let lines = output(&[
        "route c0000201 0",
        &bad,
        &good,
        "lost 16",
        "lost 0",
        &good,
        "room 0",
        "lost 1",
        "room 9999",
        "lost 1",
        &good,
    ]);
    let stays = [
        "octets 0:47",
        "octets 0:47",
        "lost 1",
        "lost 0",
        "octets 0:47",
    ];
    assert_eq!(lines[1..6], stays);
    assert_eq!(
        lines[6..],
        ["room 0", "lost 0", "room 9999", "lost 0", "octets 0:47"]
    );
    // A is entered without a route: the stream was empty again.
    let lines = output(&[
        &bad,
        "lost 1",
        &good,
        "tree 06000104c0000201000701000400000007",
    ]);
    assert_eq!(lines[3], "tree 1:100");
}

#[test]
fn neighbours_and_room() {
    let lines = output(&[
        "octets 3 -",
        "octets 4 -",
        "octets 15 00",
        "octets 16 00",
        "octets 4294967295 -",
        "room 347",
        "octets 0 00",
        "octets 16 00",
        "room 348",
        "octets 0 00",
    ]);
    let answers = ["octets 0:0", "? 2", "? 3", "octets 1:0", "octets 1:0"];
    assert_eq!(lines[..5], answers);
    assert_eq!(lines[5..8], ["room 347", "octets 20:0", "octets 1:0"]);
    assert_eq!(lines[8..], ["room 348", "octets 0:1"]);
}

#[test]
fn packing() {
    let pack = |to: u32| format!("pack {to} {WRITTEN}");
    let message = &WRITTEN[8..];
    let lines = output(&[
        &pack(0),
        &pack(1),
        &pack(16),
        "room 46",
        &pack(0),
        &pack(1),
        "room 47",
        &pack(0),
        "pack 0 -",
        "pack 0 4c44",
        &format!("pack 0 {WRITTEN}4c44"),
        &format!("pack 0 4d{}", &WRITTEN[2..]),
        "pack 0",
    ]);
    let packed = format!("pack 0 0001002bc00002fe0000{message}");
    assert_eq!(lines[..3], [&packed, "pack 0", "pack 1"]);
    assert_eq!(
        lines[3..8],
        ["room 46", "pack 16", "pack 0", "room 47", &packed]
    );
    assert_eq!(lines[8..], ["pack 0", "pack 0", &packed, "pack 0", "? 13"]);
}

#[test]
fn every_order_of_the_bench() {
    let lines = output(&["# none", "free", "", "start 15", "save", "fre"]);
    assert_eq!(lines[..2], ["free 256", "start 17"]);
    assert_eq!(lines[3], "? 6");
}

#[test]
fn orders_read_back_what_they_write() {
    for order in [
        BoxOrder::Octets(3, vec![]),
        BoxOrder::Octets(16, vec![1]),
        BoxOrder::Pack(15, vec![0x4c, 0x44, 0, 3]),
        BoxOrder::Pack(0, vec![]),
    ] {
        let line = order.to_line();
        let read = read_line(line.as_bytes()).flatten().expect("an order");
        assert_eq!(read.to_line(), line);
    }
}

/// What each neighbour was sent and the box as it is left, when the octets
/// come from 1 in parts of up to so many.
fn cut_up(routes: &[&str], octets: &[u8], most: usize) -> (String, SessionBox) {
    let (mut session, mut rng) = (SessionBox::new(), Rng::new(most as u64));
    for route in routes {
        session.answer(route.as_bytes());
    }
    let (mut rest, mut records) = (octets, String::new());
    while !rest.is_empty() {
        let (part, after) = rest.split_at(rng.between(1, most).min(rest.len()));
        let line = session.obey(&BoxOrder::Octets(1, part.to_vec()));
        let hex = line.split(' ').filter_map(|call| call.split(':').nth(2));
        records.extend(hex);
        rest = after;
    }
    (records, session)
}

/// However a stream is cut, the records and the end state are equal.
#[test]
fn cuts_do_not_matter() {
    let mut written = 0;
    for seed in 1..=12 {
        let day = box_days::make(seed, 500);
        let begins = |word| day.iter().filter(move |line| line.starts_with(word));
        let routes: Vec<&str> = begins("route ").take(5).map(String::as_str).collect();
        let hex = begins("octets 1 ").filter_map(|line| line.split(' ').nth(2));
        let octets = hex.filter_map(|hex| bench::read_hex(hex.as_bytes()));
        let octets: Vec<u8> = octets.flatten().collect();
        let (records, whole) = cut_up(&routes, &octets, octets.len());
        for most in [1, 2, 11, 90, 1000] {
            let (cut, session) = cut_up(&routes, &octets, most);
            assert_eq!(cut, records);
            assert_eq!(session.bench.card, whole.bench.card);
            assert_eq!(session.streams, whole.streams);
        }
        written += records.len();
    }
    assert!(written > 5000, "{written}");
}
