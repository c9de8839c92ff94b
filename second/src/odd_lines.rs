//! Lines at the edge of what the line interface takes, on both sides of it.

use crate::bench::{LONGEST_HEX, LONGEST_LINE};
use crate::rng::Rng;

const FIXED: &[&[u8]] = &[
    b"",
    b"   ",
    b"\t",
    b" \t \t",
    b"#",
    b"# a comment",
    b"  # a comment behind spaces",
    b"# \x00 NUL and \xff in a comment",
    b"free",
    b"free # the number of free labels",
    b"free#",
    b"free#1",
    b"fr#ee",
    b"\tfree\t",
    b"  free  ",
    b"free free",
    b"free 1",
    b"free\r",
    b"\rfree",
    b"free\x00",
    b"\x00",
    b"free \x00",
    b"free\x0b",
    b"free\x0c",
    b"\xc2\xa0free",
    b"free\xff",
    b"Free",
    b"FREE",
    b"fre",
    b"frees",
    b"?",
    b"? 1",
    b"help",
    b"take",
    b"take 1",
    b"take 1 00 00",
    b"take 00",
    b"take 1 0",
    b"take 1 040",
    b"take 1 0g",
    b"take 1 0x00",
    b"take 1 -",
    b"take 1 --",
    b"take 1 -0",
    b"take 1 0-",
    b"take - 00",
    b"take -1 00",
    b"take +1 00",
    b"take one 00",
    b"take 1 00#22",
    b"take 1 #00",
    b"take 1 0#0",
    b"take\t1\t\t00",
    b"take 1 04 00",
    b"take 16 -",
    b"take 0016 -",
    b"take 4294967295 00",
    b"take 4294967296 00",
    b"take 18446744073709551616 00",
    b"take 18446744073709551617 -",
    b"take 000000000000000000000000000000001 -",
    b"TAKE 1 00",
    b"join",
    b"join -",
    b"join 0",
    b"join 06 00",
    b"join 6",
    b"leave",
    b"leave -",
    b"leave 0600010",
    b"leave - -",
    b"route",
    b"route c0000201",
    b"route c0000201 18",
    b"route c0000201 4294967295",
    b"route c0000201 4294967296",
    b"route c0000201 -",
    b"route c0000201 +1",
    b"route c0000201 1 1",
    b"route C0000201 00000",
    b"route c0000201 99999999999999999999",
    b"route c000020 1",
    b"route c00002 1",
    b"route - 1",
    b"route - 18",
    b"route 1 c0000201",
    b"label",
    b"label -",
    b"label 16 16",
    b"label 0016",
    b"label 0x10",
    b"label 1e3",
    b"label 16.",
    b"label 4294967295",
    b"label 4294967296",
    b"label 4294967312",
    b"label 42949672950",
    b"label 18446744073709551632",
    b"label +16",
    b"label -16",
    b"label \xef\xbc\x91\xef\xbc\x96",
    b"label 1 6",
    b"label 16#17",
    b"label 16\r",
    b"label\x0016",
    b"tree",
    b"tree -",
    b"tree 0",
    b"tree 06",
    b"tree - -",
    b"tree zz",
    b"notice",
    b"notice 1",
    b"notice 1 2",
    b"notice 1 2 00",
    b"notice 1 2 00 00",
    b"notice 1 2 -",
    b"notice 1 2 --",
    b"notice 1 2 -0",
    b"notice 1 2 0",
    b"notice 1 2 0g",
    b"notice 1 2 0x00",
    b"notice 1 2 00#00",
    b"notice 1 2 #00",
    b"notice 1 2# 00",
    b"notice - 2 00",
    b"notice 1 - 00",
    b"notice -1 2 00",
    b"notice 1 -2 00",
    b"notice +1 2 00",
    b"notice 1 +2 00",
    b"notice one 2 00",
    b"notice 1 two 00",
    b"notice 1 2 04000004000000",
    b"notice 1 2 0400000400000007",
    b"notice 15 2 A4000004FFfFfffF",
    b"notice 16 2 0400000400000007",
    b"notice 0015 0002 -",
    b"notice 0000000000000000000000000000000015 00000000000000000000000000000000002 -",
    b"notice 4294967295 2 00",
    b"notice 4294967296 2 00",
    b"notice 4294967297 2 00",
    b"notice 1 4294967295 00",
    b"notice 1 4294967296 00",
    b"notice 1 4294967298 00",
    b"notice 1 18446744073709551618 00",
    b"notice 00 2 1",
    b"notice c0000201 1 2",
    b"notice 1 c0000201 2",
    b"notice\t1\t\t2 00",
    b"notice 1 2 00\r",
    b"notice 1 2\x00 00",
    b"notice\x001 2 00",
    b"notice 1 2 0400 0004",
    b"Notice 1 2 00",
    b"NOTICE 1 2 00",
    b"notic 1 2 00",
    b"notices 1 2 00",
    b"notify 1 2 00",
    b"take 1 2 00",
    b"save",
    b"save # the table",
    b"\tsave ",
    b"save 1",
    b"save -",
    b"save 4c53",
    b"save\r",
    b"save\x00",
    b"Save",
    b"SAVE",
    b"sav",
    b"saves",
    b"saved",
    b"sa#ve",
    b"restore",
    b"restore -",
    b"restore --",
    b"restore - -",
    b"restore 0",
    b"restore 4c5",
    b"restore 4c5301",
    b"restore 4c 53",
    b"restore 4g",
    b"restore 0x4c",
    b"restore 1 4c53",
    b"restore 4c53#01",
    b"restore #4c",
    b"restore 4c5301000000100000000100000000",
    b"restore\t\t4C530100000010FFffFFff00000000 # a fresh card, its next identifier the highest",
    b"restore 4c53010000001000000001000000000",
    b"restore 4c530100000010000000010000000000",
    b"restore 4c5301000000100000000100000000 16",
    b"restore 4c53010000000f0000000100000000",
    b"restore 4c5301000fff000000000000000000",
    b"restore 4c5301000fff010000000100000000",
    b"Restore 4c5301000000100000000100000000",
    b"RESTORE -",
    b"restor -",
    b"restores -",
    b"restored 4c",
    b"save2",
    b"\tsave2 # form two",
    b"save2 1",
    b"save2 -",
    b"save 2",
    b"save02",
    b"save1",
    b"save3",
    b"Save2",
    b"save2\r",
    b"restore2",
    b"restore2 -",
    b"restore2 --",
    b"restore2 - -",
    b"restore2 0",
    b"restore2 4c5",
    b"restore2 4g",
    b"restore 2 4c5305",
    b"restore1 4c5301000000100000000100000000",
    b"restore2 4c5301000000100000000100000000",
    b"restore2 4c530500000010000000010000000000000000",
    b"restore2\t\t4C530500000010FFffFFff0000000000000010 # a fresh card but for the last given",
    b"save2",
    b"restore2 4c53050000001000000001000000000000000f",
    b"restore2 4c530500000010000000010000000000000110",
    b"restore2 4c53050000001000000001000000000000010f",
    b"restore2 4c5305000000100000000100000000000000000",
    b"restore2 4c53050000001000000001000000000000000000",
    b"restore2 4c530500000010000000010000000000000000 16",
    b"restore 4c530500000010000000010000000000000000",
    b"Restore2 4c530500000010000000010000000000000000",
    b"newer",
    b"newer -",
    b"newer - -",
    b"newer 4c5",
    b"newer 4c5301000000100000000100000000",
    b"newer\t4C53010000001000000001 00000000",
    b"newer 4C5301000000100000000100000000 # none was given",
    b"newer 4c530500000010000000010000000000000000",
    b"Newer 4c5301000000100000000100000000",
    b"new 4c5301000000100000000100000000",
    b"newer2 4c5301000000100000000100000000",
    b"older",
    b"older -",
    b"older 4c53 05",
    b"older 4c530",
    b"older 4c530500000010000000010000000000000000",
    b"older 4C530500000010000000010000000000000111",
    b"older 4c5305000FFF00000000010000000000000000",
    b"older 4c5305000FFF01000000010000000000000000",
    b"older 4c530500000010000000010000000000000080 # at rest",
    b"older 4c5301000000100000000100000000",
    b"older 4c530500000010000000010000000000000000 1",
    b"OLDER -",
    b"old -",
    b"free",
    b"save",
    b"layers",
    b"layers -",
    b"layers 06 00",
    b"layers 0",
    b"layers 06000104c00002010003010000",
    b"\tLayers 06000104c00002010003010000",
    b"layers 06000104C00002010003010000 # the first",
    b"wrap",
    b"wrap c0000201",
    b"wrap c0000201 -",
    b"wrap c0000201 - -",
    b"wrap - - -",
    b"wrap c0000201 - 06000104c00002010003010000",
    b"wrap c0000201 -- 06000104c00002010003010000",
    b"wrap c0000201 06000104c00002010003010000",
    b"wrap c0000201 0001020304050607 06000104c00002010003010000",
    b"wrap c0000201 00010203040506 06000104c00002010003010000",
    b"wrap c0000201 000102030405060708 06000104c00002010003010000",
    b"wrap c0000201 000102030405060 06000104c00002010003010000",
    b"wrap c0000201 - 06000104c00002010003010000 -",
    b"WRAP c0000201 - 06000104c00002010003010000",
    b"unwrap",
    b"unwrap -",
    b"unwrap 06 00",
    b"unwrap 06000104c00002010003010000",
    b"unwrap 06000104c0000201001007000d06000104c00002010003010000",
    b"unwrap 06000104c0000201001808001500010203040506070600 0104c00002010003010000",
    b"unwrap 06000104c00002010018080015000102030405060706000104c00002010003010000",
    b"Unwrap 06000104c00002010003010000",
    b"octets 1 00",
    b"octets 1 -",
    b"pack 1 -",
    b"plan",
    b"plan 0",
    b"plan 0 -",
    b"plan 16 -",
    b"plan - -",
    b"plan -",
    b"plan 0 00",
    b"plan 0 ffff04c0000201000000000000000000000000",
    b"plan 0 ffff04c00002010000000000000000000000",
    b"plan 0 ffff04c0000201000000000000000000000000 -",
    b"plan 4294967295 -",
    b"plan 4294967296 -",
    b"Plan 0 -",
    b"vet",
    b"vet 0 -",
    b"vet 0 - -",
    b"vet 16 - -",
    b"vet - - -",
    b"vet 0 - - -",
    b"vet 0 00 -",
    b"vet 0 - 00",
    b"vet 0 ffff04c0000201000000000000000000000000 0504c0000201000000000000000000000000",
    b"vet 0 - 0504C0000201000000000000000000000000",
    b"vet 0 - 0504c00002010000000000000000000000",
    b"VET 0 - -",
    b"lost",
    b"lost 0",
    b"lost 15",
    b"lost 16",
    b"\tlost  0015 # gone",
    b"lost -",
    b"lost -1",
    b"lost +1",
    b"lost 1 2",
    b"lost 1#2",
    b"lost x",
    b"lost 0x1",
    b"lost\x001",
    b"lost 1\r",
    b"lost 4294967295",
    b"lost 4294967296",
    b"lost 4294967297",
    b"Lost 1",
    b"LOST 1",
    b"los 1",
    b"loss 1",
    b"lost1",
    b"start",
    b"start -",
    b"start 4294967296",
    b"start 16 16",
    b"start x",
    b"room",
    b"room -",
    b"room 22272 1",
    b"room 4294967295",
    b"room 00022272",
    b"room 22273",
    b"room 4294967296",
    b"room 10000000000",
    b"room -1",
];

const STRANGE: &[u8] = b"\x00\r\x0b\x7f\xff#- \t+0xg.:";

/// Every line of the list, and lines on both sides of each length's edge.
pub fn every_edge() -> Vec<Vec<u8>> {
    let mut lines: Vec<Vec<u8>> = FIXED.iter().map(|line| line.to_vec()).collect();
    for (start, filler, over) in [
        (&b"free #"[..], b'x', 0),
        (b"free #", b'x', 1),
        (b"#", b'#', 1),
        (b"", b' ', 1),
    ] {
        let mut line = start.to_vec();
        line.resize(LONGEST_LINE + over, filler);
        lines.push(line);
    }
    for octets in [LONGEST_HEX, LONGEST_HEX + 1] {
        let hex = "0f".repeat(octets);
        for order in [
            "take 1 HEX",
            "join HEX",
            "leave HEX",
            "tree HEX",
            "route HEX 1",
            "notice 1 2 HEX",
            "unwrap HEX",
        ] {
            lines.push(order.replace("HEX", &hex).into_bytes());
        }
    }
    lines
}

/// `good` is a good line, to be dressed up or spoiled.
pub fn odd_line(rng: &mut Rng, good: &[u8]) -> Vec<u8> {
    match rng.below(60) {
        0..=33 => FIXED[rng.below(FIXED.len())].to_vec(),
        34..=41 => dressed(rng, good),
        42..=50 => spoiled(rng, good),
        51 | 52 => many_octets(rng),
        53..=55 => many_digits(rng),
        56..=58 => junk(rng),
        _ => very_long(rng, good),
    }
}

/// Still good: other spaces, the other case of the hex digits, a comment.
fn dressed(rng: &mut Rng, good: &[u8]) -> Vec<u8> {
    let mut line = vec![b' '; rng.below(3)];
    for &c in good {
        let hex_letter = (b'a'..=b'f').contains(&c) && line.contains(&b'0');
        match c {
            b' ' => line.extend([b' ', b'\t', b' '].iter().take(rng.between(1, 3))),
            _ if hex_letter && rng.percent(50) => line.push(c.to_ascii_uppercase()),
            _ => line.push(c),
        }
    }
    line.extend(b"\t".iter().take(rng.below(2)));
    line.extend(b"# \x00\r\xff".iter().take(rng.below(6)));
    line
}

fn spoiled(rng: &mut Rng, good: &[u8]) -> Vec<u8> {
    let mut line = good.to_vec();
    let place = rng.below(line.len());
    let strange = STRANGE[rng.below(STRANGE.len())];
    match rng.below(4) {
        0 => line[place] = strange,
        1 => line.insert(place, strange),
        2 => drop(line.remove(place)),
        _ => line.truncate(place),
    }
    line
}

/// Octets around the most that are taken.
fn many_octets(rng: &mut Rng) -> Vec<u8> {
    let heads: [&[u8]; 6] = [
        b"take 1 ",
        b"join ",
        b"leave ",
        b"tree ",
        b"route ",
        b"notice 1 2 ",
    ];
    let head = heads[rng.below(heads.len())];
    let octets = rng.between(LONGEST_HEX - 1, LONGEST_HEX + 1);
    let mut line = head.to_vec();
    line.resize(head.len() + 2 * octets - usize::from(rng.percent(10)), b'0');
    if head == b"route " {
        line.extend(b" 1");
    }
    line
}

/// Leading zeros as many as anyone likes, then a number near an edge.
fn many_digits(rng: &mut Rng) -> Vec<u8> {
    let words: [&[u8]; 3] = [b"label ", b"room ", b"label "];
    let numbers: [&[u8]; 5] = [b"16", b"4294967295", b"4294967296", b"22272", b"0"];
    let mut line = words[rng.below(words.len())].to_vec();
    line.resize(line.len() + rng.below(60), b'0');
    line.extend(numbers[rng.below(numbers.len())]);
    line
}

fn junk(rng: &mut Rng) -> Vec<u8> {
    let length = rng.between(1, 30);
    let mut line = rng.octets(length);
    line.retain(|&c| c != b'\n');
    line
}

/// Lines around the longest taken, otherwise good, blank or bad.
fn very_long(rng: &mut Rng, good: &[u8]) -> Vec<u8> {
    let starts: [&[u8]; 5] = [good, b"# ", b"", b"free # ", b"take 1 "];
    let fillers = [b' ', b'#', b'\t', b'0', b'x'];
    let mut line = starts[rng.below(starts.len())].to_vec();
    let lengths = [LONGEST_LINE - 1, LONGEST_LINE, LONGEST_LINE + 1, 70_001];
    line.resize(
        lengths[rng.below(lengths.len())],
        fillers[rng.below(fillers.len())],
    );
    line
}
