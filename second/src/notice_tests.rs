use super::*;

/// A message with no TLV: type 0x0402, length 4, identifier 0xa1b2c3d4.
const REFUSED: [u8; 8] = [0x04, 0x02, 0, 4, 0xa1, 0xb2, 0xc3, 0xd4];

/// The record for it to neighbour 15 with identifier 0x01020304, octet by octet.
fn record(code: [u8; 4]) -> Vec<u8> {
    let mut octets = vec![
        0x4c, 0x44, 0, 15, // mark, neighbour
        0, 1, 0, 18, 1, 2, 3, 4, // Notification, length, identifier
        3, 0, 0, 10, // Status TLV, length
    ];
    octets.extend(code);
    octets.extend([0xa1, 0xb2, 0xc3, 0xd4, 0x04, 0x02]);
    octets
}

fn due(number: u32, octets: &[u8]) -> Option<Vec<u8>> {
    Notice::due(15, 0x0102_0304, number, octets).map(|notice| notice.write())
}

fn copied(number: u32, octets: &[u8]) -> Option<(u32, u16)> {
    Notice::due(1, 1, number, octets).map(|n| (n.refused_identifier, n.refused_code))
}

fn with(place: usize, value: u8) -> Vec<u8> {
    let mut octets = record([0x80, 0, 0, 5]);
    octets[place] = value;
    octets
}

fn refusal(octets: &[u8]) -> u8 {
    Notice::read(octets).err().map_or(0, Refusal::number)
}

#[test]
fn a_row_for_each_refusal() {
    let none: Option<[u8; 4]> = None;
    for (number, code) in [
        (0, none),
        (1, none),
        (2, Some([0x80, 0, 0, 0x05])),
        (3, Some([0, 0, 0, 0x04])),
        (4, Some([0x80, 0, 0, 0x07])),
        (5, Some([0, 0, 0, 0x16])),
        (6, Some([0, 0, 0, 0x0c])),
        (7, Some([0, 0, 0, 0x0c])),
        (8, Some([0x80, 0, 0, 0x08])),
        (9, Some([0, 0, 0, 0x06])),
        (10, none),
        (11, Some([0, 0, 0, 0x0e])),
        (12, Some([0, 0, 0, 0x0e])),
        (13, none),
        (14, none),
        (15, none),
        (16, none),
        (17, none),
        (18, Some([0, 0, 0, 0x0c])),
        (19, none),
        (21, none),
        (258, none),
        (u32::MAX, none),
    ] {
        assert_eq!(due(number, &REFUSED), code.map(record), "{number}");
    }
}

#[test]
fn copies_from_8_octets_on() {
    for length in 0..8 {
        assert_eq!(copied(2, &REFUSED[..length]), Some((0, 0)), "{length}");
    }
    assert_eq!(copied(2, &REFUSED), Some((0xa1b2_c3d4, 0x0402)));
    let longer = [&REFUSED[..], &[9; 40]].concat();
    assert_eq!(copied(2, &longer), Some((0xa1b2_c3d4, 0x0402)));
    assert_eq!(copied(4, &[255; 8]), Some((u32::MAX, 0xffff)));
}

#[test]
fn the_u_bit_silences_3_alone() {
    let code = |code: [u8; 2]| [&code[..], &REFUSED[2..]].concat();
    for (octets, told) in [
        (code([0x04, 0x01]), true),
        (code([0x7f, 0xff]), true),
        (code([0x80, 0x00]), false),
        (code([0x84, 0x00]), false),
        (code([0xff, 0xff]), false),
    ] {
        assert_eq!(due(3, &octets).is_some(), told);
        assert!(due(2, &octets).is_some() && due(5, &octets).is_some());
        assert_eq!(due(10, &octets), None);
    }
    // below 8 octets the type counts as 0, whatever stands there
    assert_eq!(copied(3, &[0x84, 0, 0, 4, 0, 0, 0]), Some((0, 0)));
    assert_eq!(copied(3, &[0x84, 0, 0, 4, 0, 0, 0, 0]), None);
}

#[test]
fn reads_back_what_it_wrote() {
    let heads: [&[u8]; 4] = [&[], &REFUSED[..7], &REFUSED, &[0xff; 60]];
    for (number, neighbour) in (0..=22).flat_map(|n| [(n, 0), (n, 15)]) {
        for (octets, identifier) in heads.iter().flat_map(|o| [(o, 0), (o, u32::MAX)]) {
            let Some(notice) = Notice::due(neighbour, identifier, number, octets) else {
                continue;
            };
            assert_eq!(notice.write().len(), RECORD);
            assert_eq!(Notice::read(&notice.write()), Ok(notice));
        }
    }
    assert_eq!(
        Notice::read(&record([0x80, 0, 0, 5])),
        Ok(Notice {
            neighbour: 15,
            identifier: 0x0102_0304,
            status: 5,
            refused_identifier: 0xa1b2_c3d4,
            refused_code: 0x0402,
        })
    );
}

#[test]
fn refuses_21() {
    let whole = record([0x80, 0, 0, 5]);
    assert_eq!(refusal(&whole), 0);
    for octets in [&[][..], &whole[..25], &[&whole[..], &[0]].concat()] {
        assert_eq!(refusal(octets), 21);
    }
    let fixed = [0, 1, 2, 4, 5, 6, 7, 12, 13, 14, 15, 16, 17, 18];
    for place in fixed {
        for bit in 0..8 {
            assert_eq!(refusal(&with(place, whole[place] ^ 1 << bit)), 21);
        }
    }
    for place in [8, 9, 10, 11, 20, 21, 22, 23, 24, 25] {
        assert_eq!(refusal(&with(place, whole[place] ^ 0xff)), 0, "{place}");
    }
    assert_eq!((refusal(&with(3, 0)), refusal(&with(3, 16))), (0, 21));
}

#[test]
fn reads_each_status_with_its_own_bits() {
    for status in 0..=255 {
        let clear = refusal(&record([0, 0, 0, status])) == 0;
        let e_bit = refusal(&record([0x80, 0, 0, status])) == 0;
        let f_bit = refusal(&record([0x40, 0, 0, status])) == 0;
        let both = refusal(&record([0xc0, 0, 0, status])) == 0;
        assert_eq!(clear, [4, 6, 12, 14, 22].contains(&status), "{status}");
        assert_eq!(e_bit, [5, 7, 8].contains(&status), "{status}");
        assert!(!f_bit && !both, "{status}");
    }
}

#[test]
fn an_unknown_type_is_never_one_with_the_u_bit() {
    for (status, code, number) in [(4, 0x7f, 0), (4, 0x80, 21), (6, 0x80, 0), (22, 0xff, 0)] {
        let mut octets = record([0, 0, 0, status]);
        octets[24] = code;
        assert_eq!(refusal(&octets), number);
    }
}
