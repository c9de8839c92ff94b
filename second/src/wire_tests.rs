use super::*;
use crate::formed;

/// Mapping <A, 100>, A being root 192.0.2.1 with opaque 01 00 04 00 00 00 07.
const MAPPING_A: [u8; 37] = [
    0x04, 0x00, 0x00, 0x21, 0, 0, 0, 9, // head
    0x01, 0x00, 0x00, 0x11, 6, 0, 1, 4, 192, 0, 2, 1, 0, 7, 1, 0, 4, 0, 0, 0, 7, // FEC
    0x02, 0x00, 0x00, 0x04, 0, 0, 0, 100, // label
];

fn tree_a() -> TreeName {
    TreeName {
        root: vec![192, 0, 2, 1],
        opaque: vec![1, 0, 4, 0, 0, 0, 7],
    }
}

fn with(place: usize, value: u8) -> Vec<u8> {
    let mut octets = MAPPING_A.to_vec();
    octets[place] = value;
    octets
}

fn framed(tlvs: &[(u16, &[u8])]) -> Vec<u8> {
    let octets: Vec<u8> = tlvs
        .iter()
        .flat_map(|(field, value)| write_tlv(*field, value))
        .collect();
    write_frame(0x0400, 1, &octets)
}

fn with_further(field: u16, value: &[u8]) -> Vec<u8> {
    let element = write_element(&tree_a());
    framed(&[
        (FEC, &element),
        (GENERIC_LABEL, &[0, 0, 0, 100]),
        (field, value),
    ])
}

fn with_label(value: &[u8]) -> Vec<u8> {
    let element = write_element(&tree_a());
    framed(&[(FEC, &element), (GENERIC_LABEL, value)])
}

fn with_element(element: &[u8]) -> Vec<u8> {
    framed(&[(FEC, element), (GENERIC_LABEL, &[0, 0, 0, 100])])
}

fn refusal(octets: &[u8]) -> u8 {
    read_message(octets).err().map_or(0, Refusal::number)
}

fn element_refusal(octets: &[u8]) -> u8 {
    read_element(octets).err().map_or(0, Refusal::number)
}

/// One element, or octets that are none where they are too few.
fn of_length(length: usize) -> Vec<u8> {
    if length < formed::SHORTEST {
        return vec![2; length];
    }
    formed::single(2, length, 2)
}

fn element_of(root: usize, opaque: usize) -> Vec<u8> {
    write_element(&TreeName {
        root: vec![1; root],
        opaque: of_length(opaque),
    })
}

#[test]
fn reads_and_writes_the_same_octets() {
    let message = read_message(&MAPPING_A).expect("it is whole");
    assert_eq!(message.kind, Kind::Mapping);
    assert_eq!(message.name, tree_a());
    assert_eq!(message.label, 100);
    assert_eq!(write_message(Kind::Mapping, 9, &tree_a(), 100), MAPPING_A);
    assert_eq!(
        write_record(3, &MAPPING_A)[..6],
        [0x4c, 0x44, 0, 3, 0x04, 0]
    );
}

#[test]
fn lengths_are_those_of_the_requirement() {
    for opaque in formed::SHORTEST..=LONGEST_OPAQUE {
        for (root, fixed) in [(4, 30), (16, 42)] {
            let name = TreeName {
                root: vec![1; root],
                opaque: of_length(opaque),
            };
            let message = write_message(Kind::Release, 7, &name, 1_048_575);
            assert_eq!(message.len(), fixed + opaque);
            assert_eq!(read_message(&message).expect("it is whole").name, name);
        }
    }
    assert_eq!((LONGEST_OPAQUE, LONGEST_RECORD), (128, 174));
}

#[test]
fn refuses_2() {
    assert_eq!(refusal(&[]), 2);
    assert_eq!(refusal(&[0x04, 0, 0, 3, 0, 0, 0]), 2);
    assert_eq!(refusal(&with(3, 0x20)), 2);
    assert_eq!(refusal(&with(3, 0x22)), 2);
    assert_eq!(refusal(&with(2, 1)), 2);
    assert_eq!(refusal(&MAPPING_A[..36]), 2);
}

#[test]
fn refuses_3() {
    for (high, low) in [(4, 1), (4, 4), (0x84, 0), (0, 0), (3, 0)] {
        let mut octets = with(0, high);
        octets[1] = low;
        assert_eq!(refusal(&octets), 3);
    }
    assert_eq!(refusal(&with(1, 2)), 0);
    assert_eq!(refusal(&with(1, 3)), 0);
}

#[test]
fn refuses_4_before_5() {
    for cut in 1..4 {
        let mut octets = framed(&[(0x0300, &[])]);
        octets.truncate(8 + cut);
        octets[3] = 4 + cut as u8;
        assert_eq!(refusal(&octets), 4);
    }
    let mut past_the_end = with_further(0x8001, &[1, 2]);
    past_the_end[8] = 0x7f;
    assert_eq!(refusal(&past_the_end), 5);
    let last = past_the_end.len() - 3;
    past_the_end[last] = 3;
    assert_eq!(refusal(&past_the_end), 4);
    assert_eq!(refusal(&with(11, 0x12)), 4);
    assert_eq!(refusal(&with(32, 5)), 4);
}

#[test]
fn refuses_5() {
    let element = write_element(&tree_a());
    let label: &[u8] = &[0, 0, 0, 100];
    assert_eq!(refusal(&framed(&[])), 5);
    assert_eq!(refusal(&framed(&[(FEC, &element)])), 5);
    assert_eq!(
        refusal(&framed(&[(GENERIC_LABEL, label), (FEC, &element)])),
        5
    );
    assert_eq!(
        refusal(&framed(&[
            (FEC, &element),
            (0x8001, &[]),
            (GENERIC_LABEL, label)
        ])),
        5
    );
    for place in [8, 29] {
        assert_eq!(refusal(&with(place, MAPPING_A[place] | 0x80)), 5);
        assert_eq!(refusal(&with(place, MAPPING_A[place] | 0x40)), 5);
    }
}

#[test]
fn refuses_6() {
    let element = write_element(&tree_a());
    for place in 0..4 {
        let mut other = element.clone();
        other[place] ^= 1;
        assert_eq!(refusal(&with_element(&other)), 6);
    }
    for length in 0..element.len() {
        assert_eq!(refusal(&with_element(&element[..length])), 6);
    }
    assert_eq!(
        refusal(&with_element(&[element.clone(), element.clone()].concat())),
        6
    );
    assert_eq!(refusal(&with_element(&[&element[..], &[0]].concat())), 6);
    assert_eq!(element_refusal(&element), 0);
    let mut family_2_of_4 = element_of(4, 7);
    family_2_of_4[2] = 2;
    assert_eq!(element_refusal(&family_2_of_4), 6);
    let mut family_1_of_16 = element_of(16, 7);
    family_1_of_16[2] = 1;
    assert_eq!(element_refusal(&family_1_of_16), 6);
}

#[test]
fn refuses_7() {
    for root in [4, 16] {
        assert_eq!(element_refusal(&element_of(root, 0)), 7);
        assert_eq!(element_refusal(&element_of(root, 3)), 0);
        assert_eq!(element_refusal(&element_of(root, 128)), 0);
        assert_eq!(element_refusal(&element_of(root, 129)), 7);
        assert_eq!(element_refusal(&element_of(root, 257)), 7);
    }
    let mut not_filled = element_of(4, 129);
    not_filled.pop();
    assert_eq!(element_refusal(&not_filled), 6);
}

#[test]
fn refuses_18() {
    for (opaque, formed) in formed::VALUES {
        for root in [4, 16] {
            let element = write_element(&TreeName {
                root: vec![1; root],
                opaque: opaque.to_vec(),
            });
            let number = if formed { 0 } else { 18 };
            assert_eq!(element_refusal(&element), number, "{opaque:?}");
            assert_eq!(refusal(&with_element(&element)), number);
            // 6 and 7 come before it, 8 and 9 behind.
            assert_eq!(element_refusal(&element[..element.len() - 1]), 6);
            let bad_label = framed(&[(FEC, &element), (GENERIC_LABEL, &[])]);
            assert_eq!(refusal(&bad_label), if formed { 8 } else { 18 });
        }
    }
    let too_long = write_element(&TreeName {
        root: vec![1; 4],
        opaque: vec![7; LONGEST_OPAQUE + 1],
    });
    assert_eq!(element_refusal(&too_long), 7);
}

#[test]
fn refuses_8() {
    let labels: [(u32, u8); 6] = [
        (0, 8),
        (15, 8),
        (16, 0),
        (1_048_575, 0),
        (1_048_576, 8),
        (u32::MAX, 8),
    ];
    for (label, number) in labels {
        assert_eq!(refusal(&with_label(&label.to_be_bytes())), number);
    }
    for value in [&[][..], &[0, 0, 16], &[0, 0, 0, 0, 16]] {
        assert_eq!(refusal(&with_label(value)), 8);
    }
    assert_eq!(
        refusal(&framed(&[(FEC, &element_of(4, 129)), (GENERIC_LABEL, &[])])),
        7
    );
}

#[test]
fn refuses_9() {
    for (field, number) in [
        (0x0001, 9),
        (0x4001, 9),
        (0x0100, 9),
        (0x8001, 0),
        (0xc001, 0),
        (0x8200, 0),
    ] {
        assert_eq!(refusal(&with_further(field, &[])), number);
        assert_eq!(refusal(&with_further(field, &[1, 2, 3])), number);
    }
    let mut bad_label_too = with_further(0x0001, &[]);
    bad_label_too[36] = 15;
    assert_eq!(refusal(&bad_label_too), 8);
}
