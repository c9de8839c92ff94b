use super::*;
use crate::rng::Rng;

const FROM: [u8; 6] = [192, 0, 2, 3, 0, 0];

/// A message of type 9 with so many octets, 4 or more.
fn message(length: usize) -> Vec<u8> {
    let mut octets = vec![0, 9];
    octets.extend(((length - 4) as u16).to_be_bytes());
    octets.resize(length, 7);
    octets
}

fn pdu(lengths: &[usize]) -> Vec<u8> {
    let messages: Vec<u8> = lengths.iter().flat_map(|n| message(*n)).collect();
    write(FROM, &messages)
}

/// The lengths of the messages that come out, and the stream as it is left.
fn fed(stream: &mut Stream, octets: &[u8]) -> Vec<usize> {
    let mut lengths = Vec::new();
    let mut rest = octets;
    while !rest.is_empty() || stream.holds_message() {
        let call = stream.offer(rest, LEAST_ROOM, |message| {
            lengths.push(message.len());
            Ok(Vec::new())
        });
        rest = &rest[call.eaten..];
    }
    lengths
}

fn fresh() -> Stream {
    Stream::new(FROM)
}

#[test]
fn sizes() {
    assert_eq!((LEAST_ROOM, SHORTEST, LONGEST), (348, 14, 4096));
}

#[test]
fn octets_of_a_pdu() {
    let octets = pdu(&[8]);
    assert_eq!(
        octets,
        [0, 1, 0, 14, 192, 0, 2, 3, 0, 0, 0, 9, 0, 4, 7, 7, 7, 7]
    );
}

#[test]
fn messages_come_one_a_call() {
    let mut stream = fresh();
    let mut octets = pdu(&[8, 20, 9]);
    octets.extend(pdu(&[4090]));
    let mut taken = Vec::new();
    let mut eaten = Vec::new();
    let mut rest = &octets[..];
    for _ in 0..4 {
        let call = stream.offer(rest, LEAST_ROOM, |message| {
            taken.push(message.len());
            Ok(vec![1])
        });
        eaten.push(call.eaten);
        rest = &rest[call.eaten..];
    }
    assert_eq!(taken, [8, 20, 9, 4090]);
    // Each PDU by itself, 47 octets and 4100.
    assert_eq!(eaten, [47, 0, 0, 4100]);
    assert_eq!(stream, fresh());
}

#[test]
fn heads_that_stop_the_stream() {
    let good = pdu(&[8]);
    for (place, octet) in [
        (0, 1),
        (1, 0),
        (1, 2),
        (3, 13),
        (3, 0),
        (2, 0x11),
        (4, 193),
        (7, 4),
        (9, 1),
    ] {
        let mut octets = good.clone();
        octets[place] = octet;
        let mut stream = fresh();
        assert_eq!(fed(&mut stream, &octets), [], "{place}");
        assert_eq!(fed(&mut stream, &good), []);
        assert_eq!(
            stream.offer(&[0; 9000], LEAST_ROOM, |_| Ok(vec![])).eaten,
            9000
        );
        stream.empty();
        assert_eq!(fed(&mut stream, &good), [8]);
    }
}

#[test]
fn lengths_at_their_edges() {
    for (length, taken) in [(13, false), (14, true), (4096, true), (4097, false)] {
        let mut octets = pdu(&[8]);
        octets[2..4].copy_from_slice(&(length as u16).to_be_bytes());
        let mut stream = fresh();
        assert_eq!(!fed(&mut stream, &octets).is_empty(), taken, "{length}");
    }
}

#[test]
fn messages_that_run_past() {
    // One octet more than the PDU has, and 1 to 3 octets left in it.
    for (lengths, over, first) in [(&[9][..], 1, &[][..]), (&[8, 9], 1, &[8])] {
        let mut octets = pdu(lengths);
        octets[3] -= over;
        let mut stream = fresh();
        assert_eq!(fed(&mut stream, &octets), first);
        assert_eq!(fed(&mut stream, &pdu(&[8])), []);
    }
    for left in 1..=3 {
        let mut octets = pdu(&[8]);
        octets[3] += left;
        let mut stream = fresh();
        assert_eq!(fed(&mut stream, &octets), [8]);
        assert!(stream.stopped);
    }
    // Four octets are a message, if a bad one.
    assert_eq!(fed(&mut fresh(), &pdu(&[8, 4, 7])), [8, 4, 7]);
}

#[test]
fn room_below_348_is_refused_20() {
    for room in [0, 347] {
        let mut stream = fresh();
        let call = stream.offer(&pdu(&[8]), room, |_| panic!("no message is taken"));
        assert_eq!(call, Call::refused(Refusal::Unfit));
        assert_eq!((call.answer, call.eaten), (20, 0));
        assert_eq!(stream, fresh());
    }
}

/// However the stream is cut, messages and end state are the same.
#[test]
fn cuts_do_not_matter() {
    let mut rng = Rng::new(5);
    for _ in 0..400 {
        let mut octets = Vec::new();
        for _ in 0..rng.between(1, 6) {
            let longest = [12, 60, 900][rng.below(3)];
            let lengths: Vec<usize> = (0..rng.between(1, 4))
                .map(|_| rng.between(4, longest))
                .collect();
            octets.extend(pdu(&lengths));
        }
        if rng.percent(60) {
            let place = rng.below(octets.len());
            octets[place] = rng.next() as u8;
        }
        octets.truncate(rng.between(1, octets.len()));
        let mut whole = fresh();
        let lengths = fed(&mut whole, &octets);
        for most in [1, 7, 300, 5000] {
            let (mut stream, mut cut) = (fresh(), Vec::new());
            let mut rest = &octets[..];
            while !rest.is_empty() {
                let (part, after) = rest.split_at(rng.between(1, most).min(rest.len()));
                cut.extend(fed(&mut stream, part));
                rest = after;
            }
            assert_eq!((&cut, &stream), (&lengths, &whole));
        }
    }
}

/// A call eats to the end of the PDU, and no octet more.
#[test]
fn a_pdu_is_eaten_by_itself() {
    let octets = [pdu(&[8]), pdu(&[30])].concat();
    for cut in 0..octets.len() {
        let mut stream = fresh();
        stream.offer(&octets[..cut.min(18)], LEAST_ROOM, |_| Ok(vec![]));
        let call = stream.offer(&octets[cut.min(18)..], LEAST_ROOM, |_| Ok(vec![]));
        let whole = if cut < 18 { 18 - cut } else { 40 };
        assert_eq!(call.eaten, whole, "{cut}");
    }
}

/// All that is offered is eaten by the call that stops the stream, also behind
/// a message.
#[test]
fn a_stopping_call_eats_all() {
    let mut behind = pdu(&[8, 8]);
    behind[3] -= 1;
    let mut version = pdu(&[8]);
    version[1] = 2;
    for (octets, messages) in [(behind, 1), (version, 0)] {
        let offered = [&octets[..], &pdu(&[9])].concat();
        let (mut stream, mut taken) = (fresh(), 0);
        let call = stream.offer(&offered, LEAST_ROOM, |_| {
            taken += 1;
            Ok(vec![])
        });
        assert_eq!((call.eaten, taken), (offered.len(), messages));
        assert!(stream.is_stopped());
    }
}

fn record(neighbour: u32, length: usize) -> Vec<u8> {
    crate::wire::write_record(neighbour, &message(length))
}

#[test]
fn packing() {
    let own = identifier(254);
    let pack = |records: &[Vec<u8>], room| pack(own, 3, &records.concat(), room);
    assert_eq!(pack(&[], 0), Ok(vec![]));
    assert_eq!(pack(&[record(2, 8)], 0), Ok(vec![]));
    let two = [record(3, 8), record(1, 9), record(3, 10)];
    let octets = [
        &[0, 1, 0, 24, 192, 0, 2, 254, 0, 0][..],
        &message(8),
        &message(10),
    ]
    .concat();
    assert_eq!(pack(&two, 28), Ok(octets));
    assert_eq!(pack(&two, 27), Err(Refusal::Room));
    for (last, pdus) in [(90, 1), (91, 2)] {
        let records = [record(3, 4000), record(3, last)];
        let octets = pack(&records, 9000).expect("there is room");
        assert_eq!(octets.len(), 10 * pdus + 4000 + last);
    }
    let two = two.concat();
    assert_eq!(super::pack(own, 16, &two, 0), Err(Refusal::Neighbour));
    assert_eq!(super::pack(own, 15, &two, 0), Ok(vec![]));
}

/// What is packed is read again, message by message.
#[test]
fn packed_messages_are_read() {
    let records = (0..300).flat_map(|n| record(n % 2, 8 + n as usize));
    let records: Vec<u8> = records.collect();
    let octets = pack(FROM, 1, &records, 100_000).expect("there is room");
    let lengths: Vec<usize> = (0..300).filter(|n| n % 2 == 1).map(|n| 8 + n).collect();
    assert_eq!(fed(&mut fresh(), &octets), lengths);
}

#[test]
fn records_are_cut() {
    let heads = |octets: &[u8]| -> Vec<(u32, usize)> {
        let records = cut_records(octets).into_iter();
        records.map(|r| (r.neighbour, r.message.len())).collect()
    };
    let octets = [record(3, 8), record(256, 4090)].concat();
    assert_eq!(heads(&octets), [(3, 8), (256, 4090)]);
    for length in 0..octets.len() {
        assert_eq!(
            cut_records(&octets[..length]).len(),
            usize::from(length >= 12)
        );
    }
    let mut marked = octets.clone();
    marked[12] = 0;
    for spoiled in [record(3, 7), record(3, 4091), marked[12..].to_vec()] {
        let ended = [record(3, 8), spoiled, record(3, 9)].concat();
        assert_eq!(heads(&ended), [(3, 8)]);
    }
}
