use super::*;
use crate::bench::answer_number;
use crate::formed;
use crate::rng::Rng;
use crate::wire::write_opaque_element as held;

const ANY_ROOM: usize = 1000;

fn name(root: usize, opaque: &[u8]) -> Vec<u8> {
    wire::write_element(&TreeName {
        root: vec![1; root],
        opaque: opaque.to_vec(),
    })
}

fn around(root: usize, eight: usize) -> Layer {
    Layer {
        root: vec![2; root],
        eight: vec![3; eight],
    }
}

fn wrap_number(layer: &Layer, element: &[u8], room: usize) -> u8 {
    answer_number(&wrap(layer, element, room))
}

fn unwrap_number(element: &[u8], room: usize) -> u8 {
    answer_number(&unwrap(element, room))
}

#[test]
fn octets_of_a_wrapped_name() {
    let inner = [6, 0, 1, 4, 1, 1, 1, 1, 0, 3, 9, 0, 0];
    assert_eq!(name(4, &[9, 0, 0]), inner);
    let head = [6, 0, 1, 4, 2, 2, 2, 2, 0, 16, 7, 0, 13];
    let wrapped = wrap(&around(4, 0), &inner, ANY_ROOM);
    assert_eq!(wrapped, Ok([&head[..], &inner].concat()));
    let head = [6, 0, 1, 4, 2, 2, 2, 2, 0, 24, 8, 0, 21];
    let wrapped = wrap(&around(4, 8), &inner, ANY_ROOM);
    assert_eq!(wrapped, Ok([&head[..], &[3; 8], &inner].concat()));
}

#[test]
fn wrapping_and_unwrapping_are_inverse() {
    let mut rng = Rng::new(1);
    for (root, outer, eight) in [(4, 4, 0), (4, 16, 8), (16, 4, 8), (16, 16, 0)] {
        for length in 3..100 {
            let element = name(root, &formed::any(&mut rng, length));
            let layer = around(outer, eight);
            let fits = ELEMENT_HEAD + eight + element.len() <= 128;
            let wrapped = wrap(&layer, &element, ANY_ROOM);
            assert_eq!(answer_number(&wrapped), if fits { 0 } else { 7 });
            let Ok(wrapped) = wrapped else { continue };
            assert_eq!(
                unwrap(&wrapped, ANY_ROOM),
                Ok((element.clone(), layer.clone()))
            );
            let (mut layers, innermost) = read(&wrapped).expect("it is a name");
            assert_eq!(layers.remove(0), layer);
            assert_eq!(Ok((layers, innermost)), read(&element));
            assert_eq!(wrap_number(&layer, &element, wrapped.len()), 0);
            assert_eq!(wrap_number(&layer, &element, wrapped.len() - 1), 16);
            assert_eq!(unwrap_number(&wrapped, element.len()), 0);
            assert_eq!(unwrap_number(&wrapped, element.len() - 1), 16);
        }
    }
}

#[test]
fn layer_by_layer() {
    let innermost = name(4, &[1, 0, 4, 0, 0, 0, 7]);
    let outer = [around(4, 8), around(16, 0), around(4, 0)];
    let mut element = innermost.clone();
    for layer in outer.iter().rev() {
        element = wrap(layer, &element, ANY_ROOM).expect("it is short");
    }
    let (layers, last) = read(&element).expect("it is a name");
    assert_eq!(layers, outer);
    assert_eq!(wire::write_element(&last), innermost);
}

#[test]
fn last_layers() {
    let inner = name(4, &[9, 0, 0]);
    let cut = &inner[..inner.len() - 1];
    let longer = [&inner[..], &[0]].concat();
    let malformed = name(4, &[9, 0, 1]);
    let (one, two) = (held(RECURSIVE, &inner), held(1, &[]));
    for opaque in [
        vec![9, 0, 0],
        held(RECURSIVE, &[]),
        held(RECURSIVE, cut),
        held(RECURSIVE, &longer),
        held(RECURSIVE, &malformed),
        held(RECURSIVE, &name(4, &[])),
        held(RECURSIVE, &[&[3; 8][..], &inner].concat()),
        held(6, &inner),
        held(9, &inner),
        held(VPN_RECURSIVE, &inner),
        held(VPN_RECURSIVE, &[3; 7]),
        held(VPN_RECURSIVE, &[3; 8]),
        held(VPN_RECURSIVE, &[&[3; 7][..], &inner].concat()),
        [&one[..], &two].concat(),
        [&two[..], &one].concat(),
        [&[255, 0, 7, 0, 13][..], &inner].concat(),
        [&[255, 0, 8, 0, 21][..], &[3; 8], &inner].concat(),
    ] {
        let element = name(4, &opaque);
        let (layers, last) = read(&element).expect("it is a name");
        assert!(layers.is_empty() && last.opaque == opaque, "{opaque:?}");
        assert_eq!(unwrap_number(&element, 0), 22);
    }
}

#[test]
fn bad_octets() {
    for (element, number) in [
        (vec![], 6),
        (name(5, &[9, 0, 0]), 6),
        (name(4, &[]), 7),
        (name(4, &formed::single(1, 129, 0)), 7),
        (name(4, &[9, 0]), 18),
    ] {
        assert_eq!(answer_number(&read(&element)), number);
        assert_eq!(unwrap_number(&element, 0), number);
        assert_eq!(wrap_number(&around(4, 0), &element, 0), number);
        assert_eq!(wrap_number(&around(5, 0), &element, 0), 6);
        assert_eq!(wrap_number(&around(4, 7), &element, 0), 6);
    }
    // Both malformed and too long within another: 7 comes before 18.
    assert_eq!(wrap_number(&around(4, 0), &name(4, &[7; 116]), 0), 7);
    assert_eq!(wrap_number(&around(4, 0), &name(4, &[7; 115]), 0), 18);
}
