//! Request [9], "Show names inside names", as a page of cases.

use crate::bench::{Order, WHOLE_BUFFER};
use crate::cases::{element_claiming, tree_a, Page, OTHER_ROOT, ROOT};
use crate::formed;
use crate::layers::{self, Layer, RECURSIVE, VPN_RECURSIVE};
use crate::save_cases::tree_b;
use crate::wire::{self, write_opaque_element as held, Kind, TreeName, LONGEST_OPAQUE};

const EIGHT: [u8; 8] = [0, 0, 0xfd, 0xe8, 0, 0, 0, 1];

pub fn day() -> Vec<String> {
    let mut page = Page::new();
    page.comment("request [9]: names inside names");
    page.room(WHOLE_BUFFER);
    page.order(Order::Start(16));
    page.plain_and_wrapped();
    page.last_layers();
    page.longest_wraps();
    page.bad_names();
    page.rooms_of_names();
    page.wrapped_tree();
    page.deepest();
    page.lines
}

fn around(root: &[u8], eight: &[u8]) -> Layer {
    Layer {
        root: root.to_vec(),
        eight: eight.to_vec(),
    }
}

fn a() -> Vec<u8> {
    wire::write_element(&tree_a())
}

fn with_opaque(opaque: Vec<u8>) -> Vec<u8> {
    let root = ROOT.to_vec();
    wire::write_element(&TreeName { root, opaque })
}

fn wrapped(layer: &Layer, inner: &[u8]) -> Vec<u8> {
    layers::wrap(layer, inner, WHOLE_BUFFER).expect("it is short enough")
}

/// Opaque values that look as if they held a name.
fn odd_holders(inner: &[u8]) -> Vec<Vec<u8>> {
    let cut = &inner[..inner.len() - 1];
    let mut malformed = inner.to_vec();
    malformed[12] = 5;
    let with_eight = [&EIGHT[..], inner].concat();
    let extended = |kind, value: &[u8]| {
        let length = value.len() as u8;
        [&[255, 0, kind, 0, length][..], value].concat()
    };
    vec![
        held(6, inner),
        held(9, inner),
        held(RECURSIVE, &[]),
        held(RECURSIVE, cut),
        held(RECURSIVE, &[inner, &[0]].concat()),
        held(RECURSIVE, &malformed),
        held(RECURSIVE, &with_eight),
        held(RECURSIVE, &[inner, inner].concat()),
        held(VPN_RECURSIVE, inner),
        held(VPN_RECURSIVE, &EIGHT),
        held(VPN_RECURSIVE, &with_eight[1..]),
        held(VPN_RECURSIVE, &[&with_eight[..], &[0]].concat()),
        [held(RECURSIVE, inner), formed::bare(1)].concat(),
        [formed::bare(1), held(RECURSIVE, inner)].concat(),
        extended(7, inner),
        extended(8, &with_eight),
    ]
}

impl Page {
    /// The layers of a name, and what is inside.
    fn show(&mut self, element: &[u8]) {
        self.order(Order::Layers(element.to_vec()));
        self.order(Order::Unwrap(element.to_vec()));
    }

    fn wrap(&mut self, layer: &Layer, element: &[u8]) {
        self.order(Order::Wrap(layer.clone(), element.to_vec()));
    }

    fn plain_and_wrapped(&mut self) {
        self.comment("A by itself is a last layer: unwrapping it is refused 22; B too");
        self.show(&a());
        self.show(&wire::write_element(&tree_b()));
        self.comment(
            "A in 192.0.2.2, then that in 2001:db8::1 with eight octets, then all in 192.0.2.1",
        );
        let mut element = a();
        for layer in [
            around(&OTHER_ROOT, &[]),
            around(&tree_b().root, &EIGHT),
            around(&ROOT, &[]),
        ] {
            self.wrap(&layer, &element);
            element = wrapped(&layer, &element);
            self.show(&element);
        }
    }

    fn last_layers(&mut self) {
        self.comment("no name inside: of type 6, 9 or an extended one, cut, longer, malformed, with eight octets too many or too few, not alone; refused 22");
        for opaque in odd_holders(&a()) {
            self.show(&with_opaque(opaque));
        }
        self.comment("the same within a layer: there the second is the last");
        for opaque in odd_holders(&a()) {
            self.show(&wrapped(&around(&ROOT, &[]), &with_opaque(opaque)));
        }
    }

    fn longest_wraps(&mut self) {
        self.comment("the wrapped opaque value has 128 octets, or 129: refused 7");
        for (eight, inner_length) in [
            (&[][..], LONGEST_OPAQUE - 13),
            (&EIGHT, LONGEST_OPAQUE - 21),
        ] {
            for over in [0, 1] {
                let opaque = formed::single(1, inner_length + over, 5);
                self.wrap(&around(&ROOT, eight), &with_opaque(opaque));
            }
        }
        let opaque = formed::single(1, LONGEST_OPAQUE - 13, 5);
        self.show(&wrapped(&around(&ROOT, &[]), &with_opaque(opaque)));
    }

    fn deepest(&mut self) {
        self.comment("the shortest name in ever more layers: ten are the most, the eleventh is refused 7; a tree of that name");
        let layer = around(&OTHER_ROOT, &[]);
        let mut element = with_opaque(formed::bare(1));
        while let Ok(more) = layers::wrap(&layer, &element, WHOLE_BUFFER) {
            self.wrap(&layer, &element);
            self.show(&more);
            element = more;
        }
        self.wrap(&layer, &element);
        self.order(Order::Join(element.clone()));
        self.order(Order::Tree(element.clone()));
        self.order(Order::Leave(element));
    }

    fn bad_names(&mut self) {
        self.comment("octets that 6, 7 or 18 refuse, in each order; 7 comes before 18 where the whole would be too long");
        let plain = around(&ROOT, &[]);
        for element in [
            vec![],
            a()[1..].to_vec(),
            element_claiming(6, &[1, 0, 4, 0, 0, 0, 7]),
            element_claiming(0, &[]),
            with_opaque(formed::single(1, LONGEST_OPAQUE + 1, 5)),
            with_opaque(vec![1, 0, 4]),
            with_opaque(vec![7; LONGEST_OPAQUE - 12]),
        ] {
            self.show(&element);
            self.wrap(&plain, &element);
        }
        self.comment("an outer root of no, 3, 5 or 15 octets, and 7 or 9 octets for eight: refused 6, before 7");
        for length in [0, 3, 5, 15] {
            self.wrap(&around(&vec![9; length], &EIGHT), &a());
        }
        let too_long = with_opaque(formed::single(1, LONGEST_OPAQUE, 5));
        for length in [1, 7, 9, 16] {
            self.wrap(&around(&ROOT, &vec![9; length]), &too_long);
        }
    }

    fn rooms_of_names(&mut self) {
        self.comment("room: 30 octets for A in a root of 4, 17 for A; the refusals come before 16");
        let outer = wrapped(&around(&OTHER_ROOT, &[]), &a());
        for room in [0, a().len() - 1, a().len(), outer.len() - 1, outer.len()] {
            self.room(room);
            self.wrap(&around(&OTHER_ROOT, &[]), &a());
            self.show(&outer);
            self.show(&a());
            self.wrap(&around(&[], &[]), &a());
        }
        self.room(WHOLE_BUFFER);
    }

    fn wrapped_tree(&mut self) {
        self.comment("a wrapped name is a tree's name like any other");
        let outer = wrapped(&around(&OTHER_ROOT, &EIGHT), &a());
        self.order(Order::Route(OTHER_ROOT.to_vec(), 4));
        self.order(Order::Join(outer.clone()));
        self.tell(1, Kind::Mapping, &tree_a(), 100);
        self.order(Order::Tree(outer));
        self.ask(&[16], &[tree_a()]);
    }
}

#[cfg(test)]
mod tests {
    use super::*;
    use crate::bench::written_numbers as numbers;
    use crate::session::Program;

    fn answers() -> Vec<String> {
        Program::Bench.answers(day().join("\n").as_bytes())
    }

    #[test]
    fn ten_layers_and_an_eleventh() {
        let answers = answers();
        let shown = answers.iter().filter(|a| a.starts_with("layers 0 "));
        let layers = shown.map(|a| a.matches(" > ").count() + 1);
        assert_eq!(layers.max(), Some(10));
        let last = &answers[answers.len() - 4..];
        assert_eq!((&last[0][..], &last[2][..]), ("wrap 7", "tree leaf"));
    }

    #[test]
    fn plain_names_and_wrapped_ones() {
        let answers = answers();
        let b_root = "20010db8000000000000000000000001";
        let a_alone = "c0000201 01000400000007";
        assert_eq!(
            answers[2..6],
            [
                &format!("layers 0 {a_alone}"),
                "unwrap 22",
                &format!("layers 0 {b_root} 090000"),
                "unwrap 22"
            ]
        );
        let inner = "06000104c0000201000701000400000007";
        assert_eq!(
            answers[6],
            format!("wrap 0 06000104c00002020014070011{inner}")
        );
        assert_eq!(answers[7], format!("layers 0 c0000202 > {a_alone}"));
        assert_eq!(answers[8], format!("unwrap 0 {inner} c0000202 -"));
        let eight = "0000fde800000001";
        let layers = format!("layers 0 {b_root}/{eight} > c0000202 > {a_alone}");
        assert_eq!(answers[10], layers);
        assert!(answers[11].ends_with(&format!(" {b_root} {eight}")));
        let all = layers.replace("layers 0 ", "layers 0 c0000201 > ");
        assert_eq!(answers[13], all);
    }

    #[test]
    fn last_layers_and_bad_ones() {
        let answers = answers();
        let (odd, rest) = answers[15..].split_at(4 * 16);
        let first: Vec<u8> = numbers(&odd[..32]);
        assert_eq!(first, [0, 22].repeat(16));
        assert_eq!(numbers(&odd[32..]), [0, 0].repeat(16));
        assert!(odd[32..]
            .iter()
            .step_by(2)
            .all(|line| line.matches('>').count() == 1));
        assert_eq!(numbers(&rest[..6]), [0, 7, 0, 7, 0, 0]);
        let bad = [6, 6, 6, 7, 7, 18].map(|number| [number; 3]).concat();
        assert_eq!(numbers(&rest[6..24]), bad);
        assert_eq!(numbers(&rest[24..27]), [18, 18, 7]);
        assert_eq!(numbers(&rest[27..35]), [6; 8]);
    }

    #[test]
    fn rooms() {
        let answers = answers();
        let rest = &answers[15 + 64 + 35..];
        for (lines, (wrap, unwrap)) in
            rest.chunks(7)
                .zip([(16, 16), (16, 16), (16, 0), (16, 0), (0, 0)])
        {
            assert_eq!(numbers(lines), [wrap, 0, unwrap, 0, 22, 6]);
        }
    }
}
