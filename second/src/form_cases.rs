//! Request [8], "Refuse a malformed opaque value", as a page of cases.

use crate::bench::{Order, WHOLE_BUFFER};
use crate::cases::{element_claiming, mapping, numbered, tree_a, Page, ROOT};
use crate::formed::{self, VALUES};
use crate::save::{HEAD, ROUTE};
use crate::save_cases::tree_b;
use crate::wire::{self, Kind, TreeName, LONGEST_OPAQUE};

/// Where a tree's name has its opaque value: length, type, value's length.
const TREE_OPAQUE: usize = 3 + 17;

pub fn day() -> Vec<String> {
    let mut page = Page::new();
    page.comment("request [8]: an opaque value is filled by elements, or refused 18");
    page.room(WHOLE_BUFFER);
    page.fresh();
    for (opaque, _) in VALUES {
        page.value(opaque);
    }
    page.other_refusals();
    page.malformed_everywhere();
    page.before_a_full_card();
    page.longest_values();
    page.malformed_saves();
    page.lines
}

fn name_with(opaque: &[u8]) -> TreeName {
    TreeName {
        root: ROOT.to_vec(),
        opaque: opaque.to_vec(),
    }
}

impl Page {
    /// A leaf joins, is looked up and leaves.
    fn value(&mut self, opaque: &[u8]) {
        let element = wire::write_element(&name_with(opaque));
        self.order(Order::Join(element.clone()));
        self.order(Order::Tree(element.clone()));
        self.order(Order::Leave(element));
    }

    fn other_refusals(&mut self) {
        let malformed = element_claiming(4, &[1, 0, 2, 9]);
        self.comment("6 and 7 come before 18: a length that does not fill the element, and 129 octets; 8 and 9 come behind");
        self.fresh();
        for element in [
            element_claiming(3, &[1, 0, 2, 9]),
            element_claiming(0, &[]),
            element_claiming(129, &[7; 129]),
        ] {
            self.order(Order::Take(1, mapping(1, &element, 100, &[])));
            self.order(Order::Join(element));
        }
        let further = wire::write_tlv(0x0104, &[]);
        self.order(Order::Take(1, mapping(2, &malformed, 15, &further)));
        self.order(Order::Take(1, mapping(3, &malformed, 100, &further)));
        self.order(Order::Take(16, mapping(4, &malformed, 100, &[])));
        self.comment("the neighbour is told: status data 0x0C");
        self.told(18, mapping(5, &malformed, 100, &[]));
    }

    fn malformed_everywhere(&mut self) {
        self.comment("a message of each kind, a leave and a lookup by label and name: no Release is sent, A stays as it is");
        self.tell(1, Kind::Mapping, &tree_a(), 100);
        let mut opaque = tree_a().opaque;
        opaque.push(0);
        let near = name_with(&opaque);
        for kind in [Kind::Mapping, Kind::Withdraw, Kind::Release] {
            self.tell(1, kind, &near, 100);
        }
        self.order(Order::Leave(wire::write_element(&near)));
        self.ask(&[16], &[near, tree_a()]);
    }

    fn before_a_full_card(&mut self) {
        self.comment("18 comes before 11: 64 trees stand");
        self.fresh();
        for number in 1..=64 {
            self.order(Order::Join(wire::write_element(&numbered(ROOT, number))));
        }
        for opaque in [&[1, 0][..], &[1, 0, 1, 9]] {
            let element = wire::write_element(&name_with(opaque));
            self.order(Order::Take(1, mapping(1, &element, 100, &[])));
            self.order(Order::Join(element));
        }
    }

    fn longest_values(&mut self) {
        self.comment("128 octets in elements of 3, 4 and 121, or extended, are taken; the last length one more or less: refused 18");
        self.fresh();
        let three = [
            formed::bare(9),
            formed::single(8, 4, 1),
            formed::single(7, LONGEST_OPAQUE - 7, 2),
        ]
        .concat();
        let extended = formed::extended(7, LONGEST_OPAQUE);
        for (opaque, place) in [(three, 9), (extended, 4)] {
            for step in [0, 1, u8::MAX] {
                let mut opaque = opaque.clone();
                opaque[place] = opaque[place].wrapping_add(step);
                self.value(&opaque);
            }
        }
    }

    /// A save of B, which has a leaf, alone behind a route: its opaque value
    /// becomes another.
    fn malformed_saves(&mut self) {
        self.comment("saves: B with an element of three zeros more is taken, also with another type; the rest is refused 19");
        self.order(Order::Start(16));
        self.order(Order::Route(ROOT.to_vec(), 3));
        self.order(Order::Join(wire::write_element(&tree_b())));
        let save = self.saved();
        let place = HEAD + ROUTE + TREE_OPAQUE;
        for (length, kind, low) in [
            (6, 9, 0),
            (3, 254, 0),
            (4, 9, 1),
            (5, 255, 0),
            (1, 9, 0),
            (2, 9, 0),
            (4, 9, 0),
            (3, 255, 0),
            (3, 9, 1),
            (4, 255, 0),
        ] {
            let mut other = save.clone();
            other[place] = length;
            other[place + 1] = kind;
            other[place + 3] = low;
            self.restore(&other);
        }
        self.order(Order::Save);
    }
}

#[cfg(test)]
mod tests {
    use super::*;
    use crate::bench::written_numbers as numbers;
    use crate::session::Program;

    fn answers() -> Vec<String> {
        Program::Bench.answers(day().join("\n").as_bytes())
    }

    #[test]
    fn each_value_is_taken_or_refused() {
        for (lines, (opaque, formed)) in answers()[3..].chunks(3).zip(VALUES) {
            let number = if formed { 0 } else { 18 };
            assert_eq!(numbers(lines), [number; 2], "{opaque:?}");
            let found = if formed { "tree leaf" } else { "tree nothing" };
            assert_eq!(lines[1], found);
        }
    }

    #[test]
    fn the_rest_is_as_it_says() {
        let answers = answers();
        let rest = numbers(&answers[3 + 3 * VALUES.len()..]);
        let (behind, rest) = rest[2..].split_at(11);
        assert_eq!(behind, [6, 6, 7, 7, 7, 7, 18, 18, 1, 18, 0]);
        assert_eq!(rest[..5], [0, 18, 18, 18, 18]);
        let rest = &rest[5 + 2 + 64..];
        assert_eq!(rest[..4], [18, 18, 11, 11]);
        let values = [0, 0, 18, 18, 18, 18];
        assert_eq!(rest[6..18], [values, values].concat());
        assert_eq!(rest[21..], [0, 0, 0, 0, 19, 19, 19, 19, 19, 19, 0]);
    }
}
