//! Request [5], "Longer names", as a page of cases.

use crate::bench::Order;
use crate::cases::{mapping, Page, LONG_ROOT, ROOT};
use crate::formed;
use crate::save::LONGEST_SAVE;
use crate::wire::{self, Kind, TreeName, LONGEST_OPAQUE};

/// Both sides of what is taken and of what form one of a save has space for.
const LENGTHS: [usize; 7] = [3, 32, 33, 90, 127, LONGEST_OPAQUE, LONGEST_OPAQUE + 1];

pub fn day() -> Vec<String> {
    let mut page = Page::new();
    page.comment("request [5]: opaque values of 3, 32, 33, 90, 127 and 128 octets are taken, of 129 refused 7; what exceeds 32 is saved by no form-one save");
    page.room(LONGEST_SAVE);
    for root in [&ROOT[..], &LONG_ROOT] {
        for length in LENGTHS {
            page.name_of_length(root, length);
        }
    }
    page.remembered_name();
    page.near_names();
    page.lines
}

fn name(root: &[u8], length: usize) -> TreeName {
    TreeName {
        root: root.to_vec(),
        opaque: formed::single(7, length, 7),
    }
}

impl Page {
    /// A message of each kind, leaf orders, lookups and saves.
    fn name_of_length(&mut self, root: &[u8], length: usize) {
        let name = name(root, length);
        let element = wire::write_element(&name);
        self.comment(&format!("{length} octets, a root of {}", root.len()));
        self.order(Order::Start(16));
        self.order(Order::Route(root.to_vec(), 3));
        self.tell(1, Kind::Mapping, &name, 100);
        self.order(Order::Join(element.clone()));
        self.ask(&[16], std::slice::from_ref(&name));
        self.order(Order::Save);
        self.tell(1, Kind::Withdraw, &name, 100);
        self.order(Order::Leave(element));
        self.tell(3, Kind::Release, &name, 16);
        self.ask(&[16], &[]);
        self.order(Order::Save);
    }

    /// The tree is gone, its label awaits release.
    fn remembered_name(&mut self) {
        self.comment("a label that awaits release remembers the name: refused 19 in any room, until it is released");
        for length in [32, 33, LONGEST_OPAQUE] {
            let name = name(&ROOT, length);
            let element = wire::write_element(&name);
            self.fresh();
            self.order(Order::Join(element.clone()));
            self.order(Order::Leave(element));
            for room in [0, LONGEST_SAVE] {
                self.room(room);
                self.order(Order::Save);
            }
            self.tell(0, Kind::Release, &name, 16);
            self.order(Order::Save);
        }
    }

    /// Names that differ in their last octet or in their length alone.
    fn near_names(&mut self) {
        self.comment(
            "two names that differ in their 128th octet alone, and one of 127: three trees",
        );
        self.fresh();
        let longest = name(&ROOT, LONGEST_OPAQUE);
        let mut other = longest.clone();
        other.opaque[LONGEST_OPAQUE - 1] ^= 1;
        let three = [longest, other, name(&ROOT, LONGEST_OPAQUE - 1)];
        for (from, name) in (1..).zip(&three) {
            self.tell(from, Kind::Mapping, name, 100);
        }
        self.ask(&[16, 17, 18, 19], &three);
        self.comment("16 is of the first alone");
        for name in [&three[1], &three[2]] {
            self.tell(0, Kind::Release, name, 16);
        }
        self.tell(1, Kind::Withdraw, &three[0], 100);
        for name in [&three[1], &three[2], &three[0]] {
            self.tell(0, Kind::Release, name, 16);
        }
        self.ask(&[16, 17, 18, 19], &three);
        self.comment("the notice of 129 octets copies type and identifier as any does");
        let refused = mapping(7, &wire::write_element(&name(&ROOT, 129)), 100, &[]);
        self.told(7, refused);
    }
}

#[cfg(test)]
mod tests {
    use super::*;
    use crate::bench;
    use crate::session::Program;

    /// Written for each name.
    const LINES: usize = 14;

    fn answers() -> Vec<String> {
        Program::Bench.answers(day().join("\n").as_bytes())
    }

    /// The number on each line that has one, of each name of the page.
    fn numbers() -> Vec<Vec<u8>> {
        let answers = answers();
        let names = answers[1..].chunks(LINES).take(2 * LENGTHS.len());
        let numbers = |lines: &[String]| {
            let numbers = lines.iter().filter_map(|line| bench::written_number(line));
            numbers.collect()
        };
        names.map(numbers).collect()
    }

    #[test]
    fn names_of_every_length() {
        // start, route, Mapping, join, save, Withdraw, leave, Release, save
        let (short, long) = (vec![0; 9], vec![0, 0, 0, 0, 19, 0, 0, 0, 0]);
        let beyond = vec![0, 0, 7, 7, 0, 7, 7, 7, 0];
        let rows = [&short, &short, &long, &long, &long, &long, &beyond];
        for (place, numbers) in numbers().iter().enumerate() {
            assert_eq!(numbers, rows[place % 7], "{place}");
        }
    }

    #[test]
    fn saves_of_remembered_names() {
        let answers = answers();
        let saves = answers[1 + 2 * LENGTHS.len() * LINES..]
            .iter()
            .filter(|line| line.starts_with("save"))
            .map(|line| bench::written_number(line).expect("saves are answered"));
        assert_eq!(saves.collect::<Vec<u8>>(), [16, 0, 0, 19, 19, 0, 19, 19, 0]);
    }

    #[test]
    fn near_names_are_three() {
        let answers = answers();
        let last = &answers[answers.len() - 10..];
        let found = ["label nothing", "label 2:100", "label 3:100"];
        assert_eq!(last[..3], found);
        assert_eq!(last[8], "take 7");
        assert!(last[9].starts_with("notice 0 4c44"));
    }
}
