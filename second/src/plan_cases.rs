//! Request [13], "A plan before the fibre crew comes", as a page of cases.

use crate::bench::{Order, WHOLE_BUFFER};
use crate::card::THIS_NODE;
use crate::cases::{numbered, Page, OTHER_ROOT, ROOT};
use crate::plan::{Move, Permit};
use crate::wire::Kind;
use std::slice::from_ref;

const LONG_ROOT: [u8; 16] = [0xc0, 0, 2, 0, 0, 0, 0, 0, 0, 0, 0, 0, 0, 0, 0, 1];
const ALL: u16 = 0xffff;

pub fn day() -> Vec<String> {
    let mut page = Page::new();
    page.comment("request [13]: plans for neighbour 0");
    page.room(WHOLE_BUFFER);
    page.no_root();
    page.three_roots();
    page.lists_refused();
    page.fewest_labels();
    page.scarce_labels();
    page.odd_sets();
    page.lines
}

fn permit(root: &[u8], set: u16) -> Permit {
    let root = root.to_vec();
    Permit { root, set }
}

fn entry(root: &[u8], to: u32) -> Move {
    let root = root.to_vec();
    Move { root, to }
}

/// Every root may move anywhere.
fn everywhere() -> Vec<Permit> {
    [&LONG_ROOT[..], &OTHER_ROOT, &ROOT]
        .map(|root| permit(root, ALL))
        .to_vec()
}

impl Page {
    fn plan(&mut self, from: u32, sets: &[Permit]) {
        self.order(Order::Plan(from, sets.to_vec()));
    }

    fn vet(&mut self, sets: &[Permit], list: &[Move]) {
        self.order(Order::Vet(0, sets.to_vec(), list.to_vec()));
    }

    fn no_root(&mut self) {
        self.comment("no root is behind 0: an empty list; 16 and beyond are refused 1");
        self.order(Order::Start(16));
        self.route(ROOT, 1);
        for from in [0, 1, 15, 16, u32::MAX] {
            self.plan(from, &[]);
            self.order(Order::Vet(from, vec![], vec![]));
        }
        self.vet(&everywhere(), &[entry(&ROOT, 5)]);
    }

    /// Behind 0 are two roots of 4 octets and one of 16; one is elsewhere.
    fn behind_0(&mut self) {
        self.order(Order::Start(16));
        for root in [&LONG_ROOT[..], &OTHER_ROOT, &ROOT] {
            self.order(Order::Route(root.to_vec(), 0));
        }
        self.route([10, 0, 0, 1], 7);
        self.route([10, 0, 0, 2], THIS_NODE);
    }

    fn three_roots(&mut self) {
        self.comment("three roots behind 0: those of 4 octets first; 0 itself is no way, the lowest other is taken");
        self.behind_0();
        self.plan(0, &everywhere());
        let sets = [
            permit(&ROOT, 0x8001),
            permit(&OTHER_ROOT, 0x0140),
            permit(&LONG_ROOT, 0x0003),
            permit(&[10, 0, 0, 1], ALL),
        ];
        self.plan(0, &sets);
        self.comment("no set for one, an empty one, 0 alone: none");
        self.plan(0, &sets[..2]);
        for set in [0, 1] {
            let sets = [&sets[..2], &[permit(&LONG_ROOT, set)]].concat();
            self.plan(0, &sets);
        }
        self.comment("other neighbours: 7 has one root, 2 none");
        self.plan(7, &sets);
        self.plan(2, &sets);
    }

    fn lists_refused(&mut self) {
        let sets: Vec<Permit> = everywhere()
            .into_iter()
            .map(|p| permit(&p.root, 0x00fd))
            .chain([permit(&[10, 0, 0, 1], ALL)])
            .collect();
        let (one, two, long) = (entry(&ROOT, 2), entry(&OTHER_ROOT, 7), entry(&LONG_ROOT, 2));
        let all = [one.clone(), two.clone(), long.clone()];
        self.comment("a list in any order is accepted");
        self.vet(&sets, &all);
        self.vet(&sets, &[long.clone(), one.clone(), two.clone()]);
        self.comment("rejected: one missing, all missing, one twice, another root, one that has no route, one of this node; not permitted, 0 itself, no neighbour");
        self.vet(&sets, &all[..2]);
        self.vet(&sets, &[]);
        for further in [
            one.clone(),
            entry(&ROOT, 3),
            entry(&[10, 0, 0, 1], 2),
            entry(&[10, 0, 0, 9], 2),
            entry(&[10, 0, 0, 2], 2),
        ] {
            self.vet(&sets, &[&all[..], from_ref(&further)].concat());
            self.vet(&sets, &[one.clone(), two.clone(), further]);
        }
        for to in [8, 1, 0, 16, 17, 255] {
            self.vet(&sets, &[one.clone(), two.clone(), entry(&LONG_ROOT, to)]);
        }
        self.comment("rejected: the same octets as a root of the other length; no set for a root");
        self.vet(&sets, &[one, two, entry(&LONG_ROOT[..4], 2)]);
        self.vet(&sets[1..], &all);
    }

    fn fewest_labels(&mut self) {
        self.comment("trees of 192.0.2.1 with branches from 3, from 3 and 5, from 5 alone, from 6 alone: 3, 5 and 6 need fewest; the first of them that is permitted");
        self.behind_0();
        for (number, from) in [(1, 3), (2, 3), (2, 5), (3, 5), (4, 6)] {
            self.tell(from, Kind::Mapping, &numbered(ROOT, number), 100);
        }
        let others = [permit(&OTHER_ROOT, 2), permit(&LONG_ROOT, 2)];
        for set in [ALL, ALL ^ 8, ALL ^ 0x28, 0x0056, 0x0016, 0x8000] {
            self.plan(0, &[&others[..], &[permit(&ROOT, set)]].concat());
        }
        self.comment(
            "one more branch from 6, and a leaf for the last: 6 needs one less, then as many again",
        );
        self.tell(6, Kind::Mapping, &numbered(ROOT, 5), 100);
        self.plan(0, &everywhere());
        self.join_numbered(ROOT, 5);
        self.plan(0, &everywhere());
    }

    /// Carries out a list, after which nothing is behind 0.
    fn carry_out(&mut self, list: &[Move]) {
        for entry in list {
            self.order(Order::Route(entry.root.clone(), entry.to));
        }
        self.plan(0, &[]);
        self.order(Order::Free);
    }

    fn scarce_labels(&mut self) {
        self.comment("two trees of each of two roots behind 0 and two free labels: none; one tree has a branch from 5 alone: to 5 and anywhere needs three");
        self.order(Order::Start(16));
        for root in [ROOT, [10, 0, 0, 1]] {
            self.route(root, 0);
        }
        self.use_up_but(6);
        let four = [
            (ROOT, 1, 5),
            (ROOT, 2, 4),
            ([10, 0, 0, 1], 1, 6),
            ([10, 0, 0, 1], 2, 6),
        ];
        for (root, number, from) in four {
            self.tell(from, Kind::Mapping, &numbered(root, number), 100);
        }
        let sets = [permit(&ROOT, ALL), permit(&[10, 0, 0, 1], 0x0010)];
        self.order(Order::Free);
        self.plan(0, &sets);
        let list = [entry(&ROOT, 5), entry(&[10, 0, 0, 1], 4)];
        self.vet(&sets, &list);
        self.comment("a third label comes back");
        self.tell(8, Kind::Release, &numbered(OTHER_ROOT, 132), 271);
        self.plan(0, &sets);
        self.vet(&sets, &list);
        self.comment("to 4 in both needs three too, to 7 four");
        self.vet(&sets, &[entry(&ROOT, 4), entry(&[10, 0, 0, 1], 4)]);
        self.vet(&sets, &[entry(&ROOT, 7), entry(&[10, 0, 0, 1], 4)]);
        self.comment("it is carried out");
        self.carry_out(&list);
    }

    /// Of the block only so many labels are free, those of the first route of
    /// the other root; all others await release.
    fn use_up_but(&mut self, free: u8) {
        self.use_up();
        self.route(OTHER_ROOT, 17);
        for place in 0..free {
            let name = numbered(OTHER_ROOT, 101 + place);
            self.tell(1, Kind::Release, &name, 16 + u32::from(place));
        }
    }

    fn odd_sets(&mut self) {
        self.comment("what stands behind a root in its space is not looked at; of two sets for a root the first holds; a set of no root is for none");
        self.order(Order::Start(16));
        self.route(ROOT, 0);
        let (space, rest) = ("00".repeat(12), "00".repeat(11));
        for line in [
            format!("plan 0 002004c0000201{rest}01"),
            format!("plan 0 002004c0000201{space}000804c0000201{space}"),
            format!("plan 0 000104c0000201{space}000804c0000201{space}"),
            format!("plan 0 002005c0000201{space}000804c0000201{space}"),
            format!("plan 0 002000c0000201{space}"),
            format!("plan 0 002011c0000201{space}"),
            format!("vet 0 002004c0000201{space} 0504c0000201{rest}01"),
            format!("vet 0 002004c0000201{space} 0500c0000201{space}"),
            format!("vet 0 002004c0000201{space} 0511c0000201{space}"),
        ] {
            self.text(line);
        }
        self.comment("a last set that is not whole is not read; a list with an entry that is not whole is rejected");
        for line in [
            format!("plan 0 002004c0000201{rest}"),
            format!("plan 0 002004c0000201{space}00"),
            format!("vet 0 002004c0000201{space} 0504c0000201{space}"),
            format!("vet 0 002004c0000201{space} 0504c0000201{rest}"),
            format!("vet 0 002004c0000201{space} 0504c0000201{space}00"),
            format!("vet 0 002004c0000201{space} 0504c0000201{space}0504c0000201"),
            format!("vet 0 002004c0000201{rest} 0504c0000201{space}"),
            "plan 16 00".to_string(),
            "vet 16 00 00".to_string(),
            "vet 1 00 00".to_string(),
        ] {
            self.text(line);
        }
    }
}

#[cfg(test)]
mod tests {
    use super::*;
    use crate::session::Program;

    fn answers(word: &str) -> Vec<String> {
        let answers = Program::Bench.answers(day().join("\n").as_bytes());
        let cut = answers
            .iter()
            .filter_map(|answer| answer.strip_prefix(word));
        cut.map(str::to_string).collect()
    }

    #[test]
    fn plans() {
        let long = "c0000200000000000000000000000001";
        let plans = answers("plan ");
        let three = |a: u32, b: u32, c: u32| format!("0 c0000201:{a} c0000202:{b} {long}:{c}");
        assert_eq!(plans[..5], ["0", "none", "0", "1", "1"]);
        assert_eq!(plans[5..7], [three(1, 1, 1), three(15, 6, 1)]);
        assert_eq!(plans[7..12], ["none", "none", "none", "0 0a000001:0", "0"]);
        let fewest: Vec<String> = [3, 5, 6, 6, 1, 15].map(|to| three(to, 1, 1)).to_vec();
        assert_eq!(plans[12..18], fewest);
        assert_eq!(plans[18..20], [three(6, 1, 1), three(3, 1, 1)]);
        assert_eq!(plans[20..23], ["none", "0 0a000001:4 c0000201:4", "0"]);
        let (to_3, to_5) = ("0 c0000201:3", "0 c0000201:5");
        assert_eq!(plans[23..29], [to_5, to_5, "none", to_3, "none", "none"]);
        assert_eq!(plans[29..], ["none", to_5, "1"]);
    }

    #[test]
    fn lists() {
        let vetted = answers("vet ");
        let rejected = |count: usize| vec!["rejected"; count];
        assert_eq!(vetted[..6], ["0", "rejected", "0", "1", "1", "rejected"]);
        assert_eq!(vetted[6..8], ["0", "0"]);
        assert_eq!(vetted[8..28], rejected(20));
        assert_eq!(vetted[28..32], ["rejected", "0", "0", "rejected"]);
        assert_eq!(vetted[32..36], ["0", "rejected", "rejected", "0"]);
        assert_eq!(vetted[36..40], rejected(4));
        assert_eq!(vetted[40..], ["1", "rejected"]);
    }
}
