//! Request [11], "A neighbour's session is lost", as a page of cases.

use crate::bench::{Order, WHOLE_BUFFER};
use crate::card::{NEIGHBOURS, THIS_NODE};
use crate::cases::{numbered, tree_a, Page, NUMBERED_RECORD, OTHER_ROOT, ROOT};
use crate::wire::{self, Kind};

pub fn day() -> Vec<String> {
    let mut page = Page::new();
    page.comment("request [11]: a neighbour's session is lost. The route of A's root is 0.");
    page.room(WHOLE_BUFFER);
    page.nobody();
    page.branches_go();
    page.held_branches_remain();
    page.upstream_lost();
    page.held_branch_alone();
    page.awaited_labels();
    page.lost_without_upstream();
    page.many_trees();
    page.lost_on_a_full_card();
    page.every_neighbour();
    page.lines
}

impl Page {
    fn lost(&mut self, neighbour: u32) {
        self.order(Order::Lost(neighbour));
    }

    fn ask_after(&mut self) {
        self.ask(&[16, 17, 18], &[tree_a()]);
    }

    fn nobody(&mut self) {
        self.comment("of nobody: on a fresh card, and of one who has nothing; 16 and beyond are refused 1, also in no room");
        self.order(Order::Start(16));
        self.lost(0);
        self.fresh();
        self.tell(1, Kind::Mapping, &tree_a(), 100);
        for neighbour in [2, 15, 16, 17, u32::MAX] {
            self.lost(neighbour);
        }
        self.room(0);
        for neighbour in [2, 16] {
            self.lost(neighbour);
        }
        self.room(WHOLE_BUFFER);
        self.ask_after();
    }

    fn branches_go(&mut self) {
        self.comment("a branch among two goes, nothing is sent; the last goes: Withdraw 16 to 0; lost again: nothing");
        self.tell(2, Kind::Mapping, &tree_a(), 200);
        for neighbour in [1, 2, 2] {
            self.lost(neighbour);
            self.ask_after();
        }
        self.comment("16 awaits its Release from 0, and none from 2");
        for from in [2, 0] {
            self.tell(from, Kind::Release, &tree_a(), 16);
        }
        self.comment("a leaf keeps tree and label");
        self.tell(1, Kind::Mapping, &tree_a(), 100);
        self.order(Order::Join(wire::write_element(&tree_a())));
        self.lost(1);
        self.ask_after();
    }

    fn held_branches_remain(&mut self) {
        self.comment("branches from 0, held, and 1: 1 is lost: Withdraw 16 to 0; A stays, another label of 0 is refused 10; 1 maps again: Mapping 17");
        self.fresh();
        for (from, label) in [(0, 300), (1, 100)] {
            self.tell(from, Kind::Mapping, &tree_a(), label);
        }
        self.lost(1);
        self.ask_after();
        self.tell(0, Kind::Mapping, &tree_a(), 301);
        self.tell(1, Kind::Mapping, &tree_a(), 100);
        self.ask_after();
    }

    fn upstream_lost(&mut self) {
        self.comment("0 is lost: A loses its label and the branch of 0, nothing is sent, all labels are free; no Release is awaited");
        self.lost(0);
        self.ask_after();
        for label in [16, 17] {
            self.tell(0, Kind::Release, &tree_a(), label);
        }
        self.comment("there is no route: the same order as before is a new one, Mapping 18 to 0");
        self.route(ROOT, 0);
        self.ask_after();
    }

    fn held_branch_alone(&mut self) {
        self.comment("a tree that has the branch of 0 alone goes with 0, and the route too");
        self.fresh();
        self.tell(0, Kind::Mapping, &tree_a(), 300);
        self.lost(0);
        self.ask_after();
        self.tell(0, Kind::Mapping, &tree_a(), 301);
        self.order(Order::Save);
    }

    fn awaited_labels(&mut self) {
        self.comment("16 awaits release from 0, 17 from 2, 18 is mapped to 3: 2 is lost, 17 is free; 3 is lost, 18 too, and the route; 19 is next");
        self.fresh();
        self.tell(1, Kind::Mapping, &tree_a(), 100);
        for to in [2, 3] {
            self.route(ROOT, to);
        }
        for neighbour in [2, 3] {
            self.lost(neighbour);
            self.ask_after();
            self.order(Order::Save);
        }
        self.route(ROOT, 2);
    }

    fn lost_without_upstream(&mut self) {
        self.comment("this node is the route: the tree goes with its last branch, nothing is sent, the route stays");
        self.fresh();
        self.route(ROOT, THIS_NODE);
        self.tell(1, Kind::Mapping, &tree_a(), 100);
        self.lost(1);
        self.ask_after();
        self.order(Order::Save);
    }

    /// Two roots, behind 0 and 7, with trees of every state.
    fn grow_many(&mut self) {
        self.fresh();
        self.route(OTHER_ROOT, 7);
        for (root, number, from) in [
            (ROOT, 1, 7),
            (OTHER_ROOT, 1, 7),
            (OTHER_ROOT, 2, 1),
            (ROOT, 2, 7),
            (ROOT, 2, 0),
            (OTHER_ROOT, 3, 7),
            (OTHER_ROOT, 3, 2),
            (ROOT, 3, 1),
            (ROOT, 4, 7),
            (ROOT, 5, 7),
            (ROOT, 5, 3),
        ] {
            self.tell(from, Kind::Mapping, &numbered(root, number), 100);
        }
    }

    fn many_trees(&mut self) {
        self.comment("trees of two roots, behind 0 and 7, and 7 is lost: three Withdraws to 0, oldest tree first; refused 16 in one octet less");
        self.grow_many();
        for room in [0, 3 * NUMBERED_RECORD - 1, 3 * NUMBERED_RECORD] {
            self.room(room);
            self.lost(7);
        }
        self.room(WHOLE_BUFFER);
        for root in [ROOT, OTHER_ROOT] {
            let names = [1, 2, 3, 4, 5].map(|number| numbered(root, number));
            self.ask(&[16, 17, 18, 19, 20, 21, 22], &names);
        }
        self.order(Order::Save);
    }

    fn lost_on_a_full_card(&mut self) {
        self.comment("64 trees with the branch of 4 alone, 256 labels in use: 3, the upstream, is lost, 64 labels are free; then 4, and no tree stands; then those that the other labels await");
        self.fresh();
        for number in 1..=64 {
            self.tell(4, Kind::Mapping, &numbered(ROOT, number), 100);
        }
        for route in [1, 2, 3] {
            self.route(ROOT, route);
        }
        let shown = [numbered(ROOT, 1), numbered(ROOT, 64)];
        for neighbour in [3, 4, 0, 1, 2] {
            self.lost(neighbour);
            self.ask(&[16, 208, 271], &shown);
        }
        self.comment("64 trees behind 5 are left by 4: 64 Withdraws to 5");
        self.route(ROOT, 5);
        for number in 1..=64 {
            self.tell(4, Kind::Mapping, &numbered(ROOT, number), 100);
        }
        for room in [64 * NUMBERED_RECORD - 1, 64 * NUMBERED_RECORD] {
            self.room(room);
            self.lost(4);
            self.order(Order::Free);
        }
        self.room(WHOLE_BUFFER);
    }

    fn every_neighbour(&mut self) {
        self.comment("one after the other is lost: an empty table is left, but for a leaf");
        self.grow_many();
        self.order(Order::Join(wire::write_element(&numbered(ROOT, 5))));
        for neighbour in 0..NEIGHBOURS {
            self.lost(neighbour);
        }
        self.ask(&[], &[numbered(ROOT, 5)]);
        self.order(Order::Save);
    }
}

#[cfg(test)]
mod tests {
    use super::*;
    use crate::bench;
    use crate::session::Program;

    /// What is written for each loss of the page: number, then neighbour and
    /// label of each record, all of them Withdraws.
    fn losses() -> Vec<(u8, Vec<(u8, u8)>)> {
        let answers = Program::Bench.answers(day().join("\n").as_bytes());
        let losses = answers
            .iter()
            .filter_map(|answer| answer.strip_prefix("lost "));
        let read = |answer: &str| {
            let (number, hex) = answer.split_once(' ').unwrap_or((answer, ""));
            let records = bench::read_hex(hex.as_bytes()).expect("it is hex");
            (number.parse().expect("a number"), withdraws(&records))
        };
        losses.map(read).collect()
    }

    fn withdraws(records: &[u8]) -> Vec<(u8, u8)> {
        let mut found = Vec::new();
        let mut rest = records;
        while !rest.is_empty() {
            assert_eq!(rest[5], 2);
            let length = 8 + usize::from(rest[7]);
            found.push((rest[3], rest[length - 1]));
            rest = &rest[length..];
        }
        found
    }

    #[test]
    fn the_page_is_as_it_says() {
        let losses = losses();
        let nothing = |number| (number, vec![]);
        let to_0 = |labels: &[u8]| (0, labels.iter().map(|label| (0, *label)).collect());
        let first = [0, 0, 0, 1, 1, 1, 0, 1].map(nothing);
        assert_eq!(losses[..8], first);
        assert_eq!(losses[8..11], [nothing(0), to_0(&[16]), nothing(0)]);
        let (leaf, held, upstream) = (nothing(0), to_0(&[16]), nothing(0));
        assert_eq!(losses[11..14], [leaf, held, upstream]);
        assert_eq!(losses[14..18], [0; 4].map(nothing));
        let many = to_0(&[16, 18, 21]);
        assert_eq!(losses[18..21], [nothing(16), nothing(16), many]);
        assert_eq!(losses[21..26], [0; 5].map(nothing));
        assert_eq!(losses[26], nothing(16));
        assert_eq!(losses[27].1.len(), 64);
        assert_eq!(losses[28..].len(), 16);
    }
}
