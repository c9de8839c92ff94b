//! Request [2], "No branch back to the upstream", as a page of cases.

use crate::bench::{Order, WHOLE_BUFFER};
use crate::card::{NO_ROUTE, THIS_NODE};
use crate::cases::{numbered, tree_a, Page, OTHER_ROOT, ROOT};
use crate::wire::{self, Kind};

pub fn day() -> Vec<String> {
    let mut page = Page::new();
    page.comment("request [2]: a branch from the upstream is held. The route of A's root is 0.");
    page.silent_tree();
    page.tree_gains_and_loses_its_label();
    page.leaf_of_a_silent_tree();
    page.two_boxes();
    page.upstream_changes();
    page.no_upstream();
    page.no_label_for_a_silent_tree();
    page.counted_moves();
    page.exact_room();
    page.lines
}

impl Page {
    fn ask_a(&mut self) {
        self.ask(&[16, 17], &[tree_a()]);
    }

    fn silent_tree(&mut self) {
        let a = tree_a();
        self.comment("Mapping <A, 100> from 0: A stands without a label, nothing is sent; 16 is free for others");
        self.fresh();
        self.tell(0, Kind::Mapping, &a, 100);
        self.ask_a();
        self.comment("the branch is kept: the same label is taken, another refused 10");
        self.tell(0, Kind::Mapping, &a, 100);
        self.tell(0, Kind::Mapping, &a, 101);
        self.comment(
            "its Withdraw: Release 100 to 0 and nothing more; A goes, so that 101 is taken",
        );
        self.tell(0, Kind::Withdraw, &a, 100);
        self.tell(0, Kind::Mapping, &a, 101);
        self.ask_a();
    }

    fn tree_gains_and_loses_its_label(&mut self) {
        let a = tree_a();
        self.comment("then Mapping <A, 200> from 1: A stands and needs a label, Mapping 16 to 0; looked up, 1 alone");
        self.tell(1, Kind::Mapping, &a, 200);
        self.ask_a();
        self.comment("a further branch sends nothing");
        self.tell(2, Kind::Mapping, &a, 300);
        self.ask_a();
        self.comment("Withdraw from 1: Release. From 2: Release, then Withdraw 16 to 0; A stays, a Mapping of 0 with another label is refused 10");
        self.tell(1, Kind::Withdraw, &a, 200);
        self.tell(2, Kind::Withdraw, &a, 300);
        self.tell(0, Kind::Mapping, &a, 100);
        self.ask_a();
    }

    fn leaf_of_a_silent_tree(&mut self) {
        let element = wire::write_element(&tree_a());
        self.comment("16 awaits its Release: a join sends Mapping 17 to 0, the leave Withdraw 17; once more: refused 14");
        self.order(Order::Join(element.clone()));
        self.ask_a();
        for _ in 0..2 {
            self.order(Order::Leave(element.clone()));
            self.ask_a();
        }
        self.comment("the held branch goes, the last: Release and nothing more");
        self.tell(0, Kind::Withdraw, &tree_a(), 101);
        for label in [16, 17] {
            self.tell(0, Kind::Release, &tree_a(), label);
        }
        self.ask_a();
    }

    fn two_boxes(&mut self) {
        let a = tree_a();
        self.comment("two boxes: A has a branch, and 0, to whom 16 is mapped, maps A back; no feed goes round");
        self.fresh();
        self.tell(1, Kind::Mapping, &a, 200);
        self.tell(0, Kind::Mapping, &a, 16);
        self.ask_a();
        self.comment("0 withdraws: Release; the label stays");
        self.tell(0, Kind::Withdraw, &a, 16);
        self.ask_a();
    }

    fn upstream_changes(&mut self) {
        let a = tree_a();
        self.comment("branches from 0 and 1. Route to 1: Withdraw 16 to 0, Mapping 17 to 1; 0 comes alive, 1 is held");
        self.tell(0, Kind::Mapping, &a, 16);
        self.route(ROOT, 1);
        self.ask_a();
        self.comment(
            "0 withdraws, and 1 is the only branch: Release, then Withdraw 17 to 1; A stays",
        );
        self.tell(0, Kind::Withdraw, &a, 16);
        self.ask_a();
        self.comment("route to 3: Mapping 18 to 3 and no Withdraw; 1 comes alive. Back to 1: Withdraw 18 to 3 and no Mapping");
        for to in [3, 1] {
            self.route(ROOT, to);
            self.ask(&[17, 18, 19], &[tree_a()]);
        }
    }

    fn no_upstream(&mut self) {
        self.comment("without a neighbour as upstream no branch is held, and no label: this node, back to 1, no route, to 1 again");
        for to in [THIS_NODE, 1, NO_ROUTE, 1] {
            self.route(ROOT, to);
            self.ask_a();
        }
    }

    /// Trees of another root use up all labels: 32 leaves, eight labels each.
    pub fn use_up(&mut self) {
        for number in 101..=132 {
            let element = wire::write_element(&numbered(OTHER_ROOT, number));
            self.order(Order::Join(element));
        }
        for route in 1..=8 {
            self.route(OTHER_ROOT, route);
        }
    }

    /// The labels that the first route of the other root left behind.
    fn give_back(&mut self, places: std::ops::Range<u8>) {
        for place in places {
            let name = numbered(OTHER_ROOT, 101 + place);
            self.tell(1, Kind::Release, &name, 16 + u32::from(place));
        }
        self.order(Order::Free);
    }

    fn no_label_for_a_silent_tree(&mut self) {
        let a = tree_a();
        let element = wire::write_element(&a);
        self.comment("no label is free: a new tree is taken from 0 and refused 12 from 1");
        self.fresh();
        self.use_up();
        self.tell(1, Kind::Mapping, &a, 200);
        self.tell(0, Kind::Mapping, &a, 100);
        self.comment("a Mapping to the standing A, a join and a route to 1 are refused 12, another label of 0 by 10; this node is taken, and back to 0 too");
        self.tell(1, Kind::Mapping, &a, 200);
        self.order(Order::Join(element.clone()));
        self.route(ROOT, 1);
        self.tell(0, Kind::Mapping, &a, 101);
        self.route(ROOT, THIS_NODE);
        self.route(ROOT, 0);
        self.ask_a();
        self.comment("with one free label the join is taken, and then a Mapping needs none");
        self.give_back(0..1);
        self.order(Order::Join(element));
        self.tell(1, Kind::Mapping, &a, 200);
        self.ask_a();
    }

    fn counted_moves(&mut self) {
        self.comment("three trees, branches from 1; from 4; from 0: 1 and 4 hold labels. Two labels are free: a route to 5 needs three, refused 12");
        self.fresh();
        self.use_up();
        self.give_back(0..2);
        let three = [1, 2, 3].map(|number| numbered(ROOT, number));
        for (name, from) in three.iter().zip([1, 4, 0]) {
            self.tell(from, Kind::Mapping, name, 100);
        }
        self.give_back(2..4);
        self.route(ROOT, 5);
        self.ask(&[16, 17, 18, 19], &three);
        self.comment("to 4 it needs two: Withdraw 16, Mapping 18; Withdraw 17; Mapping 19");
        self.route(ROOT, 4);
        self.ask(&[16, 17, 18, 19], &three);
        self.comment("one label free: to 0, which needs two, refused 12; with two it is taken");
        self.give_back(4..5);
        self.route(ROOT, 0);
        self.ask(&[18, 19, 20, 21], &three);
        self.give_back(5..6);
        self.route(ROOT, 0);
        self.ask(&[18, 19, 20, 21], &three);
    }

    /// In one octet less than the event's records have, and just so much.
    fn in_room(&mut self, octets: u32, order: Order) {
        for room in [octets - 1, octets] {
            self.order(Order::Room(room));
            self.order(order.clone());
        }
        self.room(WHOLE_BUFFER);
    }

    fn message(&self, from: u32, kind: Kind, label: u32) -> Order {
        Order::Take(from, wire::write_message(kind, 1, &tree_a(), label))
    }

    fn exact_room(&mut self) {
        let element = wire::write_element(&tree_a());
        self.comment("room: none for a Mapping from 0; 41 octets for the record of a join, a leave, a Mapping or a route to a silent A");
        self.fresh();
        self.order(Order::Room(0));
        self.order(self.message(0, Kind::Mapping, 100));
        self.in_room(41, Order::Join(element.clone()));
        self.in_room(41, Order::Leave(element));
        self.in_room(41, self.message(1, Kind::Mapping, 200));
        self.comment("82 for the last Withdraw that is not of a held branch");
        self.in_room(82, self.message(1, Kind::Withdraw, 200));
        self.in_room(41, Order::Route(ROOT.to_vec(), 1));
        self.comment("82 for a move with both records, 41 for one that silences A");
        self.in_room(82, Order::Route(ROOT.to_vec(), 2));
        self.in_room(41, Order::Route(ROOT.to_vec(), 0));
        self.ask(&[16, 19, 20], &[tree_a()]);
    }
}

#[cfg(test)]
#[path = "held_cases_tests.rs"]
mod tests;
