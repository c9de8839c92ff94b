//! Request [6], "Let a released label rest", as a page of cases.

use crate::bench::Order;
use crate::card::{HIGHEST_BASE, LOWEST_BASE};
use crate::cases::{numbered, Page, NUMBERED_RECORD, OTHER_ROOT, ROOT};
use crate::save::LONGEST_SAVE;
use crate::wire::{self, Kind};

pub fn day() -> Vec<String> {
    let mut page = Page::new();
    page.comment("request [6]: a label given is the first free one after the last given");
    page.room(LONGEST_SAVE);
    page.released_label_rests();
    page.refused_events();
    for base in [LOWEST_BASE, HIGHEST_BASE] {
        page.round_the_block(base);
    }
    page.move_round_the_block();
    page.last_one_alone();
    page.restored();
    page.restored_at_the_end();
    page.lines
}

impl Page {
    pub fn join_numbered(&mut self, root: [u8; 4], number: u8) {
        self.order(Order::Join(wire::write_element(&numbered(root, number))));
    }

    fn leave_numbered(&mut self, root: [u8; 4], number: u8) {
        self.order(Order::Leave(wire::write_element(&numbered(root, number))));
    }

    fn release(&mut self, from: u32, root: [u8; 4], number: u8, label: u32) {
        self.tell(from, Kind::Release, &numbered(root, number), label);
    }

    fn released_label_rests(&mut self) {
        self.comment("16, 17 and 18 are given; 17 comes back: 19 and 20 are next, not 17");
        self.fresh();
        for number in 1..=3 {
            self.join_numbered(ROOT, number);
        }
        self.leave_numbered(ROOT, 2);
        self.release(0, ROOT, 2, 17);
        for number in [4, 2] {
            self.join_numbered(ROOT, number);
        }
        self.ask(&[16, 17, 18, 19, 20], &[]);
        self.comment("all come back: 21 is next, also where no label is in use; a fresh card begins at its base");
        for (number, label) in [(1, 16), (2, 20), (3, 18), (4, 19)] {
            self.leave_numbered(ROOT, number);
            self.release(0, ROOT, number, label);
        }
        self.order(Order::Free);
        self.join_numbered(ROOT, 9);
        self.fresh();
        self.join_numbered(ROOT, 9);
    }

    fn refused_events(&mut self) {
        self.comment("refused events do not move it: a join and a route order in too little room, then with room: 17, and 18 and 19");
        self.join_in(0, 1);
        self.join_in(NUMBERED_RECORD - 1, 1);
        self.join_in(NUMBERED_RECORD, 1);
        for room in [0, 4 * NUMBERED_RECORD - 1, 4 * NUMBERED_RECORD] {
            self.room(room);
            self.route(ROOT, 5);
        }
        self.room(LONGEST_SAVE);
        self.ask(&[16, 17, 18, 19], &[]);
    }

    fn join_in(&mut self, room: usize, number: u8) {
        self.room(room);
        self.join_numbered(ROOT, number);
    }

    /// 32 trees of another root, moved eight times: the last label given is
    /// the last of the block. The label of each place awaits release from
    /// neighbour 1, unless it is of the last move.
    fn go_through(&mut self, base: u32) {
        self.order(Order::Start(base));
        self.use_up();
        self.route(ROOT, 0);
    }

    fn round_the_block(&mut self, base: u32) {
        self.comment(&format!(
            "base {base}: all 256 were given. Free again: places 30, 5 and 100 of the block, which are given as 5, 30, 100, and then none (12)"
        ));
        self.go_through(base);
        for (place, from) in [(30, 1), (5, 1), (100, 4)] {
            self.release(from, OTHER_ROOT, 101 + place % 32, base + u32::from(place));
        }
        for number in 1..=4 {
            self.join_numbered(ROOT, number);
        }
        self.comment(
            "place 29 lies before the last given, 200 behind it: 200, then 29 and then, once it is released, 100 again",
        );
        for (place, from) in [(29, 1), (200, 7)] {
            self.release(from, OTHER_ROOT, 101 + place % 32, base + u32::from(place));
        }
        for number in [5, 6] {
            self.join_numbered(ROOT, number);
        }
        self.leave_numbered(ROOT, 3);
        self.release(0, ROOT, 3, base + 100);
        self.join_numbered(ROOT, 3);
        self.ask(
            &[5, 29, 30, 100, 200, 255].map(|place| base + place),
            &[numbered(ROOT, 3)],
        );
    }

    fn move_round_the_block(&mut self) {
        self.comment("four trees move; free are places 40, 41, 3, 77, 9, and 50 was given last: 77, 3, 9 and 40");
        self.go_through(16);
        for place in [45, 48, 49, 50] {
            self.release(2, OTHER_ROOT, 101 + place % 32, 16 + u32::from(place));
        }
        for number in 1..=4 {
            self.join_numbered(ROOT, number);
        }
        for (place, from) in [(40, 2), (41, 2), (3, 1), (77, 3), (9, 1)] {
            self.release(from, OTHER_ROOT, 101 + place % 32, 16 + u32::from(place));
        }
        self.route(ROOT, 6);
        self.ask(&[19, 25, 56, 57, 61, 66, 93], &[]);
        self.comment("the next is 41");
        self.join_numbered(ROOT, 5);
        self.order(Order::Free);
    }

    fn last_one_alone(&mut self) {
        self.comment(
            "the last given is the only one that is free: it is given again, and once more",
        );
        self.go_through(16);
        self.route(OTHER_ROOT, 17);
        self.release(8, OTHER_ROOT, 132, 271);
        for _ in 0..2 {
            self.join_numbered(ROOT, 1);
            self.leave_numbered(ROOT, 1);
            self.release(0, ROOT, 1, 271);
        }
        self.order(Order::Free);
    }

    fn restored(&mut self) {
        self.comment("18 was given last, 16 is the highest in use: 19 is next, but 17 after a save and a restore; a refused restore leaves it at 19");
        self.fresh();
        for number in 1..=3 {
            self.join_numbered(ROOT, number);
        }
        for (number, label) in [(2, 17), (3, 18)] {
            self.leave_numbered(ROOT, number);
            self.release(0, ROOT, number, label);
        }
        let save = self.saved();
        self.order(Order::Save);
        self.restore(&save[1..]);
        self.join_numbered(ROOT, 4);
        self.restore(&save);
        self.join_numbered(ROOT, 4);
        self.order(Order::Save);
        self.comment("with no label in use it is none: the base is next");
        self.order(Order::Start(500));
        self.route(ROOT, 0);
        self.join_numbered(ROOT, 1);
        self.leave_numbered(ROOT, 1);
        self.release(0, ROOT, 1, 500);
        let save = self.saved();
        self.restore(&save);
        self.join_numbered(ROOT, 1);
        self.comment("a label that awaits release is in use: 501 is next");
        self.leave_numbered(ROOT, 1);
        let save = self.saved();
        self.restore(&save);
        self.join_numbered(ROOT, 1);
    }

    fn restored_at_the_end(&mut self) {
        self.comment("the block's last label is in use: after a restore its first free one is next, here place 2");
        self.go_through(16);
        for (place, from) in [(2, 1), (100, 4)] {
            self.release(from, OTHER_ROOT, 101 + place % 32, 16 + u32::from(place));
        }
        for number in [1, 2] {
            self.join_numbered(ROOT, number);
        }
        for (number, place) in [(1, 2), (2, 100)] {
            self.leave_numbered(ROOT, number);
            self.release(0, ROOT, number, 16 + place);
        }
        let save = self.saved();
        self.restore(&save);
        self.join_numbered(ROOT, 3);
        self.ask(&[18, 116], &[]);
    }
}

#[cfg(test)]
mod tests {
    use super::*;
    use crate::bench;
    use crate::session::Program;
    use crate::wire::GENERIC_LABEL;

    /// The label of each Mapping that is written for the page's orders.
    fn given() -> Vec<u32> {
        let mut answers = Program::Bench.answers(day().join("\n").as_bytes());
        answers.retain(|answer| !answer.starts_with("save"));
        let mut labels = Vec::new();
        for answer in answers {
            let word = answer.split(' ').nth(2).unwrap_or("");
            let octets = bench::read_hex(word.as_bytes()).unwrap_or_default();
            labels.extend(octets.chunks(NUMBERED_RECORD).filter_map(mapped));
        }
        labels
    }

    /// The label of a record of a tree that has a number.
    fn mapped(record: &[u8]) -> Option<u32> {
        let (before, label) = record.split_at(NUMBERED_RECORD - 4);
        let label = u32::from_be_bytes(label.try_into().expect("four"));
        assert_eq!(before[29..31], GENERIC_LABEL.to_be_bytes());
        (record[5] == 0).then_some(label)
    }

    /// Those that are given behind the filling of the block.
    fn parts() -> Vec<Vec<u32>> {
        let mut parts = vec![Vec::new()];
        let mut rest = &given()[..];
        while let [label, after @ ..] = rest {
            if let Some(after) = filling(rest) {
                parts.push(Vec::new());
                rest = after;
            } else {
                parts.last_mut().expect("one is there").push(*label);
                rest = after;
            }
        }
        parts
    }

    fn filling(labels: &[u32]) -> Option<&[u32]> {
        let (block, after) = labels.split_at_checked(256)?;
        let filled = (block[0]..).zip(block).all(|(n, label)| n == *label);
        filled.then_some(after)
    }

    #[test]
    fn the_page_is_as_it_says() {
        let parts = parts();
        assert_eq!(parts.len(), 6);
        let first = [16, 17, 18, 19, 20, 21, 16, 17, 18, 19];
        assert_eq!(parts[0], first);
        for (part, base) in [(1, 16), (2, 1_048_320)] {
            let places = [5, 30, 100, 200, 29, 100];
            assert_eq!(parts[part], places.map(|place| base + place));
        }
        assert_eq!(parts[3], [61, 64, 65, 66, 93, 19, 25, 56, 57]);
        let restored = [271, 271, 16, 17, 18, 19, 17, 500, 500, 501];
        assert_eq!(parts[4], restored);
        assert_eq!(parts[5], [18, 116, 18]);
    }
}
