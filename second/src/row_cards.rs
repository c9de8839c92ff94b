//! A whole card as a term of a proof language, with each root and name said
//! once, under a word of its own.

use crate::card::{Card, LabelUse, Route, Tree, LABELS, THIS_NODE};
use crate::rows::list;
use crate::wire;

/// The texts that have a word: roots and names.
pub struct Words {
    texts: Vec<Vec<u8>>,
}

impl Words {
    pub fn new() -> Words {
        Words { texts: Vec::new() }
    }

    fn word(&mut self, text: Vec<u8>) -> String {
        let known = self.texts.iter().position(|other| *other == text);
        let place = known.unwrap_or_else(|| {
            self.texts.push(text);
            self.texts.len() - 1
        });
        format!("t{place}")
    }

    /// What each word stands for.
    pub fn lines(&self) -> Vec<String> {
        let defined = |(place, text): (usize, &Vec<u8>)| {
            let text = list(text);
            [
                format!("abbrev pub t{place} : List ℕ"),
                format!("t{place} = {text}"),
                String::new(),
            ]
        };
        self.texts.iter().enumerate().flat_map(defined).collect()
    }
}

/// Every field of the card. Of the labels those up to a place are said one by
/// one; behind it all are alike.
pub fn card_text(card: &Card, words: &mut Words) -> String {
    let routes: Vec<String> = card
        .routes_in_order()
        .map(|(root, route)| route_text(root, route, words))
        .collect();
    let trees: Vec<String> = card
        .trees()
        .iter()
        .map(|tree| tree_text(card, tree, words))
        .collect();
    let (base, next) = (card.base(), card.next_identifier());
    let last = card.last_given().unwrap_or(0);
    let labels = labels_text(card, words);
    format!(
        "card {base} {next} {last} ({}) ({}) ({labels})",
        listed(&routes),
        listed(&trees)
    )
}

fn listed(terms: &[String]) -> String {
    let mut text: String = terms.iter().map(|term| format!("{term} ∷ ")).collect();
    text.push_str("[]");
    text
}

fn route_text(root: &[u8], route: Route, words: &mut Words) -> String {
    let via = match route {
        Route::Neighbour(neighbour) => neighbour,
        Route::ThisNode => THIS_NODE,
    };
    format!("by {} {via}", words.word(root.to_vec()))
}

fn tree_text(card: &Card, tree: &Tree, words: &mut Words) -> String {
    let name = words.word(wire::write_element(&tree.name));
    let label = card.label_of(&tree.name).map_or(0, |(label, _)| label);
    let mut branches = "none".to_string();
    for (neighbour, label) in tree.branches.iter().rev() {
        branches = format!("at {neighbour} {label} ({branches})");
    }
    format!("tree {name} ({branches}) {} {label}", tree.leaf)
}

fn labels_text(card: &Card, words: &mut Words) -> String {
    let uses: Vec<&LabelUse> = card.labels().map(|(_, held)| held).collect();
    let rest = uses.last().expect("a block has labels");
    let differs = uses.iter().rposition(|held| held != rest);
    let said = differs.map_or(0, |place| place + 1);
    let mut text = String::new();
    for held in &uses[..said] {
        text.push_str(&use_text(held, words));
        text.push_str(" ∷ ");
    }
    let left = LABELS as usize - said;
    format!("{text}replicate {left} ({})", use_text(rest, words))
}

fn use_text(held: &LabelUse, words: &mut Words) -> String {
    let (state, neighbour, name) = match held {
        LabelUse::Free => return "free".to_string(),
        LabelUse::Mapped(to, name) => ("mapped", to, name),
        LabelUse::Awaiting(from, name) => ("awaiting", from, name),
    };
    // The name without octets of a label that is used up for good.
    if name.root.is_empty() {
        return format!("{state} {neighbour} []");
    }
    let word = words.word(wire::write_element(name));
    format!("{state} {neighbour} {word}")
}

#[cfg(test)]
mod tests {
    use super::*;
    use crate::bench::{self, Bench, Said};

    #[test]
    fn a_card_in_full() {
        let mut bench = Bench::new();
        for line in [
            "route c0000201 0",
            "take 1 0400001d000000010100000d06000104c000020100030100000200000400000064",
            "join 06000104c00002010003010000",
            "route c0000201 3",
            "route c0000202 16",
            "join 06000104c00002020003010000",
        ] {
            let Said::Order(order) = bench::read_line(line.as_bytes()) else {
                panic!("{line}");
            };
            assert!(bench.obey(&order).contains(" 0"), "{line}");
        }
        let mut words = Words::new();
        assert_eq!(
            card_text(&bench.card, &mut words),
            "card 16 4 17 (by t0 3 ∷ by t1 16 ∷ []) \
             (tree t2 (at 1 100 (none)) true 17 ∷ tree t3 (none) true 0 ∷ []) \
             (awaiting 0 t2 ∷ mapped 3 t2 ∷ replicate 254 (free))"
        );
        assert_eq!(words.lines().len(), 12);
        assert_eq!(words.lines()[1], "t0 = 192 ∷ 0 ∷ 2 ∷ 1 ∷ []");
    }

    #[test]
    fn few_free_labels() {
        let mut card = Card::start(16).1;
        card.use_up_beyond(2);
        assert_eq!(
            card_text(&card, &mut Words::new()),
            "card 16 1 0 ([]) ([]) (free ∷ free ∷ replicate 254 (awaiting 9 []))"
        );
    }
}
