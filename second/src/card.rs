//! The tree table, its events and its lookups.

use crate::notice::Notice;
use crate::refusal::Refusal;
use crate::wire::{self, Kind, TreeName};
use std::collections::BTreeMap;
use std::rc::Rc;

pub const NEIGHBOURS: u32 = 16;
pub const MOST_TREES: usize = 64;
pub const MOST_ROOTS: usize = 32;
pub const LABELS: u32 = 256;
pub const LOWEST_BASE: u32 = 16;
pub const HIGHEST_BASE: u32 = 1_048_320;
pub const THIS_NODE: u32 = 16;
pub const NO_ROUTE: u32 = 17;

pub type Name = Rc<TreeName>;

#[derive(Clone, Debug, PartialEq, Eq)]
pub struct Tree {
    pub name: Name,
    pub branches: BTreeMap<u32, u32>,
    pub leaf: bool,
}

impl Tree {
    pub fn is_bare(&self) -> bool {
        self.branches.is_empty() && !self.leaf
    }

    /// Only one branch, held or not, and no leaf, as request [10] counts them.
    pub fn is_lone(&self) -> bool {
        self.branches.len() == 1 && !self.leaf
    }

    /// The branches that are fed. That of the upstream is held: what came
    /// from there does not go back.
    pub fn live(&self, upstream: Option<u32>) -> impl Iterator<Item = (u32, u32)> + '_ {
        let all = self.branches.iter().map(|(&n, &label)| (n, label));
        all.filter(move |&(neighbour, _)| Some(neighbour) != upstream)
    }

    /// Whether the tree has anybody to feed.
    pub fn serves(&self, upstream: Option<u32>) -> bool {
        self.leaf || self.live(upstream).next().is_some()
    }
}

#[derive(Clone, Copy, Debug, PartialEq, Eq)]
pub enum Route {
    Neighbour(u32),
    ThisNode,
}

#[derive(Clone, Debug, PartialEq, Eq)]
pub enum LabelUse {
    Free,
    Mapped(u32, Name),
    Awaiting(u32, Name),
}

impl LabelUse {
    /// To whom the label is mapped, or from whom its Release is awaited.
    pub fn neighbour(&self) -> Option<u32> {
        match self {
            LabelUse::Free => None,
            LabelUse::Mapped(neighbour, _) | LabelUse::Awaiting(neighbour, _) => Some(*neighbour),
        }
    }

    pub fn name(&self) -> Option<&Name> {
        match self {
            LabelUse::Free => None,
            LabelUse::Mapped(_, name) | LabelUse::Awaiting(_, name) => Some(name),
        }
    }
}

/// What a lookup finds: the branches by rising neighbour and the leaf mark.
#[derive(Clone, Debug, PartialEq, Eq)]
pub struct Found {
    pub leaf: bool,
    pub branches: Vec<(u32, u32)>,
}

#[derive(Clone, Debug, PartialEq, Eq)]
pub struct Card {
    base: u32,
    /// Oldest first.
    trees: Vec<Tree>,
    routes: BTreeMap<Vec<u8>, Route>,
    /// The roots with a route, in the order of their first entry.
    roots: Vec<Vec<u8>>,
    labels: Vec<LabelUse>,
    /// The label given last, by whatever event; free or not.
    last_given: Option<u32>,
    next_identifier: u32,
}

impl Card {
    fn fresh(base: u32) -> Card {
        Card {
            base,
            trees: Vec::new(),
            routes: BTreeMap::new(),
            roots: Vec::new(),
            labels: vec![LabelUse::Free; LABELS as usize],
            last_given: None,
            next_identifier: 1,
        }
    }

    /// A card as it stood, with its routes in their order; its highest label
    /// in use counts as the one given last. Whether it keeps the rules is the
    /// caller's care.
    pub fn standing(
        base: u32,
        next_identifier: u32,
        routes: Vec<(Vec<u8>, Route)>,
        trees: Vec<Tree>,
        labels: Vec<LabelUse>,
    ) -> Card {
        let highest_used = labels.iter().rposition(|held| *held != LabelUse::Free);
        Card {
            last_given: highest_used.map(|place| base + place as u32),
            base,
            trees,
            roots: routes.iter().map(|(root, _)| root.clone()).collect(),
            routes: routes.into_iter().collect(),
            labels,
            next_identifier,
        }
    }

    /// A refused start gives a fresh card of the lowest base as well.
    pub fn start(base: u32) -> (Result<(), Refusal>, Card) {
        if (LOWEST_BASE..=HIGHEST_BASE).contains(&base) {
            (Ok(()), Card::fresh(base))
        } else {
            (Err(Refusal::Base), Card::fresh(LOWEST_BASE))
        }
    }

    pub fn take(&mut self, from: u32, octets: &[u8], room: usize) -> Result<Vec<u8>, Refusal> {
        if from >= NEIGHBOURS {
            return Err(Refusal::Neighbour);
        }
        let message = wire::read_message(octets)?;
        let name = Rc::new(message.name);
        self.attempt(room, |draft| match message.kind {
            Kind::Mapping => draft.mapping(from, name, message.label),
            Kind::Withdraw => draft.withdraw(from, name, message.label),
            Kind::Release => draft.release(from, name, message.label),
        })
    }

    pub fn join(&mut self, element: &[u8], room: usize) -> Result<Vec<u8>, Refusal> {
        let name = Rc::new(wire::read_element(element)?);
        self.attempt(room, |draft| draft.join(name))
    }

    pub fn leave(&mut self, element: &[u8], room: usize) -> Result<Vec<u8>, Refusal> {
        let name = Rc::new(wire::read_element(element)?);
        self.attempt(room, |draft| draft.leave(name))
    }

    pub fn route(&mut self, root: &[u8], route: u32, room: usize) -> Result<Vec<u8>, Refusal> {
        let route = match route {
            THIS_NODE => Some(Route::ThisNode),
            NO_ROUTE => None,
            neighbour if neighbour < NEIGHBOURS => Some(Route::Neighbour(neighbour)),
            _ => return Err(Refusal::Neighbour),
        };
        if !wire::is_root(root) {
            return Err(Refusal::Element);
        }
        self.attempt(room, |draft| draft.reroute(root, route))
    }

    /// The session with the neighbour is lost: nothing of it stays.
    pub fn lost(&mut self, neighbour: u32, room: usize) -> Result<Vec<u8>, Refusal> {
        if neighbour >= NEIGHBOURS {
            return Err(Refusal::Neighbour);
        }
        self.attempt(room, |draft| draft.lose(neighbour))
    }

    /// Tells a neighbour by what number its octets were refused.
    pub fn notice(
        &mut self,
        to: u32,
        number: u32,
        octets: &[u8],
        room: usize,
    ) -> Result<Vec<u8>, Refusal> {
        if to >= NEIGHBOURS {
            return Err(Refusal::Neighbour);
        }
        self.attempt(room, |draft| {
            draft.notify(to, number, octets);
            Ok(())
        })
    }

    /// An event runs on a copy, which becomes the card only if nothing was
    /// refused and the records fit: so a refusal can leave nothing behind.
    fn attempt(
        &mut self,
        room: usize,
        event: impl FnOnce(&mut Draft) -> Result<(), Refusal>,
    ) -> Result<Vec<u8>, Refusal> {
        let mut draft = Draft {
            card: self.clone(),
            records: Vec::new(),
        };
        event(&mut draft)?;
        if draft.records.len() > room {
            return Err(Refusal::Room);
        }
        *self = draft.card;
        Ok(draft.records)
    }

    pub fn find_label(&self, label: u32) -> Option<Found> {
        match self.label_use(label)? {
            LabelUse::Mapped(to, name) => self.find_name(name, Some(*to)),
            _ => None,
        }
    }

    pub fn find_tree(&self, element: &[u8]) -> Option<Found> {
        let name = wire::read_element(element).ok()?;
        self.find_name(&name, self.upstream(&name.root))
    }

    fn find_name(&self, name: &TreeName, upstream: Option<u32>) -> Option<Found> {
        let tree = self.tree(name)?;
        Some(Found {
            leaf: tree.leaf,
            branches: tree.live(upstream).collect(),
        })
    }

    /// The neighbour that the root's route names.
    pub fn upstream(&self, root: &[u8]) -> Option<u32> {
        match self.routes.get(root)? {
            Route::Neighbour(neighbour) => Some(*neighbour),
            Route::ThisNode => None,
        }
    }

    /// The neighbour that must have a label of ours for the tree.
    pub fn label_due(&self, name: &TreeName) -> Option<u32> {
        let upstream = self.upstream(&name.root)?;
        let serves = self.tree(name)?.serves(Some(upstream));
        serves.then_some(upstream)
    }

    /// The label that is mapped for the tree, and to whom.
    pub fn label_of(&self, name: &TreeName) -> Option<(u32, u32)> {
        self.labels().find_map(|(label, held)| match held {
            LabelUse::Mapped(to, mapped) if **mapped == *name => Some((label, *to)),
            _ => None,
        })
    }

    /// Of the free labels only the lowest stay free. The others await a
    /// Release that no message can be, of a name without octets.
    pub fn use_up_beyond(&mut self, free: usize) {
        let nobody = Rc::new(TreeName {
            root: Vec::new(),
            opaque: Vec::new(),
        });
        let unused = self.labels.iter_mut().filter(|l| **l == LabelUse::Free);
        for label in unused.skip(free) {
            *label = LabelUse::Awaiting(9, nobody.clone());
        }
    }

    /// A changed route stays in its place; one that goes closes the gap.
    fn set_route(&mut self, root: &[u8], route: Option<Route>) {
        let Some(route) = route else {
            self.routes.remove(root);
            return self.roots.retain(|other| other != root);
        };
        if self.routes.insert(root.to_vec(), route).is_none() {
            self.roots.push(root.to_vec());
        }
    }

    /// Mapped to the neighbour or awaited from it.
    fn free_labels_of(&mut self, neighbour: u32) {
        for held in &mut self.labels {
            if held.neighbour() == Some(neighbour) {
                *held = LabelUse::Free;
            }
        }
    }

    fn end_routes_through(&mut self, neighbour: u32) {
        let through = |root: &&Vec<u8>| self.upstream(root) == Some(neighbour);
        let roots: Vec<Vec<u8>> = self.roots.iter().filter(through).cloned().collect();
        for root in roots {
            self.set_route(&root, None);
        }
    }

    pub fn next_identifier(&self) -> u32 {
        self.next_identifier
    }

    pub fn routes_in_order(&self) -> impl ExactSizeIterator<Item = (&[u8], Route)> {
        self.roots
            .iter()
            .map(|root| (root.as_slice(), self.routes[root]))
    }

    pub fn free_labels(&self) -> usize {
        self.labels
            .iter()
            .filter(|label| **label == LabelUse::Free)
            .count()
    }

    pub fn base(&self) -> u32 {
        self.base
    }

    pub fn trees(&self) -> &[Tree] {
        &self.trees
    }

    pub fn tree(&self, name: &TreeName) -> Option<&Tree> {
        self.trees.iter().find(|tree| *tree.name == *name)
    }

    pub fn trees_of<'a>(&'a self, root: &'a [u8]) -> impl Iterator<Item = &'a Tree> {
        self.trees.iter().filter(move |tree| tree.name.root == root)
    }

    /// How many labels the root's trees need where it is behind that neighbour.
    pub fn labels_needed(&self, root: &[u8], to: u32) -> usize {
        let served = self.trees_of(root).filter(|tree| tree.serves(Some(to)));
        served.count()
    }

    pub fn routes(&self) -> &BTreeMap<Vec<u8>, Route> {
        &self.routes
    }

    /// Each label of the block with its use, by rising label.
    pub fn labels(&self) -> impl Iterator<Item = (u32, &LabelUse)> {
        (self.base..).zip(&self.labels)
    }

    /// The first free label after the one given last, going round the block.
    fn next_label(&self) -> Option<u32> {
        let first = self.last_given.map_or(0, |last| last - self.base + 1);
        let block = (0..LABELS).map(|step| self.base + (first + step) % LABELS);
        let free = |label: &u32| self.label_use(*label) == Some(&LabelUse::Free);
        block.into_iter().find(free)
    }

    /// The card as it comes back from a save, which does not carry what was
    /// given last.
    #[cfg(test)]
    pub fn swapped(&self) -> Card {
        let used = self.labels().filter(|(_, held)| **held != LabelUse::Free);
        Card {
            last_given: used.last().map(|(label, _)| label),
            ..self.clone()
        }
    }

    pub fn last_given(&self) -> Option<u32> {
        self.last_given
    }

    /// A label of the block, or 0 for none, which a card has only while no
    /// label is in use. None where the card cannot have given that one last.
    pub fn set_last_given(&mut self, label: u32) -> Option<()> {
        let none = label == 0 && self.free_labels() == LABELS as usize;
        if !none && self.label_use(label).is_none() {
            return None;
        }
        self.last_given = (!none).then_some(label);
        Some(())
    }

    /// The name of each tree and of each label in use.
    pub fn names(&self) -> impl Iterator<Item = &Name> {
        let trees = self.trees.iter().map(|tree| &tree.name);
        trees.chain(self.labels.iter().filter_map(LabelUse::name))
    }

    fn label_use(&self, label: u32) -> Option<&LabelUse> {
        let place = label.checked_sub(self.base)?;
        self.labels.get(place as usize)
    }
}

/// A card to come, with the records written so far.
struct Draft {
    card: Card,
    records: Vec<u8>,
}

impl Draft {
    fn mapping(&mut self, from: u32, name: Name, label: u32) -> Result<(), Refusal> {
        let standing = self.tree_to_grow(&name)?.branches.insert(from, label);
        if standing.is_some_and(|standing| standing != label) {
            return Err(Refusal::OtherLabel);
        }
        self.settle(&name)
    }

    fn withdraw(&mut self, from: u32, name: Name, label: u32) -> Result<(), Refusal> {
        self.send(Kind::Release, from, &name, label);
        let Some(tree) = self.standing(&name) else {
            return Ok(());
        };
        if tree.branches.get(&from) == Some(&label) {
            tree.branches.remove(&from);
            self.drop_if_bare(&name);
        }
        self.settle(&name)
    }

    fn release(&mut self, from: u32, name: Name, label: u32) -> Result<(), Refusal> {
        let awaited = LabelUse::Awaiting(from, name);
        if self.card.label_use(label) != Some(&awaited) {
            return Err(Refusal::NotAwaited);
        }
        self.set_label(label, LabelUse::Free);
        Ok(())
    }

    fn join(&mut self, name: Name) -> Result<(), Refusal> {
        self.tree_to_grow(&name)?.leaf = true;
        self.settle(&name)
    }

    fn leave(&mut self, name: Name) -> Result<(), Refusal> {
        match self.standing(&name) {
            Some(tree) if tree.leaf => tree.leaf = false,
            _ => return Err(Refusal::NotLeaf),
        }
        self.drop_if_bare(&name);
        self.settle(&name)
    }

    fn reroute(&mut self, root: &[u8], route: Option<Route>) -> Result<(), Refusal> {
        let before = self.card.routes.get(root).copied();
        if before == route {
            return Ok(());
        }
        if before.is_none() && self.card.routes.len() == MOST_ROOTS {
            return Err(Refusal::RootsFull);
        }
        self.card.set_route(root, route);
        let names: Vec<Name> = self.card.trees_of(root).map(|t| t.name.clone()).collect();
        names.iter().try_for_each(|name| self.settle(name))
    }

    /// With its labels free and its routes gone before the trees are looked at,
    /// nothing is left that could be sent to the neighbour.
    fn lose(&mut self, neighbour: u32) -> Result<(), Refusal> {
        self.card.free_labels_of(neighbour);
        self.card.end_routes_through(neighbour);
        let names: Vec<Name> = self.card.trees.iter().map(|t| t.name.clone()).collect();
        names.iter().try_for_each(|name| {
            if let Some(tree) = self.standing(name) {
                tree.branches.remove(&neighbour);
            }
            self.drop_if_bare(name);
            self.settle(name)
        })
    }

    /// The tree that stands, or a new one.
    fn tree_to_grow(&mut self, name: &Name) -> Result<&mut Tree, Refusal> {
        if let Some(place) = self.card.trees.iter().position(|tree| tree.name == *name) {
            return Ok(&mut self.card.trees[place]);
        }
        if self.card.trees.len() == MOST_TREES {
            return Err(Refusal::TreesFull);
        }
        self.card.trees.push(Tree {
            name: name.clone(),
            branches: BTreeMap::new(),
            leaf: false,
        });
        Ok(self.card.trees.last_mut().expect("one was just entered"))
    }

    fn standing(&mut self, name: &TreeName) -> Option<&mut Tree> {
        self.card.trees.iter_mut().find(|tree| *tree.name == *name)
    }

    fn drop_if_bare(&mut self, name: &TreeName) {
        let goes = |tree: &Tree| *tree.name == *name && tree.is_bare();
        self.card.trees.retain(|tree| !goes(tree));
    }

    /// Whatever an event did to a tree or its route: a label that is not due
    /// to its neighbour any more is withdrawn, and one that is due is given.
    fn settle(&mut self, name: &Name) -> Result<(), Refusal> {
        let due = self.card.label_due(name);
        let mut given = self.card.label_of(name);
        if let Some((label, to)) = given.filter(|(_, to)| due != Some(*to)) {
            self.send(Kind::Withdraw, to, name, label);
            self.set_label(label, LabelUse::Awaiting(to, name.clone()));
            given = None;
        }
        match due {
            Some(upstream) if given.is_none() => self.announce(name, upstream),
            _ => Ok(()),
        }
    }

    /// Gives the label whose turn it is and sends it.
    fn announce(&mut self, name: &Name, upstream: u32) -> Result<(), Refusal> {
        let label = self.card.next_label().ok_or(Refusal::LabelsShort)?;
        self.card.last_given = Some(label);
        self.set_label(label, LabelUse::Mapped(upstream, name.clone()));
        self.send(Kind::Mapping, upstream, name, label);
        Ok(())
    }

    fn set_label(&mut self, label: u32, held: LabelUse) {
        let place = (label - self.card.base) as usize;
        self.card.labels[place] = held;
    }

    fn notify(&mut self, to: u32, number: u32, octets: &[u8]) {
        if let Some(notice) = Notice::due(to, self.card.next_identifier, number, octets) {
            self.step_identifier();
            self.records.extend(notice.write());
        }
    }

    fn step_identifier(&mut self) -> u32 {
        let identifier = self.card.next_identifier;
        self.card.next_identifier = identifier.wrapping_add(1);
        identifier
    }

    fn send(&mut self, kind: Kind, neighbour: u32, name: &TreeName, label: u32) {
        let identifier = self.step_identifier();
        let message = wire::write_message(kind, identifier, name, label);
        self.records.extend(wire::write_record(neighbour, &message));
    }
}

#[cfg(test)]
#[path = "card_tests.rs"]
mod tests;
