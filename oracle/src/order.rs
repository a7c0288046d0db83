//! The order of events, built directly: for each event the set of all events at or before it.

use crate::reader::{Act, Log};
use crate::set::Set;

/// What a node knows at a cut: for each node the count of its marks, and as bits the direct flags.
#[derive(Clone, Debug, PartialEq, Eq)]
pub struct Row {
    pub counts: Vec<u16>,
    pub flags: u32,
}

pub struct Order {
    /// For each event those that are before it, and itself.
    pasts: Vec<Set>,
    /// The node of each event.
    nodes: Vec<usize>,
    marks: Set,
    marks_of: Vec<Set>,
    /// The last event of each node.
    last: Vec<Option<usize>>,
    nothing: Set,
}

impl Order {
    pub fn of(log: &Log) -> Order {
        let nothing = Set::up_to(log.events.len());
        let mut order = Order {
            pasts: Vec::with_capacity(log.events.len()),
            nodes: log.events.iter().map(|event| event.node).collect(),
            marks: nothing.clone(),
            marks_of: vec![nothing.clone(); log.nodes],
            last: vec![None; log.nodes],
            nothing,
        };
        for place in 0..log.events.len() {
            order.add(log, place);
        }
        order
    }

    /// Adds the event at a place of the log, whose direct predecessors stand earlier in it.
    fn add(&mut self, log: &Log, place: usize) {
        let event = log.events[place];
        let mut past = Set::up_to(place);
        past.insert(place);
        if let Some(previous) = self.last[event.node] {
            past.join(&self.pasts[previous]);
        }
        if let Act::Receipt(message) = event.act {
            past.join(&self.pasts[log.messages[message].sent]);
        }
        if event.act == Act::Mark {
            self.marks.insert(place);
            self.marks_of[event.node].insert(place);
        }
        self.pasts.push(past);
        self.last[event.node] = Some(place);
    }

    /// The events at or before an event.
    pub fn past(&self, event: usize) -> &Set {
        &self.pasts[event]
    }

    /// The events at or before a node's last one.
    pub fn past_of_node(&self, node: usize) -> &Set {
        self.last[node].map_or(&self.nothing, |event| &self.pasts[event])
    }

    /// The marks of a cut that are before no other mark of it.
    pub fn foremost(&self, cut: &Set) -> Vec<usize> {
        let mut left = cut.common(&self.marks);
        let mut found = Vec::new();
        // What is left is before none of the marks found, and its last mark is before no mark
        // left, since an event stands in the log behind all that are before it.
        while let Some(mark) = left.last() {
            found.push(mark);
            left.remove_all(&self.pasts[mark]);
        }
        found
    }

    pub fn counts(&self, cut: &Set) -> Vec<u16> {
        let count = |marks: &Set| marks.count_common(cut) as u16;
        self.marks_of.iter().map(count).collect()
    }

    /// Which number a mark has among those of its node.
    pub fn number(&self, mark: usize) -> u16 {
        self.marks_of[self.nodes[mark]].count_common(&self.pasts[mark]) as u16
    }

    pub fn row(&self, cut: &Set) -> Row {
        let foremost = self.foremost(cut);
        let flag = |flags: u32, mark: &usize| flags | 1 << self.nodes[*mark];
        Row {
            counts: self.counts(cut),
            flags: foremost.iter().fold(0, flag),
        }
    }

    /// The direct predecessors of a mark: node and number, ascending.
    pub fn direct(&self, mark: usize) -> Vec<(usize, u16)> {
        let mut before = self.pasts[mark].clone();
        before.remove(mark);
        let foremost = self.foremost(&before);
        let pair = |&mark: &usize| (self.nodes[mark], self.number(mark));
        let mut direct: Vec<(usize, u16)> = foremost.iter().map(pair).collect();
        direct.sort_unstable();
        direct
    }
}
