//! What each message carries, remembered for good, and what a node can tell from it.

use crate::order::{Order, Row};
use crate::reader::{Act, Log};

#[derive(Clone, Copy, Debug, PartialEq, Eq)]
pub enum Mode {
    Full,
    Short,
}

#[derive(Clone, Copy, Debug, PartialEq, Eq)]
pub struct Entry {
    pub count: u16,
    pub flag: bool,
}

/// For each node its entry, or none if it is not carried.
pub type Letter = Vec<Option<Entry>>;

pub struct Letters {
    /// The letter of each message.
    pub letters: Vec<Letter>,
    /// The messages that a node has received from another, in order of receipt.
    received: Vec<Vec<Vec<usize>>>,
    /// How many counts above zero were left out, and how many known ones went for a clear flag.
    pub spared: usize,
    pub for_clear_flag: usize,
}

impl Letters {
    pub fn of(log: &Log, order: &Order, mode: Mode) -> Letters {
        let mut letters = Letters {
            letters: Vec::with_capacity(log.messages.len()),
            received: vec![vec![Vec::new(); log.nodes]; log.nodes],
            spared: 0,
            for_clear_flag: 0,
        };
        for (place, event) in log.events.iter().enumerate() {
            match event.act {
                Act::Send(message) => {
                    let row = order.row(order.past(place));
                    let destination = log.messages[message].destination;
                    let letter = letters.letter(mode, event.node, destination, &row);
                    letters.letters.push(letter);
                }
                Act::Receipt(message) => {
                    let sender = log.messages[message].sender;
                    letters.received[event.node][sender].push(message);
                }
                Act::Idle | Act::Mark => {}
            }
        }
        letters
    }

    fn letter(&mut self, mode: Mode, node: usize, destination: usize, row: &Row) -> Letter {
        let mut letter = Letter::new();
        for (k, &count) in row.counts.iter().enumerate() {
            let flag = row.flags >> k & 1 == 1;
            let carried = mode == Mode::Full || self.is_carried(node, destination, k, count, flag);
            letter.push(carried.then_some(Entry { count, flag }));
        }
        letter
    }

    /// The rule of short sends, for k's count and flag as they stand at the sender.
    fn is_carried(&mut self, node: usize, to: usize, k: usize, count: u16, flag: bool) -> bool {
        if count == 0 {
            return false;
        }
        let known = self.has_brought(node, to, k, count);
        self.spared += usize::from(known && flag);
        self.for_clear_flag += usize::from(known && !flag);
        !known || !flag
    }

    /// Whether a message that the node has received from the other carried just this count of k.
    pub fn has_brought(&self, node: usize, other: usize, k: usize, count: u16) -> bool {
        let carries = |message: &usize| {
            let entry = self.letters[*message][k];
            entry.is_some_and(|entry| entry.count == count)
        };
        self.received[node][other].iter().any(carries)
    }

    /// The carried entries of all messages.
    pub fn carried(&self) -> usize {
        self.letters.iter().flatten().flatten().count()
    }
}
