//! The lent rooms, and what a run leaves in them.

use crate::letters::{Entry, Letters};
use crate::order::Order;
use crate::reader::{Log, Message, MOST_IN_FLIGHT};

/// The elements of the work room; what lies behind them is never touched.
pub const COUNTS: usize = 1_024;
pub const WORDS: usize = 1_056;
pub const MAIL: usize = 4_480;

/// The columns begin behind the flags of 32 nodes.
const COLUMNS: usize = 32;
/// The elements of a slot: sender, destination, number, and the entries of 32 nodes.
const SLOT: usize = 35;
const ENTRIES: usize = 3;

#[derive(Clone, Copy, Debug, PartialEq, Eq)]
pub struct Sizes {
    pub counts: usize,
    pub words: usize,
    pub mail: usize,
    pub report: usize,
}

#[derive(Clone, Debug, PartialEq, Eq)]
pub struct Rooms {
    pub counts: Vec<u16>,
    pub words: Vec<u32>,
    pub mail: Vec<u16>,
    pub report: Vec<u8>,
}

impl Rooms {
    /// Rooms as they are before a run, each byte 0xA5.
    pub fn filled(sizes: Sizes) -> Rooms {
        Rooms {
            counts: vec![0xA5A5; sizes.counts],
            words: vec![0xA5A5_A5A5; sizes.words],
            mail: vec![0xA5A5; sizes.mail],
            report: vec![0xA5; sizes.report],
        }
    }

    pub fn hold_the_work(&self) -> bool {
        self.counts.len() >= COUNTS && self.words.len() >= WORDS && self.mail.len() >= MAIL
    }

    pub fn clear_work(&mut self) {
        self.counts[..COUNTS].fill(0);
        self.words[..WORDS].fill(0);
        self.mail[..MAIL].fill(0);
    }

    /// Writes the state after the last event into a cleared work room.
    pub fn write_state(&mut self, log: &Log, order: &Order, letters: &Letters) {
        for node in 0..log.nodes {
            self.write_node(log.nodes, node, order, letters);
        }
        self.write_letters(log, letters);
    }

    fn write_letters(&mut self, log: &Log, letters: &Letters) {
        for (message, slot) in slots(&log.messages).into_iter().enumerate() {
            if log.messages[message].received.is_none() {
                self.write_letter(slot, &log.messages[message], &letters.letters[message]);
            }
        }
    }

    fn write_node(&mut self, nodes: usize, node: usize, order: &Order, letters: &Letters) {
        let row = order.row(order.past_of_node(node));
        self.words[node] = row.flags;
        for (k, &count) in row.counts.iter().enumerate() {
            let brings = |j: &usize| count > 0 && letters.has_brought(node, *j, k, count);
            let column = (0..nodes).filter(brings).fold(0, |bits, j| bits | 1 << j);
            self.counts[nodes * node + k] = count;
            self.words[COLUMNS + nodes * node + k] = column;
        }
    }

    fn write_letter(&mut self, slot: usize, message: &Message, letter: &[Option<Entry>]) {
        let room = &mut self.mail[SLOT * slot..SLOT * (slot + 1)];
        room[0] = message.sender as u16 + 1;
        room[1] = message.destination as u16;
        room[2] = message.number;
        for (k, entry) in letter.iter().enumerate() {
            room[ENTRIES + k] = entry.map_or(0, |entry| 2 * entry.count + u16::from(entry.flag));
        }
    }

    pub fn write_report(&mut self, report: &[u8]) {
        self.report[..report.len()].copy_from_slice(report);
    }
}

/// The slot of each message: the lowest that no message in flight at its send has.
fn slots(messages: &[Message]) -> Vec<usize> {
    let mut slots: Vec<usize> = Vec::with_capacity(messages.len());
    for message in messages {
        slots.push(lowest_free(&slots, messages, message.sent));
    }
    assert!(slots.iter().all(|&slot| slot < MOST_IN_FLIGHT));
    slots
}

/// The lowest slot that no message in flight at an event has, by the slots of the first messages.
fn lowest_free(slots: &[usize], messages: &[Message], event: usize) -> usize {
    let mut taken = 0u128;
    for (message, slot) in messages.iter().zip(slots) {
        let in_flight = message.received.is_none_or(|receipt| receipt > event);
        taken |= u128::from(in_flight) << slot;
    }
    taken.trailing_ones() as usize
}
