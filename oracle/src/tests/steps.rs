//! The protocol's steps as they are told: rows of counts and flags that letters change.
//!
//! This is the idea that the oracle itself must not use; it stands here only to be held against it.

use crate::letters::Mode;
use crate::records::Record;
use crate::rooms::Rooms;

#[derive(Clone)]
struct Node {
    counts: Vec<u16>,
    flags: Vec<bool>,
    /// For each node k, as bits, the nodes whose letters brought k's count as it stands.
    columns: Vec<u32>,
}

/// For each entry that is carried: node, count and flag.
type Letter = Vec<(usize, u16, bool)>;

struct Message {
    sender: usize,
    destination: u8,
    number: u16,
    letter: Letter,
}

pub struct Steps {
    mode: Mode,
    nodes: Vec<Node>,
    slots: Vec<Option<Message>>,
    pub report: Vec<u8>,
    pub carried: Vec<usize>,
}

impl Steps {
    pub fn new(mode: Mode, nodes: u8) -> Steps {
        let nodes = usize::from(nodes);
        let node = Node {
            counts: vec![0; nodes],
            flags: vec![false; nodes],
            columns: vec![0; nodes],
        };
        Steps {
            mode,
            nodes: vec![node; nodes],
            slots: (0..128).map(|_| None).collect(),
            report: Vec::new(),
            carried: Vec::new(),
        }
    }

    pub fn take(&mut self, record: Record) {
        match record {
            Record::Opening { .. } | Record::Idle { .. } => {}
            Record::Mark { node } => self.mark(node.into()),
            Record::Send {
                node,
                destination,
                number,
            } => self.send(node.into(), destination, number),
            Record::Receipt { node, number } => self.receive(node.into(), number),
        }
    }

    fn mark(&mut self, node: usize) {
        let row = &mut self.nodes[node];
        let flagged = |k: &usize| row.flags[*k];
        let direct: Vec<usize> = (0..row.flags.len()).filter(flagged).collect();
        let listed = direct.iter().map(|&k| (0x23, k, row.counts[k]));
        let listed: Vec<(u8, usize, u16)> = listed.collect();
        row.counts[node] += 1;
        row.flags.fill(false);
        row.flags[node] = true;
        row.columns[node] = 0;
        let counts = row.counts.clone();
        self.put(0x21, node, counts[node]);
        self.report.push(direct.len() as u8);
        for (k, &count) in counts.iter().enumerate().filter(|(_, count)| **count > 0) {
            self.put(0x22, k, count);
        }
        for (kind, k, count) in listed {
            self.put(kind, k, count);
        }
    }

    fn put(&mut self, kind: u8, node: usize, number: u16) {
        let [low, high] = number.to_le_bytes();
        self.report.extend([kind, node as u8, low, high]);
    }

    fn send(&mut self, sender: usize, destination: u8, number: u16) {
        let row = &self.nodes[sender];
        let goes = |k: &usize| {
            let known = row.columns[*k] >> destination & 1 == 1;
            self.mode == Mode::Full || row.counts[*k] > 0 && (!row.flags[*k] || !known)
        };
        let entry = |k: usize| (k, row.counts[k], row.flags[k]);
        let letter: Letter = (0..row.counts.len()).filter(goes).map(entry).collect();
        self.carried.push(letter.len());
        let free = self.slots.iter().position(Option::is_none);
        self.slots[free.expect("a slot is free")] = Some(Message {
            sender,
            destination,
            number,
            letter,
        });
    }

    fn receive(&mut self, node: usize, number: u16) {
        let has_it =
            |slot: &&mut Option<Message>| slot.as_ref().is_some_and(|m| m.number == number);
        let slot = self.slots.iter_mut().find(has_it).expect("it is in flight");
        let message = slot.take().expect("it is in flight");
        assert_eq!(usize::from(message.destination), node);
        let row = &mut self.nodes[node];
        for (k, count, flag) in message.letter {
            if count > row.counts[k] {
                (row.counts[k], row.flags[k]) = (count, flag);
                row.columns[k] = 1 << message.sender;
            } else if count == row.counts[k] && count > 0 {
                row.flags[k] &= flag;
                row.columns[k] |= 1 << message.sender;
            }
        }
    }

    /// Writes report and state into rooms that are as before a run.
    pub fn write(&self, rooms: &mut Rooms) {
        rooms.clear_work();
        rooms.report[..self.report.len()].copy_from_slice(&self.report);
        let n = self.nodes.len();
        for (i, node) in self.nodes.iter().enumerate() {
            for k in 0..n {
                rooms.counts[n * i + k] = node.counts[k];
                rooms.words[i] |= u32::from(node.flags[k]) << k;
                rooms.words[32 + n * i + k] = node.columns[k];
            }
        }
        for (s, message) in self.slots.iter().enumerate() {
            let Some(message) = message else { continue };
            rooms.mail[35 * s] = message.sender as u16 + 1;
            rooms.mail[35 * s + 1] = message.destination.into();
            rooms.mail[35 * s + 2] = message.number;
            for &(k, count, flag) in &message.letter {
                rooms.mail[35 * s + 3 + k] = 2 * count + u16::from(flag);
            }
        }
    }
}
