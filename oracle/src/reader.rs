//! The reader of a log: the events and messages of an accepted log, or the refusal of another.

use crate::records::{IDLE, MARK, OPENING, RECEIPT, SEND};
use std::collections::BTreeMap;

pub const MOST_NODES: u8 = 32;
pub const MOST_EVENTS: usize = 4_096;
pub const MOST_IN_FLIGHT: usize = 128;

#[derive(Clone, Copy, Debug, PartialEq, Eq)]
pub struct Refusal {
    pub number: u8,
    pub place: usize,
}

#[derive(Clone, Copy, Debug, PartialEq, Eq)]
pub enum Act {
    Idle,
    Mark,
    /// The send of the message that stands at this index among the messages.
    Send(usize),
    Receipt(usize),
}

#[derive(Clone, Copy, Debug)]
pub struct Event {
    pub node: usize,
    pub act: Act,
}

#[derive(Clone, Debug)]
pub struct Message {
    pub sender: usize,
    pub destination: usize,
    pub number: u16,
    /// The event that sends it.
    pub sent: usize,
    /// The event that receives it, if any does.
    pub received: Option<usize>,
}

/// An accepted log. Events and messages are in log order.
#[derive(Clone, Debug)]
pub struct Log {
    pub nodes: usize,
    pub events: Vec<Event>,
    pub messages: Vec<Message>,
}

impl Log {
    pub fn marks(&self) -> usize {
        let mark = |event: &&Event| event.act == Act::Mark;
        self.events.iter().filter(mark).count()
    }
}

/// Reads a whole log.
pub fn read(bytes: &[u8]) -> Result<Log, Refusal> {
    let mut reader = Reader::open(bytes)?;
    let mut place = 2;
    while place < bytes.len() {
        place = reader.record(place)?;
    }
    Ok(reader.log)
}

struct Reader<'a> {
    bytes: &'a [u8],
    log: Log,
    /// The message that has each number in flight.
    in_flight: BTreeMap<u16, usize>,
}

fn refuse<T>(number: u8, place: usize) -> Result<T, Refusal> {
    Err(Refusal { number, place })
}

impl<'a> Reader<'a> {
    /// Takes the first record, or refuses with 2 or 3.
    fn open(bytes: &'a [u8]) -> Result<Reader<'a>, Refusal> {
        if bytes.len() < 2 || bytes[0] != OPENING {
            return refuse(2, 0);
        }
        if bytes[1] == 0 || bytes[1] > MOST_NODES {
            return refuse(3, 1);
        }
        let log = Log {
            nodes: bytes[1] as usize,
            events: Vec::new(),
            messages: Vec::new(),
        };
        Ok(Reader {
            bytes,
            log,
            in_flight: BTreeMap::new(),
        })
    }

    /// Takes the record at a place and gives the place behind it.
    fn record(&mut self, place: usize) -> Result<usize, Refusal> {
        let kind = self.bytes[place];
        let body = match kind {
            IDLE | MARK => 1,
            SEND => 4,
            RECEIPT => 3,
            _ => return refuse(4, place),
        };
        let next = place + 1 + body;
        if next > self.bytes.len() {
            return refuse(5, place);
        }
        if self.log.events.len() == MOST_EVENTS {
            return refuse(12, place);
        }
        let node = self.node(place + 1)?;
        let act = match kind {
            IDLE => Act::Idle,
            MARK => Act::Mark,
            SEND => self.send(place, node)?,
            _ => self.receipt(place, node)?,
        };
        self.log.events.push(Event { node, act });
        Ok(next)
    }

    fn node(&self, place: usize) -> Result<usize, Refusal> {
        let node = self.bytes[place] as usize;
        if node >= self.log.nodes {
            return refuse(6, place);
        }
        Ok(node)
    }

    fn number(&self, place: usize) -> u16 {
        u16::from_le_bytes([self.bytes[place], self.bytes[place + 1]])
    }

    fn send(&mut self, place: usize, sender: usize) -> Result<Act, Refusal> {
        let destination = self.node(place + 2)?;
        if destination == sender {
            return refuse(7, place + 2);
        }
        let number = self.number(place + 3);
        if self.in_flight.contains_key(&number) {
            return refuse(8, place + 3);
        }
        if self.in_flight.len() == MOST_IN_FLIGHT {
            return refuse(9, place);
        }
        let message = self.log.messages.len();
        self.in_flight.insert(number, message);
        self.log.messages.push(Message {
            sender,
            destination,
            number,
            sent: self.log.events.len(),
            received: None,
        });
        Ok(Act::Send(message))
    }

    fn receipt(&mut self, place: usize, node: usize) -> Result<Act, Refusal> {
        let number = self.number(place + 2);
        let Some(&message) = self.in_flight.get(&number) else {
            return refuse(10, place + 2);
        };
        if self.log.messages[message].destination != node {
            return refuse(11, place + 2);
        }
        self.in_flight.remove(&number);
        self.log.messages[message].received = Some(self.log.events.len());
        Ok(Act::Receipt(message))
    }
}
