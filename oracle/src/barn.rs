//! Made-up barns: valid logs of every shape, grown event by event.

use crate::chance::Chance;
use crate::reader::{MOST_EVENTS, MOST_IN_FLIGHT};
use crate::records::{bytes_of, Record};

/// Who sends to whom.
#[derive(Clone, Copy)]
pub enum Partners {
    Anyone,
    Ring,
    Star,
    Pair,
}

/// Which message arrives next.
#[derive(Clone, Copy)]
pub enum Arrival {
    Oldest,
    Newest,
    Any,
}

/// Which number a message gets, among those not in flight.
#[derive(Clone, Copy)]
pub enum Numbering {
    Lowest,
    Ascending,
    Few,
    Scattered,
}

#[derive(Clone, Copy)]
pub struct Style {
    pub nodes: u8,
    /// How likely an event is idle, a mark, a send, a receipt.
    pub weights: [usize; 4],
    pub partners: Partners,
    pub arrival: Arrival,
    pub numbering: Numbering,
    pub most_in_flight: usize,
    /// One message in so many never arrives.
    pub lost: usize,
}

impl Style {
    pub fn any(chance: &mut Chance) -> Style {
        let weights = [
            [1, 2, 3, 3],
            [0, 1, 3, 3],
            [1, 8, 2, 2],
            [0, 1, 8, 7],
            [4, 1, 1, 1],
            [0, 3, 1, 1],
        ];
        let partners = [
            Partners::Anyone,
            Partners::Anyone,
            Partners::Ring,
            Partners::Star,
            Partners::Pair,
        ];
        let numberings = [
            Numbering::Lowest,
            Numbering::Ascending,
            Numbering::Few,
            Numbering::Scattered,
        ];
        let few = chance.between(2, 6) as u8;
        let some = chance.between(1, 32) as u8;
        Style {
            nodes: chance.pick(&[1, 2, 2, 3, 3, 4, few, few, some, some, 31, 32]),
            weights: chance.pick(&weights),
            partners: chance.pick(&partners),
            arrival: chance.pick(&[Arrival::Oldest, Arrival::Newest, Arrival::Any]),
            numbering: chance.pick(&numberings),
            most_in_flight: chance.pick(&[1, 2, 4, 16, MOST_IN_FLIGHT]),
            lost: chance.pick(&[2, 10, 1_000_000, 1_000_000]),
        }
    }

    /// Two nodes that talk a lot, so that short messages spare much.
    pub fn chatter(chance: &mut Chance) -> Style {
        Style {
            nodes: chance.between(2, 5) as u8,
            weights: chance.pick(&[[0, 1, 6, 6], [1, 2, 6, 6]]),
            partners: Partners::Pair,
            arrival: chance.pick(&[Arrival::Oldest, Arrival::Any]),
            numbering: Numbering::Lowest,
            most_in_flight: chance.between(1, 4),
            lost: 1_000_000,
        }
    }

    /// A few nodes with many messages between two marks, so that many marks are before others.
    pub fn knit(chance: &mut Chance) -> Style {
        Style {
            nodes: chance.between(2, 4) as u8,
            weights: [1, 1, 6, 6],
            partners: Partners::Anyone,
            arrival: Arrival::Any,
            numbering: Numbering::Lowest,
            most_in_flight: chance.between(1, 4),
            lost: 1_000_000,
        }
    }
}

#[derive(Clone, Copy)]
pub struct InFlight {
    pub node: u8,
    pub destination: u8,
    pub number: u16,
    lost: bool,
}

/// A valid log so far, with what is in flight at its end.
pub struct Barn {
    pub nodes: u8,
    pub records: Vec<Record>,
    pub in_flight: Vec<InFlight>,
    next_number: u16,
}

impl Barn {
    pub fn new(nodes: u8, first_number: u16) -> Barn {
        Barn {
            nodes,
            records: vec![Record::Opening { nodes }],
            in_flight: Vec::new(),
            next_number: first_number,
        }
    }

    /// A barn of this style with so many events.
    pub fn grown(chance: &mut Chance, style: Style, events: usize) -> Barn {
        let first_number = chance.pick(&[0, 1, 250, 65_530]);
        let mut barn = Barn::new(style.nodes, first_number);
        for _ in 0..events {
            barn.grow(chance, style);
        }
        barn
    }

    pub fn bytes(&self) -> Vec<u8> {
        bytes_of(&self.records)
    }

    pub fn is_full(&self) -> bool {
        self.records.len() > MOST_EVENTS
    }

    pub fn marks(&self) -> usize {
        let is_mark = |record: &&Record| matches!(record, Record::Mark { .. });
        self.records.iter().filter(is_mark).count()
    }

    pub fn has_number(&self, number: u16) -> bool {
        let same = |message: &InFlight| message.number == number;
        self.in_flight.iter().any(same)
    }

    /// Adds one event.
    pub fn grow(&mut self, chance: &mut Chance, style: Style) {
        let node = chance.below(self.nodes.into()) as u8;
        let done = match chance.weighted(&style.weights) {
            0 => false,
            1 => self.mark(node),
            2 => self.try_send(chance, style) || self.try_receive(chance, style),
            _ => self.try_receive(chance, style) || self.try_send(chance, style),
        };
        if !done {
            self.records.push(Record::Idle { node });
        }
    }

    pub fn mark(&mut self, node: u8) -> bool {
        self.records.push(Record::Mark { node });
        true
    }

    fn try_send(&mut self, chance: &mut Chance, style: Style) -> bool {
        if self.nodes < 2 || self.in_flight.len() >= style.most_in_flight {
            return false;
        }
        let (node, destination) = partners(chance, style.partners, self.nodes);
        let number = self.free_number(chance, style.numbering);
        self.send(node, destination, number);
        let message = self.in_flight.last_mut();
        message.expect("it was just sent").lost = chance.one_in(style.lost);
        true
    }

    pub fn send(&mut self, node: u8, destination: u8, number: u16) {
        self.records.push(Record::Send {
            node,
            destination,
            number,
        });
        self.in_flight.push(InFlight {
            node,
            destination,
            number,
            lost: false,
        });
    }

    /// Sends from any node to the next one.
    pub fn send_on(&mut self, chance: &mut Chance) {
        let number = self.free_number(chance, Numbering::Ascending);
        let node = chance.below(self.nodes.into()) as u8;
        self.send(node, (node + 1) % self.nodes, number);
    }

    /// Sends until 128 messages are in flight.
    pub fn fill_the_air(&mut self, chance: &mut Chance) {
        while self.in_flight.len() < MOST_IN_FLIGHT {
            self.send_on(chance);
        }
    }

    fn try_receive(&mut self, chance: &mut Chance, style: Style) -> bool {
        let indexes = 0..self.in_flight.len();
        let arriving: Vec<usize> = indexes.filter(|&at| !self.in_flight[at].lost).collect();
        if arriving.is_empty() {
            return false;
        }
        self.receive(match style.arrival {
            Arrival::Oldest => arriving[0],
            Arrival::Newest => arriving[arriving.len() - 1],
            Arrival::Any => chance.pick(&arriving),
        });
        true
    }

    /// Receives the message at this index of those in flight.
    pub fn receive(&mut self, index: usize) {
        let message = self.in_flight.remove(index);
        self.records.push(Record::Receipt {
            node: message.destination,
            number: message.number,
        });
    }

    pub fn free_number(&mut self, chance: &mut Chance, numbering: Numbering) -> u16 {
        let mut number = match numbering {
            Numbering::Lowest => 0,
            Numbering::Ascending => self.next_number,
            Numbering::Few => chance.below(2 * MOST_IN_FLIGHT) as u16,
            Numbering::Scattered => chance.next() as u16,
        };
        while self.has_number(number) {
            number = number.wrapping_add(1);
        }
        self.next_number = number.wrapping_add(1);
        number
    }
}

/// A sender and another node.
fn partners(chance: &mut Chance, partners: Partners, nodes: u8) -> (u8, u8) {
    let node = chance.below(nodes.into()) as u8;
    let other = (node + chance.between(1, usize::from(nodes) - 1) as u8) % nodes;
    match partners {
        Partners::Anyone => (node, other),
        Partners::Ring => (node, (node + 1) % nodes),
        Partners::Star if node == 0 => (node, other),
        Partners::Star => (node, 0),
        Partners::Pair if chance.one_in(2) => (0, nodes - 1),
        Partners::Pair => (nodes - 1, 0),
    }
}
