//! The marks of a log with their stamps and direct predecessors, and the report of them.

use crate::groups::Group;
use crate::order::Order;
use crate::reader::{Act, Log};

#[derive(Clone, Debug, PartialEq, Eq)]
pub struct Mark {
    pub node: usize,
    pub number: u16,
    /// The count of every node.
    pub stamp: Vec<u16>,
    /// Node and number of each direct predecessor, ascending.
    pub direct: Vec<(usize, u16)>,
}

/// The marks in log order.
pub fn marks(log: &Log, order: &Order) -> Vec<Mark> {
    let mut marks = Vec::new();
    for (place, event) in log.events.iter().enumerate() {
        if event.act == Act::Mark {
            marks.push(Mark {
                node: event.node,
                number: order.number(place),
                stamp: order.counts(order.past(place)),
                direct: order.direct(place),
            });
        }
    }
    marks
}

pub fn bytes_of(marks: &[Mark]) -> Vec<u8> {
    marks
        .iter()
        .map(Group::of)
        .flat_map(|group| group.bytes())
        .collect()
}
