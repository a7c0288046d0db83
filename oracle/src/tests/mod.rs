//! Tests: known answers, the steps of the protocol carried out directly, reports, and the tools.

mod comparing;
mod definitions;
mod following;
mod known;
mod samples;
mod steps;
mod tools;
mod well_formed;

use crate::answer::{self, Answer};
use crate::groups::Name;
use crate::letters::Mode;
use crate::reader::Refusal;
use crate::relation::{self, Relation};
use crate::rooms::{Rooms, Sizes, COUNTS, MAIL, WORDS};

/// Rooms of just the work's size, with a report room of this size.
pub fn sizes(report: usize) -> Sizes {
    Sizes {
        counts: COUNTS,
        words: WORDS,
        mail: MAIL,
        report,
    }
}

/// Runs a log in rooms that are large enough.
pub fn run(mode: Mode, log: &[u8]) -> (Answer, Rooms) {
    let mut rooms = Rooms::filled(sizes(131_072));
    let answer = answer::run(mode, log, &mut rooms);
    (answer, rooms)
}

pub fn assert_relation(report: &[u8], first: Name, second: Name, relation: Relation) {
    assert_eq!(relation::between(report, first, second), Ok(relation));
}

pub fn assert_no_relation(report: &[u8], first: Name, second: Name, number: u8, place: usize) {
    let refusal = Refusal { number, place };
    assert_eq!(relation::between(report, first, second), Err(refusal));
}

pub const A: [u8; 35] = [
    0x10, 0x03, 0x12, 0x00, 0x13, 0x00, 0x01, 0x01, 0x00, 0x13, 0x00, 0x02, 0x02, 0x00, 0x14, 0x01,
    0x01, 0x00, 0x12, 0x01, 0x13, 0x01, 0x02, 0x03, 0x00, 0x14, 0x02, 0x02, 0x00, 0x14, 0x02, 0x03,
    0x00, 0x12, 0x02,
];

pub const B: [u8; 35] = [
    0x10, 0x02, 0x12, 0x00, 0x13, 0x00, 0x01, 0x01, 0x00, 0x14, 0x01, 0x01, 0x00, 0x13, 0x01, 0x00,
    0x02, 0x00, 0x12, 0x01, 0x13, 0x01, 0x00, 0x03, 0x00, 0x14, 0x00, 0x03, 0x00, 0x12, 0x00, 0x14,
    0x00, 0x02, 0x00,
];

/// The group of mark 0.1 alone.
pub const ONE: [u8; 9] = [0x21, 0, 1, 0, 0, 0x22, 0, 1, 0];

/// The group of mark 1.1, behind 0.1.
pub const TWO: [u8; 17] = [
    0x21, 1, 1, 0, 1, 0x22, 0, 1, 0, 0x22, 1, 1, 0, 0x23, 0, 1, 0,
];
