//! Big logs: thousands of events, at the bounds and just past them.

use crate::barn::{Arrival, Barn, Numbering, Partners, Style};
use crate::chance::Chance;
use crate::damage;
use crate::faults::{self, Fault, FAULTS};
use crate::frames::LONGEST_LOG;
use crate::reader::{MOST_EVENTS, MOST_IN_FLIGHT};
use crate::records::{self, Record};

type Big = fn(&mut Chance) -> Vec<u8>;

const BIGS: [Big; 19] = [
    busy_barn,
    one_event_too_many,
    longest,
    long_with_marks,
    all_idle,
    one_too_many_and_unknown,
    one_too_many_and_cut,
    one_too_many_and_too_high,
    one_too_many_and_another_fault,
    chatter,
    marks_of_all,
    marks_of_few,
    damaged,
    past_twenty_thousand,
    star,
    ring,
    air_full,
    any_style,
    longest_input,
];

pub const KINDS: usize = BIGS.len();

pub fn log(chance: &mut Chance, kind: usize) -> Vec<u8> {
    BIGS[kind](chance)
}

/// Any style, but of the weights and bounds that a full log asks for.
fn style(chance: &mut Chance, nodes: u8, weights: [usize; 4]) -> Style {
    Style {
        nodes,
        weights,
        most_in_flight: chance.pick(&[8, 40, MOST_IN_FLIGHT]),
        lost: chance.pick(&[100, 1_000_000]),
        ..Style::any(chance)
    }
}

fn full(chance: &mut Chance, style: Style) -> Barn {
    Barn::grown(chance, style, MOST_EVENTS)
}

fn busy_barn(chance: &mut Chance) -> Vec<u8> {
    let nodes = chance.pick(&[32, 32, 24, 12]);
    let style = style(chance, nodes, [4, 1, 8, 8]);
    full(chance, style).bytes()
}

fn one_event_too_many(chance: &mut Chance) -> Vec<u8> {
    let style = Style::any(chance);
    Barn::grown(chance, style, MOST_EVENTS + 1).bytes()
}

/// As many sends as an accepted log can have: 18,498 bytes.
fn longest(chance: &mut Chance) -> Vec<u8> {
    long(chance, usize::MAX)
}

fn long_with_marks(chance: &mut Chance) -> Vec<u8> {
    long(chance, 40)
}

/// 4,096 events, 128 messages in flight after each two; one event in so many is a mark.
fn long(chance: &mut Chance, marks: usize) -> Vec<u8> {
    let first_number = chance.next() as u16;
    let mut barn = Barn::new(chance.between(2, 32) as u8, first_number);
    while !barn.is_full() {
        if chance.one_in(marks) {
            barn.mark(chance.below(barn.nodes.into()) as u8);
        } else if barn.in_flight.len() == MOST_IN_FLIGHT {
            let index = chance.below(MOST_IN_FLIGHT);
            barn.receive(index);
        } else {
            barn.send_on(chance);
        }
    }
    barn.bytes()
}

fn all_idle(chance: &mut Chance) -> Vec<u8> {
    let style = style(chance, 3, [1, 0, 0, 0]);
    let events = MOST_EVENTS + chance.below(2);
    Barn::grown(chance, style, events).bytes()
}

/// A 4,097th record that has a fault of its own.
fn one_too_many_with(chance: &mut Chance, fault: Fault) -> Vec<u8> {
    let nodes = chance.between(2, 6) as u8;
    let style = style(chance, nodes, [4, 1, 1, 1]);
    let mut barn = full(chance, style);
    faults::faulty_after(chance, &mut barn, fault)
}

/// Not 12 but 4.
fn one_too_many_and_unknown(chance: &mut Chance) -> Vec<u8> {
    let fault = chance.pick(&[Fault::UnknownKind, Fault::LaterOpening]);
    one_too_many_with(chance, fault)
}

/// Not 12 but 5.
fn one_too_many_and_cut(chance: &mut Chance) -> Vec<u8> {
    one_too_many_with(chance, Fault::CutShort)
}

/// Not 6 but 12.
fn one_too_many_and_too_high(chance: &mut Chance) -> Vec<u8> {
    one_too_many_with(chance, Fault::SenderTooHigh)
}

fn one_too_many_and_another_fault(chance: &mut Chance) -> Vec<u8> {
    let fault = chance.pick(&FAULTS);
    one_too_many_with(chance, fault)
}

fn chatter(chance: &mut Chance) -> Vec<u8> {
    let style = Style::chatter(chance);
    full(chance, style).bytes()
}

/// More report bytes than any room has.
fn marks_of_all(chance: &mut Chance) -> Vec<u8> {
    let style = style(chance, 32, [0, 3, 2, 2]);
    full(chance, style).bytes()
}

fn marks_of_few(chance: &mut Chance) -> Vec<u8> {
    let nodes = chance.between(1, 4) as u8;
    let style = style(chance, nodes, [0, 8, 1, 1]);
    full(chance, style).bytes()
}

fn damaged(chance: &mut Chance) -> Vec<u8> {
    let nodes = chance.between(2, 32) as u8;
    let style = style(chance, nodes, [1, 1, 4, 4]);
    let events = chance.between(1_500, 4_096);
    let log = Barn::grown(chance, style, events).bytes();
    damage::damaged(chance, &records::KINDS, log)
}

/// A full log that goes on past the 4,097th event.
fn past_twenty_thousand(chance: &mut Chance) -> Vec<u8> {
    let mut log = longest(chance);
    let length = chance.between(20_001, LONGEST_LOG);
    while log.len() < length {
        let node = chance.below(40) as u8;
        Record::Mark { node }.write(&mut log);
    }
    log.truncate(length);
    log
}

fn star(chance: &mut Chance) -> Vec<u8> {
    among(chance, Partners::Star)
}

fn ring(chance: &mut Chance) -> Vec<u8> {
    among(chance, Partners::Ring)
}

/// Much talk, between such partners alone.
fn among(chance: &mut Chance, partners: Partners) -> Vec<u8> {
    let nodes = chance.between(3, 32) as u8;
    let style = Style {
        partners,
        ..style(chance, nodes, [1, 1, 6, 6])
    };
    full(chance, style).bytes()
}

/// Many in flight at once, the newest received first, so that nearly all overtake.
fn air_full(chance: &mut Chance) -> Vec<u8> {
    let nodes = chance.between(2, 32) as u8;
    let style = Style {
        arrival: chance.pick(&[Arrival::Newest, Arrival::Any]),
        numbering: Numbering::Few,
        most_in_flight: MOST_IN_FLIGHT,
        lost: 1_000_000,
        ..style(chance, nodes, [1, 1, 9, 5])
    };
    full(chance, style).bytes()
}

fn any_style(chance: &mut Chance) -> Vec<u8> {
    let style = Style::any(chance);
    let events = chance.between(1_000, 3_000);
    Barn::grown(chance, style, events).bytes()
}

/// A sound front in a log as long as a frame can bring.
fn longest_input(chance: &mut Chance) -> Vec<u8> {
    let nodes = chance.between(2, 32) as u8;
    let style = style(chance, nodes, [1, 1, 4, 4]);
    let mut log = Barn::grown(chance, style, 2_000).bytes();
    let left = LONGEST_LOG - log.len();
    log.extend(damage::any_log(chance, left));
    log
}
