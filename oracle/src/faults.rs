//! Logs with a fault that is meant: a valid front, the faulty record, and then anything.

use crate::barn::{Barn, InFlight, Numbering, Style};
use crate::chance::Chance;
use crate::records::{Record, IDLE, MARK, OPENING, RECEIPT, SEND};

/// The faults of one record, at least one for each number from 4 to 11; where two faults meet,
/// the order of refusals shows.
#[derive(Clone, Copy, PartialEq, Eq)]
pub enum Fault {
    UnknownKind,
    LaterOpening,
    CutShort,
    SenderTooHigh,
    DestinationTooHigh,
    BothTooHigh,
    ReceiverTooHigh,
    TooHighAndNeverSent,
    TooHighAndToItself,
    ToItself,
    ToItselfWithNumberInFlight,
    NumberInFlight,
    NumberInFlightOfTooMany,
    TooManyInFlight,
    NeverSent,
    ReceivedAlready,
    ToAnother,
    ToItsSender,
}

pub const FAULTS: [Fault; 18] = [
    Fault::UnknownKind,
    Fault::LaterOpening,
    Fault::CutShort,
    Fault::SenderTooHigh,
    Fault::DestinationTooHigh,
    Fault::BothTooHigh,
    Fault::ReceiverTooHigh,
    Fault::TooHighAndNeverSent,
    Fault::TooHighAndToItself,
    Fault::ToItself,
    Fault::ToItselfWithNumberInFlight,
    Fault::NumberInFlight,
    Fault::NumberInFlightOfTooMany,
    Fault::TooManyInFlight,
    Fault::NeverSent,
    Fault::ReceivedAlready,
    Fault::ToAnother,
    Fault::ToItsSender,
];

/// A log with this fault behind a valid front.
pub fn faulty(chance: &mut Chance, fault: Fault) -> Vec<u8> {
    let mut style = Style::any(chance);
    style.nodes = style.nodes.max(2);
    let events = chance.pick(&[0, 1, 5, 20, 60]);
    let mut barn = Barn::grown(chance, style, events);
    faulty_after(chance, &mut barn, fault)
}

/// The barn's log, then a record with this fault, then anything. The barn has two nodes or more.
pub fn faulty_after(chance: &mut Chance, barn: &mut Barn, fault: Fault) -> Vec<u8> {
    let record = record(chance, barn, fault);
    let mut log = barn.bytes();
    log.extend(record);
    // Only at the end of a log can a record be cut.
    if fault != Fault::CutShort {
        log.extend(tail(chance));
    }
    log
}

/// What follows a fault must not matter: nothing, sound records, or any bytes.
fn tail(chance: &mut Chance) -> Vec<u8> {
    let length = chance.between(1, 30);
    match chance.below(3) {
        0 => Vec::new(),
        1 => [MARK, 0].repeat(length),
        _ => (0..length).map(|_| chance.byte()).collect(),
    }
}

/// The bytes of a faulty record; events that it needs before it go into the barn.
fn record(chance: &mut Chance, barn: &mut Barn, fault: Fault) -> Vec<u8> {
    let node = chance.below(barn.nodes.into()) as u8;
    let high = too_high(chance, barn);
    let fresh = barn.free_number(chance, Numbering::Scattered);
    match fault {
        Fault::UnknownKind => unknown_kind(chance),
        Fault::LaterOpening => later_opening(chance, barn),
        Fault::CutShort => cut_short(chance, fresh),
        Fault::SenderTooHigh => send(high, node, fresh),
        Fault::DestinationTooHigh => send(node, high, fresh),
        Fault::BothTooHigh => send(high, too_high(chance, barn), fresh),
        Fault::ReceiverTooHigh => receiver_too_high(chance, barn, high),
        Fault::TooHighAndNeverSent => receipt(high, fresh),
        Fault::TooHighAndToItself => send(high, high, some_in_flight(chance, barn).number),
        Fault::ToItself => send(node, node, fresh),
        Fault::ToItselfWithNumberInFlight => send(node, node, some_in_flight(chance, barn).number),
        Fault::NumberInFlight => number_in_flight(chance, barn),
        Fault::NumberInFlightOfTooMany => {
            barn.fill_the_air(chance);
            number_in_flight(chance, barn)
        }
        Fault::TooManyInFlight => too_many_in_flight(chance, barn),
        Fault::NeverSent => receipt(node, fresh),
        Fault::ReceivedAlready => received_already(chance, barn),
        Fault::ToAnother => to_another(chance, barn),
        Fault::ToItsSender => {
            let message = some_in_flight(chance, barn);
            receipt(message.node, message.number)
        }
    }
}

/// A node number that is not below the node count.
fn too_high(chance: &mut Chance, barn: &Barn) -> u8 {
    let any = chance.between(barn.nodes.into(), 255) as u8;
    chance.pick(&[barn.nodes, 32, 255, any])
}

fn unknown_kind(chance: &mut Chance) -> Vec<u8> {
    let any = chance.byte();
    let kind = chance.pick(&[0x00, 0x0F, 0x15, 0x21, 0x93, 0xFF, any]);
    if (OPENING..=RECEIPT).contains(&kind) {
        return vec![0x15];
    }
    vec![kind]
}

/// Whole or cut: it is the kind that is wrong.
fn later_opening(chance: &mut Chance, barn: &Barn) -> Vec<u8> {
    let mut record = vec![OPENING, barn.nodes];
    record.truncate(chance.between(1, 2));
    record
}

fn cut_short(chance: &mut Chance, number: u16) -> Vec<u8> {
    let mut record = send(0, chance.pick(&[0, 1, 200]), number);
    record[0] = chance.pick(&[IDLE, MARK, SEND, RECEIPT]);
    let body = match record[0] {
        IDLE | MARK => 1,
        SEND => 4,
        _ => 3,
    };
    record.truncate(1 + chance.below(body));
    record
}

fn receiver_too_high(chance: &mut Chance, barn: &mut Barn, node: u8) -> Vec<u8> {
    match chance.below(3) {
        0 => vec![IDLE, node],
        1 => vec![MARK, node],
        _ => receipt(node, some_in_flight(chance, barn).number),
    }
}

fn number_in_flight(chance: &mut Chance, barn: &mut Barn) -> Vec<u8> {
    let message = some_in_flight(chance, barn);
    if chance.one_in(2) {
        send(message.node, message.destination, message.number)
    } else {
        send(message.destination, message.node, message.number)
    }
}

fn too_many_in_flight(chance: &mut Chance, barn: &mut Barn) -> Vec<u8> {
    barn.fill_the_air(chance);
    send(1, 0, barn.free_number(chance, Numbering::Scattered))
}

fn received_already(chance: &mut Chance, barn: &mut Barn) -> Vec<u8> {
    let message = some_in_flight(chance, barn);
    let same = |other: &InFlight| other.number == message.number;
    let index = barn.in_flight.iter().position(same);
    barn.receive(index.expect("it is in flight"));
    receipt(message.destination, message.number)
}

fn to_another(chance: &mut Chance, barn: &mut Barn) -> Vec<u8> {
    let message = some_in_flight(chance, barn);
    receipt((message.destination + 1) % barn.nodes, message.number)
}

/// A message in flight; one is sent if there is none.
fn some_in_flight(chance: &mut Chance, barn: &mut Barn) -> InFlight {
    if barn.in_flight.is_empty() {
        let number = barn.free_number(chance, Numbering::Scattered);
        barn.send(0, barn.nodes - 1, number);
    }
    chance.pick(&barn.in_flight)
}

fn send(node: u8, destination: u8, number: u16) -> Vec<u8> {
    let record = Record::Send {
        node,
        destination,
        number,
    };
    record.bytes()
}

fn receipt(node: u8, number: u16) -> Vec<u8> {
    Record::Receipt { node, number }.bytes()
}
