//! The answers after every record equal those of the steps carried out directly.

use super::steps::Steps;
use super::{run, sizes};
use crate::answer::Answer;
use crate::barn::{Barn, Style};
use crate::big;
use crate::chance::Chance;
use crate::letters::Mode;
use crate::reader;
use crate::records::{bytes_of, Record};
use crate::rooms::Rooms;

/// Holds the answer to these records against the steps that have taken them.
fn assert_same(mode: Mode, records: &[Record], steps: &Steps) {
    let log = bytes_of(records);
    let marks = |record: &&Record| matches!(record, Record::Mark { .. });
    let mut rooms = Rooms::filled(sizes(131_072));
    steps.write(&mut rooms);
    let expected = Answer {
        number: 0,
        place: log.len(),
        events: records.len() - 1,
        marks: records.iter().filter(marks).count(),
        sends: steps.carried.len(),
        carried: steps.carried.iter().sum(),
        bytes: steps.report.len(),
    };
    let (answer, found) = run(mode, &log);
    assert_eq!(answer, expected, "{records:?}");
    assert!(found == rooms, "{records:?}");
}

#[test]
fn every_cut_of_small_logs() {
    for question in 0..400 {
        let chance = &mut Chance::of(7, question);
        let style = match question % 3 {
            0 => Style::chatter(chance),
            _ => Style::any(chance),
        };
        let barn = Barn::grown(chance, style, 40);
        for mode in [Mode::Full, Mode::Short] {
            let mut steps = Steps::new(mode, barn.nodes);
            for (place, &record) in barn.records.iter().enumerate() {
                steps.take(record);
                assert_same(mode, &barn.records[..=place], &steps);
            }
        }
    }
}

#[test]
fn whole_logs_of_some_hundred_events() {
    for question in 0..200 {
        let chance = &mut Chance::of(8, question);
        let style = Style::any(chance);
        let barn = Barn::grown(chance, style, 400);
        for mode in [Mode::Full, Mode::Short] {
            let mut steps = Steps::new(mode, barn.nodes);
            barn.records.iter().for_each(|&record| steps.take(record));
            assert_same(mode, &barn.records, &steps);
        }
    }
}

/// The records of an accepted log, taken from what the reader makes of it.
fn records_of(log: &[u8]) -> Option<Vec<Record>> {
    let log = reader::read(log).ok()?;
    let nodes = log.nodes as u8;
    let mut records = vec![Record::Opening { nodes }];
    for event in &log.events {
        let node = event.node as u8;
        records.push(match event.act {
            reader::Act::Idle => Record::Idle { node },
            reader::Act::Mark => Record::Mark { node },
            reader::Act::Send(message) => Record::Send {
                node,
                destination: log.messages[message].destination as u8,
                number: log.messages[message].number,
            },
            reader::Act::Receipt(message) => Record::Receipt {
                node,
                number: log.messages[message].number,
            },
        });
    }
    Some(records)
}

#[test]
fn big_logs() {
    let mut compared = 0;
    for question in 0..2 * big::KINDS {
        let chance = &mut Chance::of(9, question as u64);
        let log = big::log(chance, question % big::KINDS);
        let Some(records) = records_of(&log) else {
            continue;
        };
        assert_eq!(bytes_of(&records), log);
        for mode in [Mode::Full, Mode::Short] {
            let mut steps = Steps::new(mode, log[1]);
            records.iter().for_each(|&record| steps.take(record));
            if steps.report.len() <= 131_072 {
                assert_same(mode, &records, &steps);
                compared += 1;
            }
        }
    }
    assert!(compared >= 20);
}
