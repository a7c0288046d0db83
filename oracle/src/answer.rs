//! The answer to a question: of a run its number, place, totals and the contents of the rooms, of
//! a comparison how the marks stand to each other, or its number and place.

use crate::digest::Digest;
use crate::frames::{self, Compare, Question, Run};
use crate::letters::{Letters, Mode};
use crate::order::Order;
use crate::reader;
use crate::relation;
use crate::report;
use crate::rooms::Rooms;
use std::io::{self, Read, Write};

#[derive(Clone, Copy, Debug, Default, PartialEq, Eq)]
pub struct Answer {
    pub number: u8,
    pub place: usize,
    pub events: usize,
    pub marks: usize,
    pub sends: usize,
    pub carried: usize,
    pub bytes: usize,
}

impl Answer {
    /// A refusal: all totals are 0.
    fn refused(number: u8, place: usize) -> Answer {
        Answer {
            number,
            place,
            ..Answer::default()
        }
    }
}

/// Runs a log and leaves the rooms as the run leaves them.
pub fn run(mode: Mode, bytes: &[u8], rooms: &mut Rooms) -> Answer {
    if !rooms.hold_the_work() {
        return Answer::refused(1, 0);
    }
    rooms.clear_work();
    let log = match reader::read(bytes) {
        Ok(log) => log,
        Err(refusal) => return Answer::refused(refusal.number, refusal.place),
    };
    let order = Order::of(&log);
    let report = report::bytes_of(&report::marks(&log, &order));
    if report.len() > rooms.report.len() {
        return Answer {
            bytes: report.len(),
            ..Answer::refused(13, bytes.len())
        };
    }
    let letters = Letters::of(&log, &order, mode);
    rooms.write_report(&report);
    rooms.write_state(&log, &order, &letters);
    Answer {
        number: 0,
        place: bytes.len(),
        events: log.events.len(),
        marks: log.marks(),
        sends: log.messages.len(),
        carried: letters.carried(),
        bytes: report.len(),
    }
}

/// The length of the report that a log needs, if it is accepted at all.
pub fn report_length(bytes: &[u8]) -> Option<usize> {
    let log = reader::read(bytes).ok()?;
    let marks = report::marks(&log, &Order::of(&log));
    Some(report::bytes_of(&marks).len())
}

/// The line that answers a question.
pub fn line(question: &Question) -> String {
    match question {
        Question::Run(run) => run_line(run),
        Question::Compare(compare) => compare_line(compare),
    }
}

fn run_line(question: &Run) -> String {
    let mut rooms = Rooms::filled(question.sizes);
    let answer = run(question.mode, &question.log, &mut rooms);
    let totals = [
        usize::from(answer.number),
        answer.place,
        answer.events,
        answer.marks,
        answer.sends,
        answer.carried,
        answer.bytes,
    ];
    let digests = [
        Digest::of(rooms.report.iter().copied()),
        Digest::of_halves(&rooms.counts),
        Digest::of_words(&rooms.words),
        Digest::of_halves(&rooms.mail),
    ];
    let totals = totals.iter().map(ToString::to_string);
    let digests = digests.iter().map(ToString::to_string);
    totals.chain(digests).collect::<Vec<String>>().join(" ")
}

fn compare_line(question: &Compare) -> String {
    match relation::between(&question.report, question.first, question.second) {
        Ok(relation) => relation.word().to_string(),
        Err(refusal) => format!("{} {}", refusal.number, refusal.place),
    }
}

/// Answers the questions of an input, a line for each, until it ends or a frame is bad.
pub fn all(input: &mut impl Read, output: &mut impl Write) -> io::Result<()> {
    loop {
        match frames::next(input) {
            Ok(Some(question)) => writeln!(output, "{}", line(&question))?,
            Ok(None) => return Ok(()),
            Err(frames::BadFrame) => return writeln!(output, "bad frame"),
        }
    }
}
