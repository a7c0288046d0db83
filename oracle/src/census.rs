//! How many questions there are of each kind, so that seeds can show what they cover.

use crate::answer::{self, Answer};
use crate::frames::{self, Question, Run};
use crate::letters::{Letters, Mode};
use crate::order::Order;
use crate::pair_kinds;
use crate::reader::{self, Act, Log, MOST_EVENTS, MOST_IN_FLIGHT};
use crate::rooms::{Rooms, COUNTS, MAIL, WORDS};
use std::collections::BTreeSet;
use std::io::{self, Read, Write};

const NUMBERS: u8 = 14;

/// A question to run with its answer; the log and its letters only where the answer is 0.
struct Case {
    run: Run,
    answer: Answer,
    accepted: Option<(Log, Letters)>,
}

impl Case {
    fn of(run: Run) -> Case {
        let mut rooms = Rooms::filled(run.sizes);
        let answer = answer::run(run.mode, &run.log, &mut rooms);
        let log = reader::read(&run.log).ok();
        let accepted = log.filter(|_| answer.number == 0).map(|log| {
            let letters = Letters::of(&log, &Order::of(&log), run.mode);
            (log, letters)
        });
        Case {
            run,
            answer,
            accepted,
        }
    }

    /// Whether the log is accepted and such.
    fn log(&self, such: fn(&Log) -> bool) -> bool {
        self.accepted.as_ref().is_some_and(|(log, _)| such(log))
    }

    /// Whether the log is accepted, run short, and its letters are such.
    fn short_letters(&self, such: fn(&Letters) -> bool) -> bool {
        let letters = self.accepted.as_ref().map(|(_, letters)| letters);
        self.run.mode == Mode::Short && letters.is_some_and(such)
    }
}

/// What is counted, and which cases are such.
pub type Kind<C> = (&'static str, fn(&C) -> bool);

/// How many cases are of each kind.
struct Counts<C: 'static> {
    kinds: &'static [Kind<C>],
    cases: usize,
    such: Vec<usize>,
}

impl<C> Counts<C> {
    fn of(kinds: &'static [Kind<C>]) -> Counts<C> {
        Counts {
            kinds,
            cases: 0,
            such: vec![0; kinds.len()],
        }
    }

    fn add(&mut self, case: &C) {
        self.cases += 1;
        for (count, (_, is_such)) in self.such.iter_mut().zip(self.kinds) {
            *count += usize::from(is_such(case));
        }
    }

    fn lines(&self) -> impl Iterator<Item = (String, usize)> + '_ {
        let names = self.kinds.iter().map(|(name, _)| name.to_string());
        names.zip(self.such.iter().copied())
    }
}

/// What is counted of the runs beside the refusal numbers.
const KINDS: [Kind<Case>; 26] = [
    ("full", |case| case.run.mode == Mode::Full),
    ("short", |case| case.run.mode == Mode::Short),
    ("counts one too small", |case| {
        case.run.sizes.counts == COUNTS - 1
    }),
    ("words one too small", |case| {
        case.run.sizes.words == WORDS - 1
    }),
    ("mail one too small", |case| case.run.sizes.mail == MAIL - 1),
    ("no work rooms", |case| {
        let sizes = case.run.sizes;
        sizes.counts + sizes.words + sizes.mail == 0
    }),
    ("work rooms larger than needed", |case| {
        let sizes = case.run.sizes;
        case.answer.number != 1 && sizes.counts + sizes.words + sizes.mail > COUNTS + WORDS + MAIL
    }),
    ("log of no byte", |case| case.run.log.is_empty()),
    ("log of one byte", |case| case.run.log.len() == 1),
    ("one node", |case| case.log(|log| log.nodes == 1)),
    ("32 nodes", |case| case.log(|log| log.nodes == 32)),
    ("4,096 events accepted", |case| {
        case.answer.events == MOST_EVENTS
    }),
    ("4,097 events refused", |case| case.answer.number == 12),
    ("4,097th events with a node too high", |case| {
        let node = case.run.log.get(case.answer.place + 1);
        case.answer.number == 12 && node >= case.run.log.get(1)
    }),
    ("128 in flight at once", |case| {
        case.log(|log| most_in_flight(log) == MOST_IN_FLIGHT)
    }),
    ("message numbers used again", |case| {
        case.log(uses_a_number_again)
    }),
    ("messages that overtake", |case| case.log(overtakes)),
    ("messages never received", |case| {
        case.log(|log| log.messages.iter().any(|one| one.received.is_none()))
    }),
    ("short letters that spare a known count", |case| {
        case.short_letters(|letters| letters.spared > 0)
    }),
    ("known counts carried for their clear flag", |case| {
        case.short_letters(|letters| letters.for_clear_flag > 0)
    }),
    ("marks with several direct predecessors", |case| {
        case.log(has_several_direct)
    }),
    ("reports exactly filling their room", |case| {
        let bytes = case.answer.bytes;
        case.answer.number == 0 && bytes > 0 && bytes == case.run.sizes.report
    }),
    ("report room one byte short", |case| {
        case.answer.number == 13 && case.answer.bytes == case.run.sizes.report + 1
    }),
    ("accepted logs with more than 18,000 bytes", |case| {
        case.accepted.is_some() && case.run.log.len() > 18_000
    }),
    ("accepted logs of 18,498 bytes, the most", |case| {
        case.accepted.is_some() && case.run.log.len() == 18_498
    }),
    ("refused logs with more than 20,000 bytes", |case| {
        case.accepted.is_none() && case.run.log.len() > 20_000
    }),
];

fn has_several_direct(log: &Log) -> bool {
    let order = Order::of(log);
    let is_mark = |place: &usize| log.events[*place].act == Act::Mark;
    let mut marks = (0..log.events.len()).filter(is_mark);
    marks.any(|mark| order.direct(mark).len() > 1)
}

fn most_in_flight(log: &Log) -> usize {
    let (mut now, mut most) = (0, 0);
    for event in &log.events {
        match event.act {
            Act::Send(_) => now += 1,
            Act::Receipt(_) => now -= 1,
            Act::Idle | Act::Mark => {}
        }
        most = most.max(now);
    }
    most
}

fn uses_a_number_again(log: &Log) -> bool {
    let numbers: BTreeSet<u16> = log.messages.iter().map(|one| one.number).collect();
    numbers.len() < log.messages.len()
}

/// Whether a message is received while an older one of the same way is in flight.
fn overtakes(log: &Log) -> bool {
    let overtaken = |older: usize, newer: usize| {
        let (older, newer) = (&log.messages[older], &log.messages[newer]);
        let same_way = (older.sender, older.destination) == (newer.sender, newer.destination);
        let later = |event: usize| older.received.is_none_or(|receipt| receipt > event);
        same_way && newer.received.is_some_and(later)
    };
    (0..log.messages.len()).any(|newer| (0..newer).any(|older| overtaken(older, newer)))
}

/// Prints how many questions are of each kind and tells whether there are some of all.
pub fn census(input: &mut impl Read, output: &mut impl Write) -> io::Result<bool> {
    let mut numbers = [0; NUMBERS as usize];
    let mut runs = Counts::of(&KINDS);
    let mut pairs = Counts::of(&pair_kinds::KINDS);
    while let Some(question) = frames::next(input).map_err(|_| bad_frame())? {
        match question {
            Question::Run(run) => {
                let case = Case::of(run);
                numbers[usize::from(case.answer.number)] += 1;
                runs.add(&case);
            }
            Question::Compare(compare) => pairs.add(&pair_kinds::Case::of(compare)),
        }
    }
    let mut lines = vec![("questions to run".to_string(), runs.cases)];
    lines.extend((0..NUMBERS).map(|number| (format!("number {number}"), numbers[number as usize])));
    lines.extend(runs.lines());
    lines.push(("questions to compare".to_string(), pairs.cases));
    lines.extend(pairs.lines());
    print(&lines, output)
}

fn bad_frame() -> io::Error {
    io::Error::new(io::ErrorKind::InvalidData, "bad frame")
}

fn print(lines: &[(String, usize)], output: &mut impl Write) -> io::Result<bool> {
    for (name, count) in lines {
        writeln!(output, "{name}: {count}")?;
    }
    let mut missing = lines.iter().filter(|(_, count)| *count == 0).peekable();
    let complete = missing.peek().is_none();
    for (name, _) in missing {
        writeln!(output, "missing: {name}")?;
    }
    Ok(complete)
}
