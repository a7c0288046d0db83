//! Made-up questions: for each turn of a round another recipe, so that every kind comes up.

use crate::answer::report_length;
use crate::barn::{Barn, Style};
use crate::big;
use crate::chance::Chance;
use crate::damage;
use crate::faults::{self, Fault, FAULTS};
use crate::frames::{self, Question, Run, LARGEST, LONGEST_LOG};
use crate::letters::Mode;
use crate::pairs;
use crate::reader::MOST_IN_FLIGHT;
use crate::records::{self, OPENING};
use crate::rooms::{Sizes, COUNTS, MAIL, WORDS};
use crate::text::REPORT_ROOM;
use std::io::{self, Write};

/// The turns of a round: those that run a log, the last of them a big one; those that compare the
/// pairs of one small log; and those that compare anything else.
const RUNS: usize = 50;
const PAIRS_END: usize = RUNS + pairs::PAIRS;
const ROUND: usize = PAIRS_END + pairs::TURNS;

/// Writes so many framed questions.
pub fn write(seed: u64, count: u64, output: &mut impl Write) -> io::Result<()> {
    for index in 0..count {
        output.write_all(&frames::frame(&question(seed, index)))?;
    }
    Ok(())
}

pub fn question(seed: u64, index: u64) -> Question {
    let chance = &mut Chance::of(seed, index);
    let round = (index / ROUND as u64) as usize;
    let turn = (index % ROUND as u64) as usize;
    match turn {
        0..RUNS => Question::Run(run(chance, round, turn)),
        RUNS..PAIRS_END => {
            // One log for them all, so they take the chance of the first.
            let pair = turn - RUNS;
            let chance = &mut Chance::of(seed, index - pair as u64);
            Question::Compare(pairs::of_small_log(chance, pair))
        }
        _ => Question::Compare(pairs::of_turn(chance, round, turn - PAIRS_END)),
    }
}

fn run(chance: &mut Chance, round: usize, turn: usize) -> Run {
    let mut log = log(chance, round, turn);
    log.truncate(LONGEST_LOG);
    let mut sizes = Sizes {
        report: report_size(chance, &log),
        ..work_sizes(chance)
    };
    // A sound and a faulty log: too small a work room comes before all else.
    if turn == 45 || turn == 46 {
        make_too_small(chance, &mut sizes, 2 * round + turn - 45);
    }
    let mode = chance.pick(&[Mode::Full, Mode::Short, Mode::Short]);
    Run { mode, sizes, log }
}

/// The log for a turn of a round.
fn log(chance: &mut Chance, round: usize, turn: usize) -> Vec<u8> {
    match turn {
        0..=15 => grown(chance, 0, 40),
        16..=19 => grown(chance, 40, 120),
        20 => grown(chance, 120, 500),
        21..=23 => chatter(chance),
        24 => bad_front(chance, round),
        25..=33 => {
            let kind = (9 * round + turn - 25) % FAULTS.len();
            faults::faulty(chance, FAULTS[kind])
        }
        34..=40 => {
            let log = grown(chance, 0, 60);
            damage::damaged(chance, &records::KINDS, log)
        }
        41..=44 => {
            let length = chance.pick(&[0, 1, 2, 3, 8, 20, 60, 300]);
            damage::any_log(chance, length)
        }
        45 => grown(chance, 0, 20),
        46 => faults::faulty(chance, FAULTS[round % FAULTS.len()]),
        47 => air_full(chance, round),
        48 => one_node(chance),
        _ => big::log(chance, round % big::KINDS),
    }
}

fn grown(chance: &mut Chance, fewest: usize, most: usize) -> Vec<u8> {
    let style = Style::any(chance);
    let events = chance.between(fewest, most);
    Barn::grown(chance, style, events).bytes()
}

fn chatter(chance: &mut Chance) -> Vec<u8> {
    let style = Style::chatter(chance);
    let events = chance.between(4, 80);
    Barn::grown(chance, style, events).bytes()
}

fn one_node(chance: &mut Chance) -> Vec<u8> {
    let mut style = Style::any(chance);
    style.nodes = chance.pick(&[1, 32]);
    let events = chance.between(0, 40);
    Barn::grown(chance, style, events).bytes()
}

/// Logs whose first record is wrong, with or without something behind it.
fn bad_front(chance: &mut Chance, round: usize) -> Vec<u8> {
    let any = chance.byte();
    let mut log = grown(chance, 0, 10);
    match round % 10 {
        0 => log.clear(),
        1 => log.truncate(1),
        2 => log[0] = chance.pick(&[0x00, 0x11, 0x12, 0x20, any]),
        3 => log = vec![any],
        4 => log[1] = 0,
        5 => log[1] = 33,
        6 => log[1] = 255,
        7 => log[1] = chance.pick(&[0, 33, 34, any]),
        8 => log = vec![OPENING, chance.pick(&[0, 1, 32, 33])],
        _ => log = vec![any, chance.byte()],
    }
    log
}

/// 128 in flight; then nothing, a 129th, one received and then the 129th, or all received.
fn air_full(chance: &mut Chance, round: usize) -> Vec<u8> {
    let mut style = Style::any(chance);
    style.nodes = style.nodes.max(2);
    let events = chance.below(30);
    let mut barn = Barn::grown(chance, style, events);
    barn.fill_the_air(chance);
    match round % 4 {
        0 => {}
        1 => return faults::faulty_after(chance, &mut barn, Fault::TooManyInFlight),
        2 => {
            let index = chance.below(MOST_IN_FLIGHT);
            barn.receive(index);
            barn.fill_the_air(chance);
        }
        _ => {
            while !barn.in_flight.is_empty() {
                let index = chance.below(barn.in_flight.len());
                barn.receive(index);
                barn.mark(chance.below(barn.nodes.into()) as u8);
            }
        }
    }
    barn.bytes()
}

/// Work rooms that are large enough.
fn work_sizes(chance: &mut Chance) -> Sizes {
    let mut sizes = Sizes {
        counts: COUNTS,
        words: WORDS,
        mail: MAIL,
        report: 0,
    };
    match chance.below(20) {
        0..=13 => {}
        14 => sizes = LARGEST,
        _ => {
            sizes.counts += chance.pick(&[0, 1, 7, 100]);
            sizes.words += chance.pick(&[0, 1, 7, 100]);
            sizes.mail += chance.pick(&[0, 1, 7, 100]);
        }
    }
    sizes
}

/// Makes work rooms too small: by one, by more, or empty.
fn make_too_small(chance: &mut Chance, sizes: &mut Sizes, kind: usize) {
    match kind % 7 {
        0 => sizes.counts = COUNTS - 1,
        1 => sizes.words = WORDS - 1,
        2 => sizes.mail = MAIL - 1,
        3 => sizes.counts = chance.below(COUNTS),
        4 => sizes.words = chance.below(WORDS),
        5 => sizes.mail = chance.below(MAIL),
        _ => (sizes.counts, sizes.words, sizes.mail) = (0, 0, 0),
    }
}

/// A report room: mostly just right or one too small for what the log needs, if it is accepted.
fn report_size(chance: &mut Chance, log: &[u8]) -> usize {
    let needed = report_length(log).unwrap_or(chance.below(60));
    let size = match chance.below(100) {
        0..=34 => needed,
        35..=46 => needed.saturating_sub(1),
        47..=50 => 0,
        51..=54 => chance.below(needed + 1),
        55..=94 => needed + chance.below(64),
        95..=97 => REPORT_ROOM,
        _ => LARGEST.report,
    };
    size.min(LARGEST.report)
}
