//! Made-up questions that compare two marks of a report.

use crate::chance::Chance;
use crate::cuts;
use crate::damage;
use crate::flaws;
use crate::frames::{Compare, LONGEST_REPORT};
use crate::groups::{bytes_of, record, Count, Group, Name, HEAD, KINDS};
use crate::long;
use crate::sheets::{self, Sheet};
use crate::stamps::HIGHEST_NUMBER;

/// The marks of a small log, and how many pairs they have.
const MARKS: usize = 3;
pub const PAIRS: usize = MARKS * MARKS;
/// The further turns of a round.
pub const TURNS: usize = 16;

/// One of the pairs of a small log's marks; a mark is paired with itself too.
pub fn of_small_log(chance: &mut Chance, pair: usize) -> Compare {
    let Sheet { names, report } = Sheet::of(&sheets::of_marks(chance, MARKS));
    Compare {
        first: names[pair / MARKS],
        second: names[pair % MARKS],
        report,
    }
}

/// The question of a further turn.
pub fn of_turn(chance: &mut Chance, round: usize, turn: usize) -> Compare {
    if turn == 0 {
        return absent(chance, round);
    }
    let Sheet { names, mut report } = sheet(chance, round, turn);
    report.truncate(LONGEST_REPORT);
    let first = name(chance, &names);
    let mut second = name(chance, &names);
    if second == first {
        second = name(chance, &names);
    }
    Compare {
        first,
        second,
        report,
    }
}

fn sheet(chance: &mut Chance, round: usize, turn: usize) -> Sheet {
    match turn {
        1..=2 => Sheet::of(&sheets::grown(chance, 40, 400)),
        3 => shuffled(chance),
        4..=5 => close(chance),
        6..=9 => flawed(chance, (4 * round + turn - 6) % flaws::KINDS),
        10 => cut(chance, round % cuts::KINDS),
        11 => one_mark_twice(chance),
        12..=13 => damaged(chance),
        14 => any(chance),
        _ => long::sheet(chance, round % long::KINDS),
    }
}

/// One of these marks, or now and then another.
fn name(chance: &mut Chance, names: &[Name]) -> Name {
    if names.is_empty() || chance.one_in(12) {
        return other_name(chance, names);
    }
    chance.pick(names)
}

/// A mark that is not among these, mostly one that is close to one of them.
fn other_name(chance: &mut Chance, names: &[Name]) -> Name {
    let (node, number) = if names.is_empty() {
        (0, 1)
    } else {
        chance.pick(names)
    };
    let others = [
        (chance.byte(), chance.next() as u16),
        (node ^ 1, number),
        (node.wrapping_add(32), number),
        (node, number ^ 1),
        (node, number.wrapping_add(256)),
        (node, number.swap_bytes()),
        (node, 0),
    ];
    let absent = others.into_iter().filter(|other| !names.contains(other));
    chance.pick(&absent.collect::<Vec<Name>>())
}

/// The first mark is absent, the second, both, both from an empty report, or both from a bad one.
fn absent(chance: &mut Chance, round: usize) -> Compare {
    let Sheet { names, report } = match round % 5 {
        3 => Sheet::of(&[]),
        4 => cut(chance, round % cuts::KINDS),
        _ => Sheet::of(&sheets::some(chance)),
    };
    let mut marks = [other_name(chance, &names), other_name(chance, &names)];
    match round % 5 {
        0 => marks[1] = chance.pick(&names),
        1 => marks[0] = chance.pick(&names),
        _ => {}
    }
    Compare {
        first: marks[0],
        second: marks[1],
        report,
    }
}

/// The groups of a report in any order, which is well formed too.
fn shuffled(chance: &mut Chance) -> Sheet {
    let mut groups = sheets::some(chance);
    for index in 1..groups.len() {
        groups.swap(index, chance.below(index + 1));
    }
    Sheet::of(&groups)
}

/// Two groups whose stamps differ in little or nothing.
fn close(chance: &mut Chance) -> Sheet {
    let mut groups = sheets::made_up(chance, 2);
    let mut stamp = groups[0].stamp.clone();
    sheets::put(&mut stamp, groups[1].name);
    sheets::put(&mut stamp, (31, 2));
    for group in &mut groups {
        group.stamp = stamp.clone();
        for _ in 0..chance.below(3) {
            change(chance, &mut group.stamp);
        }
        sheets::put(&mut group.stamp, group.name);
    }
    Sheet::of(&groups)
}

/// Leaves out a count, rather often the last, or makes it larger or smaller.
fn change(chance: &mut Chance, stamp: &mut Vec<Count>) {
    let Some(last) = stamp.len().checked_sub(1) else {
        return;
    };
    let any = chance.below(stamp.len());
    let (node, count) = stamp.remove(chance.pick(&[any, last]));
    let step = chance.pick(&[1, 255, 256]);
    match chance.below(3) {
        0 => {}
        1 => sheets::put(stamp, (node, HIGHEST_NUMBER.min(count + step))),
        _ => sheets::put(stamp, (node, count.saturating_sub(step).max(1))),
    }
}

/// A report with a flawed group in it, and anything behind that.
fn flawed(chance: &mut Chance, flaw: usize) -> Sheet {
    let (mut sheet, group, behind) = split(chance);
    sheet.report.extend(flaws::flawed(chance, flaw, group));
    match chance.below(3) {
        0 => {}
        1 => sheet.report.extend(bytes_of(&behind)),
        _ => sheet.report.extend(any_bytes(chance)),
    }
    sheet
}

/// A report that is cut within its last group.
fn cut(chance: &mut Chance, kind: usize) -> Sheet {
    let (mut sheet, group, _) = split(chance);
    sheet.report.extend(cuts::cut(chance, kind, group));
    sheet
}

/// The front of a report with all names of it, a group to follow, and those behind.
fn split(chance: &mut Chance) -> (Sheet, Group, Vec<Group>) {
    let mut groups = sheets::some(chance);
    let names = Sheet::of(&groups).names;
    let behind = groups.split_off(chance.below(groups.len()) + 1);
    let last = groups.pop().expect("there is one at least");
    let report = bytes_of(&groups);
    let group = sheets::rich_group(chance, last.name);
    (Sheet { names, report }, group, behind)
}

/// Two groups for one mark, the same or not, at any distance.
fn one_mark_twice(chance: &mut Chance) -> Sheet {
    let mut groups = sheets::some(chance);
    let index = chance.below(groups.len());
    let mut again = groups[index].clone();
    if chance.one_in(2) {
        again = sheets::rich_group(chance, again.name);
    }
    groups.insert(chance.between(index + 1, groups.len()), again);
    Sheet::of(&groups)
}

fn damaged(chance: &mut Chance) -> Sheet {
    let mut sheet = Sheet::of(&sheets::some(chance));
    sheet.report = damage::damaged(chance, &KINDS, sheet.report);
    sheet
}

fn any(chance: &mut Chance) -> Sheet {
    Sheet {
        names: vec![(0, 1), (1, 1)],
        report: if chance.one_in(2) {
            any_bytes(chance)
        } else {
            any_records(chance)
        },
    }
}

fn any_bytes(chance: &mut Chance) -> Vec<u8> {
    let length = chance.pick(&[1, 2, 5, 9, 20, 60, 300]);
    let mut bytes = damage::any_bytes(chance, &KINDS, 3, length);
    if !chance.one_in(4) {
        bytes[0] = HEAD;
    }
    bytes
}

/// Whole records in any order, the first mostly a head.
fn any_records(chance: &mut Chance) -> Vec<u8> {
    let mut report = Vec::new();
    for _ in 0..chance.between(1, 20) {
        let is_head = report.is_empty() && !chance.one_in(4);
        let kind = if is_head { HEAD } else { chance.pick(&KINDS) };
        let node = chance.below(3) as u8;
        report.extend(record(kind, (node, chance.between(1, 2) as u16)));
        if kind == HEAD {
            report.push(chance.below(2) as u8);
        }
    }
    report
}
