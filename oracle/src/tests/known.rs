//! The scope's table of logs to try, and the layout page's picture of the work room.

use super::{run, sizes, A, B};
use crate::answer::{self, Answer};
use crate::letters::{Letters, Mode};
use crate::order::Order;
use crate::reader;
use crate::records::{bytes_of, Record};
use crate::report::{self, Mark};
use crate::rooms::Rooms;
use crate::text;

fn assert_refused(log: &[u8], number: u8, place: usize) {
    for mode in [Mode::Full, Mode::Short] {
        let expected = Answer {
            number,
            place,
            ..Answer::default()
        };
        let (answer, rooms) = run(mode, log);
        assert_eq!(answer, expected, "{log:02x?}");
        let mut cleared = Rooms::filled(sizes(131_072));
        cleared.clear_work();
        assert!(rooms == cleared);
    }
}

fn assert_accepted(log: &[u8]) -> Answer {
    let (answer, _) = run(Mode::Short, log);
    assert_eq!((answer.number, answer.place), (0, log.len()));
    answer
}

fn marks(log: &[u8]) -> Vec<Mark> {
    let log = reader::read(log).expect("the log is accepted");
    report::marks(&log, &Order::of(&log))
}

#[test]
fn refusals() {
    assert_refused(&[], 2, 0);
    assert_refused(&[0x10, 0x00], 3, 1);
    assert_refused(&[0x10, 0x21], 3, 1);
    assert_refused(&[0x10, 2, 0x13, 0, 0, 1, 0], 7, 4);
    assert_refused(&[0x10, 2, 0x13, 5, 5, 1, 0], 6, 3);
    assert_refused(&[0x10, 2, 0x14, 1, 1, 0], 10, 4);
    assert_refused(&[0x10, 2, 0x13, 0, 1, 1, 0, 0x13, 1, 0, 1, 0], 8, 10);
    assert_refused(&[0x10, 3, 0x13, 0, 1, 1, 0, 0x14, 2, 1, 0], 11, 9);
}

#[test]
fn order_of_refusals() {
    assert_refused(&[0x10], 2, 0);
    assert_refused(&[0x11, 0x00], 2, 0);
    assert_refused(&[0x10, 2, 0x10], 4, 2);
    assert_refused(&[0x10, 2, 0x13, 9, 9, 1], 5, 2);
    assert_refused(&[0x10, 2, 0x13, 0, 2, 1, 0], 6, 4);
    assert_refused(&[0x10, 2, 0x13, 0, 1, 1, 0, 0x13, 1, 1, 1, 0], 7, 9);
    assert_refused(&[0x10, 2, 0x14, 2, 1, 0], 6, 3);
}

#[test]
fn empty_reports() {
    assert_eq!(assert_accepted(&[0x10, 1]).bytes, 0);
    assert_accepted(&[0x10, 0x20]);
}

#[test]
fn two_marks_of_one_node() {
    let log = [0x10, 1, 0x12, 0, 0x12, 0];
    assert_eq!(assert_accepted(&log).bytes, 22);
    assert_eq!(marks(&log)[1].direct, [(0, 1)]);
}

#[test]
fn log_a() {
    let report = [
        0x21, 0, 1, 0, 0, 0x22, 0, 1, 0, 0x21, 1, 1, 0, 1, 0x22, 0, 1, 0, 0x22, 1, 1, 0, 0x23, 0,
        1, 0, 0x21, 2, 1, 0, 1, 0x22, 0, 1, 0, 0x22, 1, 1, 0, 0x22, 2, 1, 0, 0x23, 1, 1, 0,
    ];
    let (answer, rooms) = run(Mode::Short, &A);
    let totals = [answer.events, answer.marks, answer.sends, answer.carried];
    assert_eq!(totals, [9, 3, 3, 4]);
    assert_eq!(answer.bytes, 47);
    assert_eq!(rooms.report[..47], report);
    assert!(rooms.report[47..].iter().all(|&byte| byte == 0xA5));
    assert_eq!(run(Mode::Full, &A).0.carried, 9);
    let lines = "mark 0.1 stamp 1 0 0 from -\n\
                 mark 1.1 stamp 1 1 0 from 0.1\n\
                 mark 2.1 stamp 1 1 1 from 1.1\n\
                 ok 9 events 3 marks 3 sends 4 carried\n";
    assert_eq!(text::of(&A), lines);
}

#[test]
fn log_a_in_a_small_report_room() {
    let mut rooms = Rooms::filled(sizes(46));
    let answer = answer::run(Mode::Short, &A, &mut rooms);
    let expected = Answer {
        number: 13,
        place: 35,
        bytes: 47,
        ..Answer::default()
    };
    assert_eq!(answer, expected);
    let mut cleared = Rooms::filled(sizes(46));
    cleared.clear_work();
    assert!(rooms == cleared);
}

#[test]
fn log_b() {
    let log = reader::read(&B).expect("B is accepted");
    let order = Order::of(&log);
    let letters = Letters::of(&log, &order, Mode::Short);
    let carried = letters
        .letters
        .iter()
        .map(|one| one.iter().flatten().count());
    assert_eq!(carried.collect::<Vec<usize>>(), [1, 0, 2]);
    assert_eq!(letters.carried(), 3);
    let third = &report::marks(&log, &order)[2];
    assert_eq!((third.node, third.number), (0, 2));
    assert_eq!(third.stamp, [2, 1]);
    assert_eq!(third.direct, [(1, 1)]);
}

#[test]
fn two_marks_apart() {
    let marks = marks(&[0x10, 2, 0x12, 0, 0x12, 1]);
    assert_eq!(marks[0].stamp, [1, 0]);
    assert_eq!(marks[1].stamp, [0, 1]);
    assert!(marks.iter().all(|mark| mark.direct.is_empty()));
}

#[test]
fn bound_of_events() {
    let mut log = [vec![0x10, 1], [0x11, 0].repeat(4_096)].concat();
    assert_eq!(assert_accepted(&log).events, 4_096);
    log.extend([0x11, 0]);
    assert_refused(&log, 12, 2 + 2 * 4_096);
    let last = log.len() - 1;
    log[last] = 9;
    assert_refused(&log, 12, 2 + 2 * 4_096);
    log.truncate(last);
    assert_refused(&log, 5, 2 + 2 * 4_096);
}

#[test]
fn bound_in_flight() {
    let send = |number| Record::Send {
        node: 0,
        destination: 1,
        number,
    };
    let mut records = vec![Record::Opening { nodes: 2 }];
    records.extend((0..128).map(send));
    assert_accepted(&bytes_of(&records));
    let with = |more: &[Record]| bytes_of(&[&records, more].concat());
    assert_refused(&with(&[send(128)]), 9, 2 + 5 * 128);
    assert_refused(&with(&[send(5)]), 8, 2 + 5 * 128 + 3);
    let receipt = Record::Receipt {
        node: 1,
        number: 70,
    };
    let log = with(&[receipt, send(128)]);
    assert_accepted(&log);
    let (_, rooms) = run(Mode::Short, &log);
    assert_eq!(rooms.mail[35 * 70..35 * 70 + 3], [1, 1, 128]);
}

/// The beginning of a room, and zero behind it up to its work size.
fn assert_front<T: Copy + PartialEq + From<u8>>(room: &[T], front: &[T]) {
    assert!(room[..front.len()] == *front);
    assert!(room[front.len()..]
        .iter()
        .all(|&element| element == T::from(0)));
}

#[test]
fn work_room_of_a_cut() {
    let (_, rooms) = run(Mode::Short, &A[..25]);
    assert_front(&rooms.counts, &[1, 0, 0, 1, 1, 0]);
    assert_front(&rooms.words[..32], &[1, 2, 0]);
    assert_front(&rooms.words[32..], &[0, 0, 0, 1]);
    assert_front(&rooms.mail[..35], &[2, 2, 3, 2, 3]);
    assert_front(&rooms.mail[35..], &[1, 2, 2, 3]);
}

#[test]
fn small_work_rooms_stay_untouched() {
    for short in 0..3 {
        let mut small = sizes(10);
        small.counts -= usize::from(short == 0);
        small.words -= usize::from(short == 1);
        small.mail -= usize::from(short == 2);
        let mut rooms = Rooms::filled(small);
        assert_eq!(answer::run(Mode::Full, &[], &mut rooms).number, 1);
        assert!(rooms == Rooms::filled(small));
    }
}
