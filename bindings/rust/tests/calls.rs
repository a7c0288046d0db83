//! 01's logs to try, by number and place, and what its pages say of rooms, comparing and names.

use hatsuvren::{compare, groups, name, run, run_in, Mark, Mode, Order, Refusal, Rooms, Totals};
use hatsuvren::{COUNTS, MAIL, WORDS};
use std::sync::Mutex;

const A: &str = "10 03 12 00 13 00 01 01 00 13 00 02 02 00 14 01 01 00 12 01
    13 01 02 03 00 14 02 02 00 14 02 03 00 12 02";
const B: &str = "10 02 12 00 13 00 01 01 00 14 01 01 00 13 01 00 02 00 12 01
    13 01 00 03 00 14 00 03 00 12 00 14 00 02 00";
const A_REPORT: &str = "21 00 01 00 00  22 00 01 00
    21 01 01 00 01  22 00 01 00  22 01 01 00  23 00 01 00
    21 02 01 00 01  22 00 01 00  22 01 01 00  22 02 01 00  23 01 01 00";
const MODES: [Mode; 2] = [Mode::Full, Mode::Short];

// the bytes that two-digit numbers name
fn bytes(text: &str) -> Vec<u8> {
    let byte = |word| u8::from_str_radix(word, 16).expect("a byte");
    text.split_whitespace().map(byte).collect()
}

// the answer and the report of a log, in rooms and a report room that hold other things before
fn answer(mode: Mode, log: &[u8]) -> (Result<Totals, Refusal>, Vec<u8>) {
    let mut rooms = Rooms::new();
    rooms.counts.fill(7);
    rooms.words.fill(7);
    rooms.mail.fill(7);
    let mut room = vec![0xee; 16_384];
    let told = run(mode, log, &mut rooms, &mut room);
    let length = told.map_or(0, |totals| totals.bytes);
    assert!(room[length..].iter().all(|&byte| byte == 0xee));
    if told.is_err() {
        assert_eq!(rooms, Rooms::new());
    }
    room.truncate(length);
    (told, room)
}

// the number and the place of a log; an accepted one's place is its length
fn verdict(mode: Mode, log: &[u8]) -> (u8, usize) {
    match answer(mode, log).0 {
        Ok(_) => (0, log.len()),
        Err(refusal) => (refusal.number, refusal.place),
    }
}

fn mark(node: u8, number: u16) -> Mark {
    Mark { node, number }
}

fn refused(number: u8, place: usize) -> Refusal {
    let needed = None;
    Refusal {
        number,
        place,
        needed,
    }
}

// an opening of two nodes, and sends of node 0 to node 1 with the numbers that are named
fn sends(numbers: std::ops::Range<u8>) -> Vec<u8> {
    let mut log = vec![0x10, 2];
    log.extend(numbers.flat_map(|number| [0x13, 0, 1, number, 0]));
    log
}

#[test]
fn logs_are_accepted_or_refused_as_01_says() {
    let rows = [
        ("10 01", 0, 2),
        ("", 2, 0),
        ("10", 2, 0),
        ("12 00", 2, 0),
        ("10 00", 3, 1),
        ("10 21", 3, 1),
        ("10 20", 0, 2),
        ("10 02 15 00", 4, 2),
        ("10 02 10 02", 4, 2),
        ("10 02 12 00 13 00 01 01", 5, 4),
        ("10 02 12 02", 6, 3),
        ("10 02 13 00 00 01 00", 7, 4),
        ("10 02 13 05 05 01 00", 6, 3),
        ("10 02 13 00 05 01 00", 6, 4),
        ("10 02 14 01 01 00", 10, 4),
        ("10 02 13 00 01 01 00 13 01 00 01 00", 8, 10),
        ("10 03 13 00 01 01 00 14 02 01 00", 11, 9),
        ("10 01 12 00 12 00", 0, 6),
        (A, 0, 35),
        (B, 0, 35),
    ];
    for mode in MODES {
        for (text, number, place) in rows {
            assert_eq!(verdict(mode, &bytes(text)), (number, place), "{text}");
        }
    }
}

#[test]
fn events_and_messages_in_flight_are_bounded() {
    let nothing = |events| [vec![0x10, 1], [0x11, 0].repeat(events)].concat();
    let received = [sends(0..128), vec![0x14, 1, 5, 0, 0x13, 0, 1, 200, 0]].concat();
    for mode in MODES {
        assert_eq!(verdict(mode, &nothing(4_096)), (0, 8_194));
        assert_eq!(verdict(mode, &nothing(4_097)), (12, 8_194));
        assert_eq!(verdict(mode, &sends(0..128)), (0, 642));
        assert_eq!(verdict(mode, &sends(0..129)), (9, 642));
        assert_eq!(verdict(mode, &received), (0, 651));
    }
}

#[test]
fn log_a_has_its_report_and_totals() {
    for (mode, carried) in [(Mode::Full, 9), (Mode::Short, 4)] {
        let (told, report) = answer(mode, &bytes(A));
        let totals = Totals {
            events: 9,
            marks: 3,
            sends: 3,
            carried,
            bytes: 47,
        };
        assert_eq!(told, Ok(totals));
        assert_eq!(report, bytes(A_REPORT));
    }
}

#[test]
fn log_b_carries_three_entries() {
    let (told, report) = answer(Mode::Short, &bytes(B));
    assert_eq!(told.expect("accepted").carried, 3);
    let third = groups(&report).nth(2).expect("three groups");
    assert_eq!(third.mark(), mark(0, 2));
    let stamp: Vec<(u8, u16)> = third.stamp().map(|e| (e.node, e.count)).collect();
    assert_eq!(stamp, [(0, 2), (1, 1)]);
    assert!(third.predecessors().eq([mark(1, 1)]));
}

#[test]
fn the_second_mark_of_a_node_is_from_the_first() {
    let (told, report) = answer(Mode::Short, &bytes("10 01 12 00 12 00"));
    assert_eq!(told.expect("accepted").bytes, 22);
    let last = groups(&report).last().expect("two groups");
    assert_eq!(last.mark(), mark(0, 2));
    assert!(last.predecessors().eq([mark(0, 1)]));
}

#[test]
fn a_small_report_room_is_refused_and_untouched() {
    static ROOMS: Mutex<Rooms> = Mutex::new(Rooms::new());
    let mut rooms = ROOMS.lock().expect("one thread");
    let (mut small, mut none, mut fits) = ([0xee; 46], [], [0xee; 47]);
    let short = Refusal {
        number: 13,
        place: 35,
        needed: Some(47),
    };
    let log = bytes(A);
    assert_eq!(run(Mode::Short, &log, &mut rooms, &mut small), Err(short));
    assert_eq!((small, &*rooms), ([0xee; 46], &Rooms::new()));
    assert_eq!(run(Mode::Full, &log, &mut rooms, &mut none), Err(short));
    assert!(run(Mode::Short, &log, &mut rooms, &mut fits).is_ok());
    assert_eq!(fits.to_vec(), bytes(A_REPORT));
}

#[test]
fn a_small_work_room_is_refused_and_untouched() {
    for (fewer_counts, fewer_words, fewer_mail) in [(1, 0, 0), (0, 1, 0), (0, 0, 1)] {
        let mut counts = vec![7; COUNTS - fewer_counts];
        let mut words = vec![7; WORDS - fewer_words];
        let mut mail = vec![7; MAIL - fewer_mail];
        let mut room = [7; 47];
        let log = bytes(A);
        let told = run_in(
            Mode::Short,
            &log,
            &mut counts,
            &mut words,
            &mut mail,
            &mut room,
        );
        assert_eq!(told, Err(refused(1, 0)));
        assert!(counts.iter().chain(&mail).all(|&element| element == 7));
        assert!(words.iter().all(|&element| element == 7) && room == [7; 47]);
    }
    let told = run_in(Mode::Full, &[], &mut [], &mut [], &mut [], &mut []);
    assert_eq!(told, Err(refused(1, 0)));
}

#[test]
fn a_large_work_room_is_touched_at_its_front_alone() {
    let (mut counts, mut words) = (vec![7; COUNTS + 1], vec![7; WORDS + 1]);
    let (mut mail, mut room) = (vec![7; MAIL + 1], [7; 48]);
    let log = bytes(A);
    let told = run_in(
        Mode::Short,
        &log,
        &mut counts,
        &mut words,
        &mut mail,
        &mut room,
    );
    assert_eq!(told.expect("accepted").bytes, 47);
    // node 0 has its own mark, node 1 has both, node 2 has all three: nothing is in flight
    assert_eq!(counts[..10], [1, 0, 0, 1, 1, 0, 1, 1, 1, 0]);
    assert_eq!(words[..4], [1, 2, 4, 0]);
    assert!(mail[..MAIL].iter().all(|&element| element == 0));
    assert_eq!(
        (counts[COUNTS], words[WORDS], mail[MAIL], room[47]),
        (7, 7, 7, 7)
    );
}

#[test]
fn marks_stand_to_each_other_as_01_says() {
    let report = bytes(A_REPORT);
    let (first, second, third) = (mark(0, 1), mark(1, 1), mark(2, 1));
    assert_eq!(compare(&report, first, second), Ok(Order::Before));
    assert_eq!(compare(&report, first, third), Ok(Order::Before));
    assert_eq!(compare(&report, third, second), Ok(Order::After));
    assert_eq!(compare(&report, second, second), Ok(Order::Apart));
    let (_, apart) = answer(Mode::Short, &bytes("10 02 12 00 12 01"));
    assert_eq!(compare(&apart, first, second), Ok(Order::Apart));
    assert_eq!(Order::Before.to_string(), "before");
    assert_eq!(Order::After.to_string(), "after");
    assert_eq!(Order::Apart.to_string(), "apart");
}

#[test]
fn comparing_refuses_as_01_says() {
    let mut report = bytes(A_REPORT);
    let (here, absent) = (mark(0, 1), mark(0, 2));
    assert_eq!(compare(&report, absent, absent), Err(refused(15, 0)));
    assert_eq!(compare(&report, here, absent), Err(refused(16, 0)));
    assert_eq!(compare(&[], here, here), Err(refused(15, 0)));
    assert_eq!(compare(&report[..46], here, here), Err(refused(14, 26)));
    report.push(0);
    assert_eq!(compare(&report, absent, absent), Err(refused(14, 47)));
}

#[test]
fn every_number_has_its_name() {
    let names = [
        "accepted",
        "work room too small",
        "no whole 0x10 record at the start",
        "node count 0 or above 32",
        "unknown kind, or a later 0x10",
        "record cut short",
        "node or destination not below the node count",
        "destination equals sender",
        "message number in flight already",
        "128 messages in flight already",
        "receipt of a number not in flight",
        "message in flight to another node",
        "a 4,097th event",
        "report room too small",
        "report not well formed",
        "first mark absent",
        "second mark absent",
    ];
    for number in 0..=254 {
        let expected = names.get(usize::from(number)).copied();
        assert_eq!(name(number).as_deref(), expected);
    }
    assert_eq!(name(255).as_deref(), Some("unknown mode"));
    let error: Box<dyn std::error::Error> = Box::new(refused(7, 4));
    assert_eq!(
        error.to_string(),
        "refused 7 at 4: destination equals sender"
    );
    assert_eq!(refused(99, 4).to_string(), "refused 99 at 4");
}
