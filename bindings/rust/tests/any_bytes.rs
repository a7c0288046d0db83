//! Logs and reports of any bytes: each gets an answer, and what 01 says of every answer is so.

use hatsuvren::{compare, groups, run, Mark, Mode, Refusal, Rooms, Totals};

const BARN: &[u8] = include_bytes!("../../../samples/barn.log");
const ROOM: usize = 2_000;

// numbers by chance, the same each time
struct Chance(u64);

impl Chance {
    fn below(&mut self, bound: usize) -> usize {
        self.0 = self.0.wrapping_mul(6_364_136_223_846_793_005);
        self.0 = self.0.wrapping_add(1_442_695_040_888_963_407);
        (self.0 >> 33) as usize % bound
    }

    fn byte(&mut self) -> u8 {
        self.below(256) as u8
    }

    // bytes of no shape
    fn bytes(&mut self) -> Vec<u8> {
        let length = self.below(80);
        (0..length).map(|_| self.byte()).collect()
    }

    // records of a few nodes, most of which may go
    fn records(&mut self) -> Vec<u8> {
        let nodes = 1 + self.below(5);
        let mut log = vec![0x10, nodes as u8];
        let mut flying: Vec<(u8, u8)> = Vec::new();
        for number in 0..self.below(60) as u8 {
            let node = self.below(nodes) as u8;
            let to = self.below(nodes) as u8;
            match self.below(8) {
                0 => log.extend([0x11, node]),
                1 | 2 => log.extend([0x12, node]),
                3 | 4 if to != node => {
                    log.extend([0x13, node, to, number, 0]);
                    flying.push((to, number));
                }
                5 | 6 if !flying.is_empty() => {
                    let (to, number) = flying.swap_remove(self.below(flying.len()));
                    log.extend([0x14, to, number, 0]);
                }
                _ => (),
            }
        }
        log
    }

    // the bytes, with one of them changed, taken out or cut off
    fn damage(&mut self, bytes: &[u8]) -> Vec<u8> {
        let mut bytes = bytes.to_vec();
        if !bytes.is_empty() {
            let place = self.below(bytes.len());
            match self.below(4) {
                0 => bytes.truncate(place),
                1 => drop(bytes.remove(place)),
                2 => bytes[place] = self.byte(),
                _ => bytes[place] ^= 1 << self.below(3),
            }
        }
        bytes
    }

    fn log(&mut self) -> Vec<u8> {
        match self.below(4) {
            0 => self.bytes(),
            1 => self.records(),
            2 => {
                let log = self.records();
                self.damage(&log)
            }
            _ => self.damage(BARN),
        }
    }
}

// the answer to a log, with what 01 says of the rooms after it, and the report
fn answer(mode: Mode, log: &[u8], size: usize) -> (Result<Totals, Refusal>, Vec<u8>) {
    let mut rooms = Rooms::new();
    rooms.counts.fill(0xeeee);
    rooms.words.fill(0xeeee);
    rooms.mail.fill(0xeeee);
    let mut room = vec![0xee; size];
    let told = run(mode, log, &mut rooms, &mut room);
    let length = match told {
        Ok(totals) => totals.bytes,
        Err(refusal) => {
            assert!((2..=13).contains(&refusal.number) && refusal.place <= log.len());
            assert_eq!(refusal.needed.is_some(), refusal.number == 13);
            assert_eq!(rooms, Rooms::new());
            0
        }
    };
    assert!(room[length..].iter().all(|&byte| byte == 0xee));
    room.truncate(length);
    (told, room)
}

// the place where the groups of a report end is the one that comparing tells
fn ends_where_comparing_says(report: &[u8]) -> bool {
    let mut rows = groups(report);
    rows.by_ref().for_each(drop);
    // no report has a mark 0.0, so one that is well formed is refused with 15
    let nowhere = Mark { node: 0, number: 0 };
    let refusal = compare(report, nowhere, nowhere).expect_err("no such mark");
    let well_formed = rows.place() == report.len();
    let expected = if well_formed {
        (15, 0)
    } else {
        (14, rows.place())
    };
    assert_eq!((refusal.number, refusal.place), expected);
    well_formed
}

#[test]
fn every_log_gets_an_answer() {
    let mut chance = Chance(1);
    let (mut accepted, mut refused) = (0, [0; 14]);
    for _ in 0..3_000 {
        let log = chance.log();
        let (full, full_report) = answer(Mode::Full, &log, ROOM);
        let (short, report) = answer(Mode::Short, &log, ROOM);
        assert_eq!(report, full_report);
        let (totals, full) = match (short, full) {
            (Ok(totals), Ok(full)) => (totals, full),
            _ => {
                assert_eq!(short, full);
                refused[usize::from(short.expect_err("both").number)] += 1;
                continue;
            }
        };
        accepted += 1;
        assert_eq!(full.carried, full.sends * usize::from(log[1]));
        assert!(totals.carried <= full.carried);
        let carried = full.carried;
        assert_eq!(Totals { carried, ..totals }, full);
        assert_eq!(groups(&report).count(), totals.marks);
        assert!(ends_where_comparing_says(&report));
        if totals.bytes > 0 {
            let small = Refusal {
                number: 13,
                place: log.len(),
                needed: Some(totals.bytes),
            };
            assert_eq!(answer(Mode::Short, &log, totals.bytes - 1).0, Err(small));
        }
    }
    // the logs are of every sort that so short ones can be
    assert!(accepted > 500, "{accepted} accepted");
    for number in [2, 3, 4, 5, 6, 7, 8, 10, 11] {
        assert!(refused[number] > 0, "none is refused with {number}");
    }
}

#[test]
fn every_report_is_read_to_its_first_bad_group() {
    let mut chance = Chance(2);
    let (mut well_formed, mut bad) = (0, 0);
    for _ in 0..1_000 {
        assert!(ends_where_comparing_says(&[]));
        ends_where_comparing_says(&chance.bytes());
        let log = chance.records();
        let (_, report) = answer(Mode::Short, &log, ROOM);
        let damaged = chance.damage(&report);
        match ends_where_comparing_says(&damaged) {
            true => well_formed += 1,
            false => bad += 1,
        }
        // a report behind itself has every mark twice
        assert_eq!(
            ends_where_comparing_says(&report.repeat(2)),
            report.is_empty()
        );
    }
    assert!(
        well_formed > 50 && bad > 50,
        "{well_formed} well formed, {bad} bad"
    );
}
