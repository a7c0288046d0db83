//! The samples' reports, read as groups, are those that the oracle has of them.

use hatsuvren::{compare, groups, run, Mark, Mode, Order, Rooms, Totals};

const SAMPLES: [(&[u8], &str); 3] = [
    (
        include_bytes!("../../../samples/a.log"),
        include_str!("../../../samples/a.out"),
    ),
    (
        include_bytes!("../../../samples/b.log"),
        include_str!("../../../samples/b.out"),
    ),
    (
        include_bytes!("../../../samples/barn.log"),
        include_str!("../../../samples/barn.out"),
    ),
];

// the report of a sample, and its totals
fn report_of(log: &[u8]) -> (Vec<u8>, Totals) {
    let mut room = vec![0; 16_384];
    let totals = run(Mode::Short, log, &mut Rooms::new(), &mut room).expect("accepted");
    room.truncate(totals.bytes);
    (room, totals)
}

// the text of a report, as the samples have it
fn text_of(report: &[u8], nodes: usize, totals: Totals) -> String {
    let mut text = String::new();
    for group in groups(report) {
        let mut stamp = vec![0; nodes];
        for entry in group.stamp() {
            stamp[usize::from(entry.node)] = entry.count;
        }
        let stamp: String = stamp.iter().map(|count| format!(" {count}")).collect();
        let mut from: String = group
            .predecessors()
            .map(|mark| format!(" {mark}"))
            .collect();
        if from.is_empty() {
            from = " -".into();
        }
        text += &format!("mark {} stamp{stamp} from{from}\n", group.mark());
    }
    let (events, marks) = (totals.events, totals.marks);
    let (sends, carried) = (totals.sends, totals.carried);
    text + &format!("ok {events} events {marks} marks {sends} sends {carried} carried\n")
}

// the marks of a sample's text with their stamps
fn stamps(text: &str) -> Vec<(Mark, Vec<u16>)> {
    let number = |word: &str| word.parse::<u16>().expect("a number");
    let line = |line: &str| {
        let (mark, stamp) = line.strip_prefix("mark ")?.split_once(" stamp ")?;
        let (node, mark) = mark.split_once('.')?;
        let (stamp, _) = stamp.split_once(" from ")?;
        let mark = Mark {
            node: number(node) as u8,
            number: number(mark),
        };
        Some((mark, stamp.split(' ').map(number).collect()))
    };
    text.lines().filter_map(line).collect()
}

#[test]
fn groups_say_what_the_samples_say() {
    for (log, expected) in SAMPLES {
        let (report, totals) = report_of(log);
        assert_eq!(text_of(&report, log[1].into(), totals), expected);
    }
}

#[test]
fn all_pairs_stand_as_their_stamps_in_the_samples() {
    for (log, expected) in SAMPLES {
        let (report, totals) = report_of(log);
        let stamps = stamps(expected);
        assert_eq!(stamps.len(), totals.marks);
        for (first, one) in &stamps {
            for (second, other) in &stamps {
                let below = one.iter().zip(other).all(|(a, b)| a <= b);
                let above = one.iter().zip(other).all(|(a, b)| a >= b);
                let order = match (below, above) {
                    (true, false) => Order::Before,
                    (false, true) => Order::After,
                    _ => Order::Apart,
                };
                assert_eq!(compare(&report, *first, *second), Ok(order));
            }
        }
    }
}
