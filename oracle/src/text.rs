//! The program's text for a log: its marks with stamps and direct predecessors, and the totals.

use crate::answer::{self, Answer};
use crate::letters::Mode;
use crate::order::Order;
use crate::reader;
use crate::report::{self, Mark};
use crate::rooms::{Rooms, Sizes, COUNTS, MAIL, WORDS};

/// The longest input that the program reads, and its report room.
pub const LONGEST_INPUT: usize = 20_482;
pub const REPORT_ROOM: usize = 16_384;

pub fn of(bytes: &[u8]) -> String {
    if bytes.len() > LONGEST_INPUT {
        return "too long\n".to_string();
    }
    let mut rooms = Rooms::filled(Sizes {
        counts: COUNTS,
        words: WORDS,
        mail: MAIL,
        report: REPORT_ROOM,
    });
    let answer = answer::run(Mode::Short, bytes, &mut rooms);
    match reader::read(bytes) {
        Ok(log) if answer.number == 0 => {
            let marks = report::marks(&log, &Order::of(&log));
            let lines: String = marks.iter().map(mark_line).collect();
            lines + &ok_line(&answer)
        }
        _ => format!("refused {} at {}\n", answer.number, answer.place),
    }
}

fn mark_line(mark: &Mark) -> String {
    let stamp: Vec<String> = mark.stamp.iter().map(ToString::to_string).collect();
    let pair = |(node, number): &(usize, u16)| format!("{node}.{number}");
    let from: Vec<String> = mark.direct.iter().map(pair).collect();
    let from = if from.is_empty() {
        "-".to_string()
    } else {
        from.join(" ")
    };
    let stamp = stamp.join(" ");
    format!(
        "mark {}.{} stamp {stamp} from {from}\n",
        mark.node, mark.number
    )
}

fn ok_line(answer: &Answer) -> String {
    format!(
        "ok {} events {} marks {} sends {} carried\n",
        answer.events, answer.marks, answer.sends, answer.carried
    )
}
