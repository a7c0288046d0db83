//! The kinds of questions that compare.

use crate::census::Kind;
use crate::frames::Compare;
use crate::groups::{DIRECT, STAMP};
use crate::reader::Refusal;
use crate::relation::{self, Relation};
use crate::stamps::{self, Bad, Rule, Stamps, MOST_GROUPS};

/// A question to compare with its answer, and what the report is.
pub struct Case {
    compare: Compare,
    answer: Result<Relation, Refusal>,
    stamps: Result<Stamps, Bad>,
}

impl Case {
    pub fn of(compare: Compare) -> Case {
        Case {
            answer: relation::between(&compare.report, compare.first, compare.second),
            stamps: stamps::read(&compare.report),
            compare,
        }
    }

    fn is(&self, relation: Relation) -> bool {
        self.answer == Ok(relation)
    }

    fn refused(&self, number: u8) -> bool {
        self.answer.is_err_and(|refusal| refusal.number == number)
    }

    /// Whether the report is well formed and such.
    fn report(&self, such: impl Fn(&Stamps) -> bool) -> bool {
        self.stamps.as_ref().is_ok_and(such)
    }

    /// Whether the first bad group breaks this rule alone.
    fn breaks(&self, rule: Rule) -> bool {
        let broken = self.stamps.as_ref().err().map(|bad| &bad.broken[..]);
        broken == Some(&[rule])
    }

    /// The byte that stands so far behind the first byte of the first bad group.
    fn byte(&self, behind: usize) -> Option<u8> {
        let place = self.stamps.as_ref().err()?.place;
        self.compare.report.get(place + behind).copied()
    }

    /// Whether this byte follows a sound group, where it starts none.
    fn follows(&self, byte: u8) -> bool {
        let place = self.stamps.as_ref().err().map_or(0, |bad| bad.place);
        place > 0 && self.breaks(Rule::Start) && self.byte(0) == Some(byte)
    }
}

pub const KINDS: [Kind<Case>; 30] = [
    ("before", |case| case.is(Relation::Before)),
    ("after", |case| case.is(Relation::After)),
    ("apart", |case| case.is(Relation::Apart)),
    ("number 14", |case| case.refused(14)),
    ("number 15", |case| case.refused(15)),
    ("number 16", |case| case.refused(16)),
    ("number 15 with the second mark absent too", |case| {
        let second = case.compare.second;
        case.refused(15) && case.report(|stamps| !stamps.contains_key(&second))
    }),
    ("number 14 behind a sound group", |case| {
        case.answer.is_err_and(|refusal| refusal.place > 0)
    }),
    ("a mark with itself", |case| {
        case.answer.is_ok() && case.compare.first == case.compare.second
    }),
    ("two marks of one stamp", has_one_stamp),
    ("report of no byte", |case| case.compare.report.is_empty()),
    ("reports with more than 36,000 bytes", |case| {
        case.compare.report.len() > 36_000
    }),
    ("reports of 4,096 groups", |case| {
        case.report(|stamps| stamps.len() == MOST_GROUPS)
    }),
    ("a node's marks out of order", |case| {
        case.report(is_out_of_order)
    }),
    ("counts of node 31", |case| {
        case.report(|stamps| stamps.values().any(|found| found.stamp.contains_key(&31)))
    }),
    ("counts of 4,096", |case| {
        case.report(|stamps| {
            stamps
                .values()
                .any(|found| found.stamp.values().any(|&count| count == 4_096))
        })
    }),
    ("bad for the first byte", |case| case.breaks(Rule::Start)),
    ("bad for a surplus predecessor", |case| case.follows(DIRECT)),
    ("bad for a count behind the predecessors", |case| {
        case.follows(STAMP)
    }),
    ("bad for a head cut short", |case| case.breaks(Rule::Head)),
    ("bad for a count cut short", |case| case.breaks(Rule::Stamp)),
    ("bad for a missing predecessor", |case| {
        case.breaks(Rule::Announced)
    }),
    ("bad for a node", |case| case.breaks(Rule::Nodes)),
    ("bad for a number or count", |case| {
        case.breaks(Rule::Numbers)
    }),
    ("bad for counts that do not ascend", |case| {
        case.breaks(Rule::Counts)
    }),
    (
        "bad for counts that do not ascend, none announced",
        |case| case.breaks(Rule::Counts) && case.byte(4) == Some(0),
    ),
    ("bad for predecessors that do not ascend", |case| {
        case.breaks(Rule::Direct)
    }),
    ("bad for the own count", |case| case.breaks(Rule::Own)),
    ("bad for a second group of a mark", |case| {
        case.breaks(Rule::Once)
    }),
    ("bad for a 4,097th group", |case| case.breaks(Rule::Most)),
];

fn has_one_stamp(case: &Case) -> bool {
    let (first, second) = (case.compare.first, case.compare.second);
    let stamp = |stamps: &Stamps, name| stamps.get(&name).map(|found| found.stamp.clone());
    first != second
        && case.answer.is_ok()
        && case.report(|stamps| stamp(stamps, first) == stamp(stamps, second))
}

/// Whether a mark's group stands before that of an earlier mark of its node.
fn is_out_of_order(stamps: &Stamps) -> bool {
    let groups: Vec<_> = stamps.iter().collect();
    groups.windows(2).any(|two| {
        let [(earlier, first), (later, second)] = [two[0], two[1]];
        earlier.0 == later.0 && first.place > second.place
    })
}
