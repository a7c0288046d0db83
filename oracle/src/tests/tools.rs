//! Frames, digests, cases, census, comparing and the two texts.

use super::{sizes, A};
use crate::answer;
use crate::cases;
use crate::census;
use crate::compare;
use crate::digest::Digest;
use crate::frames::{self, BadFrame, Compare, Question, Run};
use crate::letters::Mode;
use crate::script;
use crate::text;

fn question_a(report: usize) -> Question {
    Question::Run(Run {
        mode: Mode::Short,
        sizes: sizes(report),
        log: A.to_vec(),
    })
}

/// Two marks of a report of one group.
fn question_of_one(first: (u8, u16), second: (u8, u16)) -> Question {
    Question::Compare(Compare {
        first,
        second,
        report: vec![0x21, 3, 1, 2, 0, 0x22, 3, 1, 2],
    })
}

fn answers(frames: &[u8]) -> String {
    let mut output = Vec::new();
    answer::all(&mut &frames[..], &mut output).expect("a vector takes all");
    String::from_utf8(output).expect("answers are text")
}

#[test]
fn digests() {
    assert_eq!(Digest::of([]).to_string(), "0.0");
    assert_eq!(Digest::of([0, 0]).to_string(), "258.65600");
    assert_eq!(Digest::of([255; 5]).to_string(), "168430105.3313216947");
    assert_eq!(Digest::of_halves(&[0x0201]), Digest::of([1, 2]));
    assert_eq!(Digest::of_words(&[0x0403_0201]), Digest::of([1, 2, 3, 4]));
}

#[test]
fn frame_of_a() {
    let frame = frames::frame(&question_a(0x12345));
    let header = [1, 0, 4, 0x20, 4, 0x80, 0x11, 0x45, 0x23, 1, 0, 35, 0, 0, 0];
    assert_eq!(frame[..15], header);
    assert_eq!(frame[15..], A);
    assert_eq!(frames::next(&mut &frame[..]), Ok(Some(question_a(0x12345))));
    for length in 1..frame.len() {
        assert_eq!(frames::next(&mut &frame[..length]), Err(BadFrame));
    }
    assert_eq!(frames::next(&mut &[][..]), Ok(None));
}

#[test]
fn frame_of_a_comparison() {
    let question = question_of_one((3, 0x0201), (31, 5));
    let frame = frames::frame(&question);
    assert_eq!(frame[..11], [2, 3, 1, 2, 31, 5, 0, 9, 0, 0, 0]);
    assert_eq!(frame[11..], [0x21, 3, 1, 2, 0, 0x22, 3, 1, 2]);
    assert_eq!(frames::next(&mut &frame[..]), Ok(Some(question)));
    for length in 1..frame.len() {
        assert_eq!(frames::next(&mut &frame[..length]), Err(BadFrame));
    }
}

#[test]
fn reports_beyond_the_limit() {
    let frame = |low| [vec![2, 0, 1, 0, 0, 1, 0, low, 160, 0, 0], vec![0; 50_000]].concat();
    assert!(frames::next(&mut &frame(0)[..]).is_ok());
    assert_eq!(frames::next(&mut &frame(1)[..]), Err(BadFrame));
}

#[test]
fn frames_beyond_the_limits() {
    // Counts 2,049; words 2,049; mail 8,193; report 131,073; log 24,577.
    let at_limit = [0, 0, 8, 0, 8, 0, 32, 0, 0, 2, 0, 0, 96, 0, 0];
    let log = vec![0; 30_000];
    let with_log = |header: &[u8]| [header, &log].concat();
    assert!(frames::next(&mut &with_log(&at_limit)[..]).is_ok());
    for low_byte in [1, 3, 5, 7, 11] {
        let mut header = at_limit;
        header[low_byte] += 1;
        assert_eq!(frames::next(&mut &with_log(&header)[..]), Err(BadFrame));
    }
    let mut header = at_limit;
    header[0] = 0xFF;
    assert_eq!(frames::next(&mut &with_log(&header)[..]), Err(BadFrame));
}

#[test]
fn answers_until_a_bad_frame() {
    let frame = frames::frame(&question_a(47));
    let lines = answers(&[&frame[..], &frame, &frame[..20]].concat());
    let lines: Vec<&str> = lines.lines().collect();
    assert_eq!(lines.len(), 3);
    assert!(lines[0].starts_with("0 35 9 3 3 4 47 "));
    assert_eq!(lines[0].split(' ').count(), 11);
    assert_eq!(lines[0], lines[1]);
    assert_eq!(lines[2], "bad frame");
    assert_eq!(answers(&[]), "");
}

#[test]
fn answers_to_comparisons() {
    let [here, there] = [(3, 0x0201), (3, 0x0202)];
    let mut bad = frames::frame(&question_of_one(here, here));
    bad.push(0x23);
    bad[7] += 1;
    let frames = [
        frames::frame(&question_of_one(here, here)),
        frames::frame(&question_of_one(there, here)),
        frames::frame(&question_of_one(here, there)),
        bad,
    ];
    assert_eq!(answers(&frames.concat()), "apart\n15 0\n16 0\n14 9\n");
}

#[test]
fn any_three_thousand_cases_cover_everything() {
    for seed in [1, 2, 0xFFFF_FFFF_FFFF_FFFF] {
        let mut questions = Vec::new();
        cases::write(seed, 3_000, &mut questions).expect("a vector takes all");
        let complete = census::census(&mut &questions[..], &mut Vec::new());
        assert!(complete.expect("the frames are good"), "seed {seed}");
    }
}

/// How many of these lines begin with this word.
fn beginning(lines: &str, word: &str) -> usize {
    let begins = |line: &&str| line.split(' ').next() == Some(word);
    lines.lines().filter(begins).count()
}

#[test]
fn a_third_of_the_cases_compare_and_have_every_answer_often() {
    for seed in [1, 2, 0xFFFF_FFFF_FFFF_FFFF] {
        let compares = |index: &u64| matches!(cases::question(seed, *index), Question::Compare(_));
        let comparisons = (0..3_000).filter(compares);
        let frames = comparisons.map(|index| frames::frame(&cases::question(seed, index)));
        let lines = answers(&frames.collect::<Vec<_>>().concat());
        assert_eq!(lines.lines().count(), 1_000);
        for (word, least) in [
            ("before", 80),
            ("after", 80),
            ("apart", 250),
            ("14", 300),
            ("15", 35),
            ("16", 15),
        ] {
            let many = beginning(&lines, word);
            assert!(many >= least, "seed {seed}: {word} {many} times");
        }
    }
}

#[test]
fn every_pair_of_a_small_log_is_compared() {
    let comparison = |index| match cases::question(5, index) {
        Question::Compare(compare) => compare,
        Question::Run(_) => panic!("a turn that compares"),
    };
    let pairs: Vec<Compare> = (50..59).map(comparison).collect();
    assert!(pairs.iter().all(|pair| pair.report == pairs[0].report));
    for (index, pair) in pairs.iter().enumerate() {
        assert_eq!(pair.first, pairs[4 * (index / 3)].first);
        assert_eq!(pair.second, pairs[4 * (index % 3)].second);
        assert_eq!(pair.first == pair.second, index % 4 == 0);
    }
}

#[test]
fn a_census_of_one_question_lacks_much() {
    let mut lines = Vec::new();
    let frame = frames::frame(&question_a(47));
    let complete = census::census(&mut &frame[..], &mut lines).expect("the frame is good");
    let lines = String::from_utf8(lines).expect("a census is text");
    assert!(!complete);
    assert!(lines.contains("number 0: 1\n"));
    assert!(lines.contains("missing: number 13\n"));
    assert!(lines.contains("missing: before\n"));
}

fn compared(one: &str, other: &str) -> (bool, String) {
    let mut lines = Vec::new();
    let files = [one.as_bytes(), other.as_bytes()];
    let agree = compare::compare(files, ["one", "other"], &mut lines);
    let lines = String::from_utf8(lines).expect("the lines are text");
    (agree.expect("a vector takes all"), lines)
}

#[test]
fn comparing_answers() {
    let same = (true, "2 questions compared, 0 differ\n".to_string());
    assert_eq!(compared("1\n2\n", "1\n2\n"), same);
    let (agree, lines) = compared("1\n2\n", "1\n3\n");
    assert!(!agree);
    let shown = "question 2\n  one: 2\n  other: 3\n2 questions compared, 1 differ\n";
    assert_eq!(lines, shown);
    assert!(!compared("", "").0);
    assert!(!compared("1\n", "1\n1\n").0);
    assert!(compared("1\n", "1\n1\n").1.contains("one: (no answer)"));
    assert!(!compared("1\n", "1").0);
    let (_, lines) = compared(&"1\n".repeat(30), &"2\n".repeat(30));
    assert_eq!(lines.lines().count(), 31);
    assert!(lines.ends_with("30 questions compared, 30 differ\n"));
}

#[test]
fn readable_logs() {
    let text = "# two nodes\nnodes 2\n\nidle 1\nmark 0 # cow 4\nsend 0 1 258\n  receipt 1 258\n";
    let log = [0x10, 2, 0x11, 1, 0x12, 0, 0x13, 0, 1, 2, 1, 0x14, 1, 2, 1];
    assert_eq!(script::bytes_of_text(text), Ok(log.to_vec()));
    for wrong in [
        "moo 1",
        "mark",
        "mark 256",
        "send 0 1 65536",
        "receipt 1 2 3",
    ] {
        let line = format!("line 1: {wrong}");
        assert_eq!(script::bytes_of_text(wrong), Err(line));
    }
}

#[test]
fn texts_of_refusals() {
    assert_eq!(text::of(&[0x10, 2, 0x13, 0, 0, 1, 0]), "refused 7 at 4\n");
    assert_eq!(text::of(&[0x10; 20_482]), "refused 4 at 2\n");
    assert_eq!(text::of(&[0x10; 20_483]), "too long\n");
    let none = "ok 0 events 0 marks 0 sends 0 carried\n";
    assert_eq!(text::of(&[0x10, 1]), none);
    // Marks of one node: the first needs 9 bytes, each other 13; 16,384 bytes hold 1,260.
    let log = |marks: usize| [vec![0x10, 1], [0x12, 0].repeat(marks)].concat();
    assert!(text::of(&log(1_260)).ends_with("ok 1260 events 1260 marks 0 sends 0 carried\n"));
    assert_eq!(text::of(&log(1_261)), "refused 13 at 2524\n");
}
