//! Framed questions: reading and writing them.

use crate::groups::Name;
use crate::letters::Mode;
use crate::rooms::Sizes;
use std::io::Read;

pub const LARGEST: Sizes = Sizes {
    counts: 2_048,
    words: 2_048,
    mail: 8_192,
    report: 131_072,
};
pub const LONGEST_LOG: usize = 24_576;
pub const LONGEST_REPORT: usize = 40_960;

const RUN_FULL: u8 = 0;
const RUN_SHORT: u8 = 1;
const COMPARE: u8 = 2;

#[derive(Clone, Debug, PartialEq, Eq)]
pub enum Question {
    Run(Run),
    Compare(Compare),
}

/// Run this log in rooms of these sizes.
#[derive(Clone, Debug, PartialEq, Eq)]
pub struct Run {
    pub mode: Mode,
    pub sizes: Sizes,
    pub log: Vec<u8>,
}

/// Compare these two marks of this report.
#[derive(Clone, Debug, PartialEq, Eq)]
pub struct Compare {
    pub first: Name,
    pub second: Name,
    pub report: Vec<u8>,
}

/// A frame of unknown kind, beyond the limits, or cut short.
#[derive(Debug, PartialEq, Eq)]
pub struct BadFrame;

/// Reads the next question, or none where the input ends.
pub fn next(input: &mut impl Read) -> Result<Option<Question>, BadFrame> {
    let mut kind = [0];
    if input.read_exact(&mut kind).is_err() {
        return Ok(None);
    }
    let question = match kind[0] {
        RUN_FULL => Question::Run(read_run(Mode::Full, input)?),
        RUN_SHORT => Question::Run(read_run(Mode::Short, input)?),
        COMPARE => Question::Compare(read_compare(input)?),
        _ => return Err(BadFrame),
    };
    Ok(Some(question))
}

fn read_run(mode: Mode, input: &mut impl Read) -> Result<Run, BadFrame> {
    let sizes = Sizes {
        counts: read_length::<2>(input, LARGEST.counts)?,
        words: read_length::<2>(input, LARGEST.words)?,
        mail: read_length::<2>(input, LARGEST.mail)?,
        report: read_length::<4>(input, LARGEST.report)?,
    };
    let log = read_bytes(input, LONGEST_LOG)?;
    Ok(Run { mode, sizes, log })
}

fn read_compare(input: &mut impl Read) -> Result<Compare, BadFrame> {
    Ok(Compare {
        first: read_name(input)?,
        second: read_name(input)?,
        report: read_bytes(input, LONGEST_REPORT)?,
    })
}

fn read_name(input: &mut impl Read) -> Result<Name, BadFrame> {
    let mut bytes = [0; 3];
    input.read_exact(&mut bytes).map_err(|_| BadFrame)?;
    let [node, low, high] = bytes;
    Ok((node, u16::from_le_bytes([low, high])))
}

/// Reads a length and so many bytes, which must not be above the limit.
fn read_bytes(input: &mut impl Read, limit: usize) -> Result<Vec<u8>, BadFrame> {
    let mut bytes = vec![0; read_length::<4>(input, limit)?];
    input.read_exact(&mut bytes).map_err(|_| BadFrame)?;
    Ok(bytes)
}

/// Reads a length of so many bytes, low byte first, that must not be above the limit.
fn read_length<const BYTES: usize>(input: &mut impl Read, limit: usize) -> Result<usize, BadFrame> {
    let mut bytes = [0; BYTES];
    input.read_exact(&mut bytes).map_err(|_| BadFrame)?;
    let high_first = bytes.iter().rev();
    let length = high_first.fold(0, |length, &byte| 256 * length + usize::from(byte));
    if length > limit {
        return Err(BadFrame);
    }
    Ok(length)
}

/// The frame of a question.
pub fn frame(question: &Question) -> Vec<u8> {
    match question {
        Question::Run(run) => frame_run(run),
        Question::Compare(compare) => frame_compare(compare),
    }
}

fn frame_run(run: &Run) -> Vec<u8> {
    let mut frame = vec![match run.mode {
        Mode::Full => RUN_FULL,
        Mode::Short => RUN_SHORT,
    }];
    for length in [run.sizes.counts, run.sizes.words, run.sizes.mail] {
        frame.extend((length as u16).to_le_bytes());
    }
    for length in [run.sizes.report, run.log.len()] {
        frame.extend((length as u32).to_le_bytes());
    }
    frame.extend(&run.log);
    frame
}

fn frame_compare(compare: &Compare) -> Vec<u8> {
    let mut frame = vec![COMPARE];
    for (node, number) in [compare.first, compare.second] {
        frame.push(node);
        frame.extend(number.to_le_bytes());
    }
    frame.extend((compare.report.len() as u32).to_le_bytes());
    frame.extend(&compare.report);
    frame
}
