//! Comparing two files of answers, line by line.

use std::io::{self, Write};

const MOST_SHOWN: usize = 10;

/// Shows the first mismatches of two files of answers and tells whether they agree.
pub fn compare(files: [&[u8]; 2], names: [&str; 2], output: &mut impl Write) -> io::Result<bool> {
    let lines = files.map(|file| {
        file.split_inclusive(|&byte| byte == b'\n')
            .collect::<Vec<_>>()
    });
    let questions = lines[0].len().max(lines[1].len());
    let mut differ = 0;
    for question in 0..questions {
        let answers = [0, 1].map(|side| lines[side].get(question).copied());
        if answers[0] != answers[1] {
            differ += 1;
            if differ <= MOST_SHOWN {
                show(question + 1, names, answers, output)?;
            }
        }
    }
    writeln!(output, "{questions} questions compared, {differ} differ")?;
    Ok(differ == 0 && questions > 0)
}

fn show(
    question: usize,
    names: [&str; 2],
    answers: [Option<&[u8]>; 2],
    output: &mut impl Write,
) -> io::Result<()> {
    writeln!(output, "question {question}")?;
    for (name, answer) in names.iter().zip(answers) {
        writeln!(output, "  {name}: {}", shown(answer))?;
    }
    Ok(())
}

fn shown(answer: Option<&[u8]>) -> String {
    let Some(line) = answer else {
        return "(no answer)".to_string();
    };
    match line.strip_suffix(b"\n") {
        Some(whole) => String::from_utf8_lossy(whole).into_owned(),
        None => format!("{} (line not ended)", String::from_utf8_lossy(line)),
    }
}
