//! The morning sheet by request fourteen's rules, as one would write it in Rust by hand: what ours is measured against.

use std::fmt::Write;

const MOST_LINES: usize = 100_000;

/// The sheet of the intake's lines.
pub fn sheet(lines: &[u8]) -> String {
    let mut counts = [0_usize; 100];
    let (mut files, mut bytes, mut largest) = (0, 0, 0);
    let mut rest = lines;
    while !rest.is_empty() {
        let read = if files < MOST_LINES { line(rest) } else { None };
        let Some((answer, length, behind)) = read else {
            return format!("line={}\n", files + 1);
        };
        counts[answer] += 1;
        files += 1;
        bytes += length;
        largest = largest.max(length);
        rest = behind;
    }
    let mut text = String::new();
    for (answer, files) in counts.iter().enumerate().filter(|(_, &files)| files > 0) {
        writeln!(text, "answer={answer} files={files}").unwrap();
    }
    writeln!(text, "total files={files} bytes={bytes} largest={largest}").unwrap();
    text
}

/// The answer and the length that the first line says, and what is behind it; none if it has another shape.
fn line(bytes: &[u8]) -> Option<(usize, usize, &[u8])> {
    let (answer, rest) = decimal(bytes.strip_prefix(b"answer=")?, 99)?;
    let most = if answer == 0 { 65_535 } else { 0 };
    let (length, rest) = decimal(rest.strip_prefix(b" length=")?, most)?;
    Some((answer, length, rest.strip_prefix(b"\n")?))
}

/// A decimal of at most `most`, and what is behind it. A zero at the front is all of it: a digit behind it is not what has to follow.
fn decimal(bytes: &[u8], most: usize) -> Option<(usize, &[u8])> {
    if let [b'0', rest @ ..] = bytes {
        return Some((0, rest));
    }
    let mut number = 0;
    let mut rest = bytes;
    while let [digit @ b'0'..=b'9', behind @ ..] = rest {
        number = number * 10 + usize::from(digit - b'0');
        if number > most {
            return None;
        }
        rest = behind;
    }
    (number > 0).then_some((number, rest))
}
