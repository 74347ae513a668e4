//! The program that is held against the Rust: cases go in, lines come out.

use std::io::{BufRead, BufReader, Read, Write};
use std::process::{exit, Child, ChildStdin, ChildStdout, Command, Stdio};
use std::sync::mpsc::{sync_channel, Receiver};
use std::thread;

use crate::case::{Case, Expected};

/// A case whose line is not the Rust's, and the one before it: a program that writes too much is only noticed at the next.
pub struct Disagreement {
    pub before: Option<Case>,
    pub case: Case,
    pub expected: String,
    pub got: String,
}

/// How many of each number the Rust gave.
pub type Counts = [u64; 30];

type Batch = Vec<(Expected, Case)>;

const BATCH: usize = 256;

fn start(command: &[String]) -> (Child, ChildStdin, ChildStdout) {
    let child = Command::new(&command[0]).args(&command[1..]).stdin(Stdio::piped()).stdout(Stdio::piped()).spawn();
    let mut child = child.unwrap_or_else(|error| {
        println!("compare: {} does not start: {error}", command[0]);
        exit(1)
    });
    let (cases, lines) = (child.stdin.take().unwrap(), child.stdout.take().unwrap());
    (child, cases, lines)
}

/// All that a program writes which is given this case alone.
pub fn alone(command: &[String], case: &Case) -> String {
    let (mut child, mut cases, mut lines) = start(command);
    let mut bytes = Vec::new();
    case.write(&mut bytes);
    // A program that ends before it has read all is told by what it writes.
    let _ = cases.write_all(&bytes);
    drop(cases);
    let mut written = Vec::new();
    lines.read_to_end(&mut written).unwrap();
    let status = child.wait().unwrap();
    let written = String::from_utf8_lossy(&written);
    match written.strip_suffix('\n') {
        Some(line) if status.success() => line.to_owned(),
        _ => format!("{written} ({status})"),
    }
}

/// Holds every case against the Rust, up to the first that differs. The program reads and writes while the Rust answers.
pub fn compare(command: &[String], cases: impl Iterator<Item = Case>) -> Result<Counts, Box<Disagreement>> {
    let (child, mut input, lines) = start(command);
    let (send, receive) = sync_channel::<Batch>(8);
    let held = thread::spawn(move || hold(child, lines, receive));
    let mut cases = cases.peekable();
    let mut bytes = Vec::new();
    while cases.peek().is_some() {
        let batch: Batch = cases.by_ref().take(BATCH).map(|case| (case.expected(), case)).collect();
        bytes.clear();
        batch.iter().for_each(|(_, case)| case.write(&mut bytes));
        // Neither goes through where the comparison has ended; what it found comes below.
        if send.send(batch).is_err() || input.write_all(&bytes).is_err() {
            break;
        }
    }
    drop((send, input));
    held.join().unwrap()
}

/// A line without its end. Of one that is cut, what is there, and how the program ended.
fn line(lines: &mut impl BufRead, child: &mut Child) -> String {
    let mut line = Vec::new();
    lines.read_until(b'\n', &mut line).unwrap();
    match line.strip_suffix(b"\n") {
        Some(line) => String::from_utf8_lossy(line).into_owned(),
        None => format!("{} ({})", String::from_utf8_lossy(&line), child.wait().unwrap()),
    }
}

fn hold(mut child: Child, lines: ChildStdout, batches: Receiver<Batch>) -> Result<Counts, Box<Disagreement>> {
    let mut lines = BufReader::with_capacity(1 << 20, lines);
    let mut counts = [0; 30];
    let mut before = None;
    for (expected, case) in batches.into_iter().flatten() {
        let got = line(&mut lines, &mut child);
        if got != expected.line {
            let _ = child.kill();
            let _ = child.wait();
            return Err(Box::new(Disagreement { before, case, expected: expected.line, got }));
        }
        counts[expected.number as usize] += 1;
        before = Some(case);
    }
    let mut more = Vec::new();
    lines.read_to_end(&mut more).unwrap();
    let status = child.wait().unwrap();
    if !more.is_empty() || !status.success() {
        println!("compare: after the last case the program wrote {:?} and ended with {status}", String::from_utf8_lossy(&more));
        exit(1)
    }
    Ok(counts)
}
