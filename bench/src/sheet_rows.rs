//! What is measured of `coinbarrow_sheet`. MB are 1,000,000 bytes.

use oracle::dice::Dice;

use crate::limits;
use crate::rows::{grown, Call, Group, Row};

pub fn groups() -> Vec<Group> {
    vec![
        Group { title: "The sheet by `coinbarrow_sheet`", other: "plain Rust", growth: false, rows: sheet() },
        Group { title: "The sheet as the lines grow tenfold", other: "plain Rust", growth: true, rows: growth() },
    ]
}

const LONGEST: &[u8] = b"answer=0 length=65535\n";
const SHORTEST: &[u8] = b"answer=1 length=0\n";

pub fn sheet() -> Vec<Row> {
    let row = |name, input, limit| Row::new(name, Call::Sheet, input, limit);
    vec![
        row("no lines", Vec::new(), limits::none),
        row("1 line", LONGEST.to_vec(), limits::none),
        row("100,000 of the longest lines", LONGEST.repeat(100_000), limits::lines),
        row("100,000 of the shortest lines", SHORTEST.repeat(100_000), limits::lines),
        row("100,000 lines, all 100 answers in turn", in_turn(100_000), limits::lines),
        row("100,000 lines, mixed", mixed(100_000), limits::lines),
        row("1,000,000 lines", LONGEST.repeat(1_000_000), limits::lines),
        row("1,000,000 lines, the first one empty", [b"\n", &LONGEST.repeat(1_000_000)[..]].concat(), limits::none),
        row("22 MB of letters, no newline", vec![b'a'; 22_000_000], limits::none),
        row("2 MB of leading zeros", [b"answer=", &vec![b'0'; 2_000_000][..], b" length=0\n"].concat(), limits::none),
    ]
}

/// At most 100,000 lines are counted, so ten times as many must cost what these do.
const COUNTS: [usize; 4] = [1_000, 10_000, 100_000, 1_000_000];

fn growth() -> Vec<Row> {
    let lines = |name, line: &[u8]| grown(name, Call::Sheet, &COUNTS, |count| line.repeat(count), limits::lines);
    [lines("lines of 22 bytes, the longest", LONGEST), lines("lines of 18 bytes, the shortest", SHORTEST)].into_iter().flatten().collect()
}

fn line(answer: usize, length: usize) -> Vec<u8> {
    format!("answer={answer} length={length}\n").into_bytes()
}

fn in_turn(count: usize) -> Vec<u8> {
    (0..count).flat_map(|k| line(k % 100, 0)).collect()
}

/// Half of the answers are 0, with any length: which comes when can't be guessed.
fn mixed(count: usize) -> Vec<u8> {
    let mut dice = Dice::new(1);
    let any = |_| if dice.one_in(2) { line(0, dice.index(65_536)) } else { line(1 + dice.index(99), 0) };
    (0..count).flat_map(any).collect()
}
