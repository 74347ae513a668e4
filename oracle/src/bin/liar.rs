//! Stands in for `cases` to see that the comparison notices: the Rust's lines, but for one kind of case.
//!
//!     liar SLIP

use std::io::{stdin, stdout, BufReader, Read, Write};

use oracle::case::Case;

/// What is written in the place of the right line and its end.
fn told(slip: &str, case: &Case) -> String {
    let expected = case.expected();
    let line = expected.line + "\n";
    match (slip, expected.number) {
        ("number", 12) => line.replace("answer=12", "answer=13"),
        ("room", 28) => line.replace("answer=28", "answer=0"),
        ("heif", 3) => line.replace("heif=1", "heif=0"),
        // The byte behind the block.
        ("behind", 0) if line.ends_with("a5\n") => line[..line.len() - 3].to_owned() + "00\n",
        ("twice", 12) => line.clone() + &line,
        ("cut", 12) => line[..9].to_owned(),
        _ => line,
    }
}

fn main() {
    let slip = std::env::args().nth(1).expect("liar SLIP");
    let mut input = BufReader::new(stdin());
    let mut head = [0; 9];
    while input.read_exact(&mut head).is_ok() {
        let number = |at: usize| u32::from_be_bytes(head[at..at + 4].try_into().unwrap()) as usize;
        let mut image = vec![0; number(1)];
        input.read_exact(&mut image).unwrap();
        let told = told(&slip, &Case { image, out: number(5) });
        // Written as it is made, as `cases` does. A line that is cut is the last one.
        if stdout().write_all(told.as_bytes()).and(stdout().flush()).is_err() || !told.ends_with('\n') {
            return;
        }
    }
}
