//! Holds a program that answers cases against the Rust.
//!
//!     compare CASES SEED SHORTEST COMMAND...
//!
//! CASES is how many grown and damaged files there are, after the cases that are always tried; SEED is a number, or `fresh` for one by the
//! clock; every image of up to SHORTEST bytes is among those always tried. Exit status 0, or 1 with what went wrong.

use std::process::exit;
use std::time::{Instant, SystemTime, UNIX_EPOCH};

use oracle::case::{hex, Case};
use oracle::cases::{always, Seeded};
use oracle::program::{alone, compare, Counts, Disagreement};
use oracle::shrink::shrink;

/// Each answer that an image can get, at least so often, in a run of 100,000 or more.
const FLOOR: u64 = 100;

/// So many questions at most for a smaller case: each is a run of the program.
const QUESTIONS: usize = 5_000;

fn fresh() -> u64 {
    SystemTime::now().duration_since(UNIX_EPOCH).unwrap().as_nanos() as u64
}

fn show(case: &Case, expected: &str, got: &str) {
    println!("  image   {} ({} bytes), output of {} bytes", hex(&case.image), case.image.len(), case.out);
    println!("  Rust    {expected}");
    println!("  program {got}");
}

/// Shows the case, and a smaller one, each given to the program alone.
fn report(first: Disagreement, command: &[String]) -> ! {
    println!("compare: a disagreement");
    show(&first.case, &first.expected, &first.got);
    let differs = |case: &Case| alone(command, case) != case.expected().line;
    match [Some(first.case), first.before].into_iter().flatten().find(differs) {
        None => println!("compare: given alone, neither this case nor the one before it differs"),
        Some(case) => {
            let small = shrink(case, QUESTIONS, differs);
            println!("compare: shrunken");
            show(&small, &small.expected().line, &alone(command, &small));
        }
    }
    exit(1)
}

/// Fails where an answer that can be given was not, or not often enough to say much.
fn judge(counts: &Counts, cases: usize) {
    let floor = if cases < 100_000 { 1 } else { FLOOR };
    let mut missing = Vec::new();
    for number in (0..=26).chain([28]) {
        println!("  answer {number:2}: {}", counts[number]);
        if counts[number] < floor {
            missing.push(number);
        }
    }
    if !missing.is_empty() {
        println!("compare: fewer than {floor} of the answers {missing:?}");
        exit(1);
    }
}

fn main() {
    let words: Vec<String> = std::env::args().skip(1).collect();
    let [cases, seed, shortest, command @ ..] = &words[..] else { panic!("compare CASES SEED SHORTEST COMMAND...") };
    let cases: usize = cases.parse().expect("a number of cases");
    let seed = if seed == "fresh" { fresh() } else { seed.parse().expect("a seed is a number, or fresh") };
    let shortest = shortest.parse().expect("a number of bytes");
    println!("compare: seed {seed}");
    let began = Instant::now();
    match compare(command, always(shortest).chain(Seeded::new(seed).take(cases))) {
        Err(first) => report(*first, command),
        Ok(counts) => {
            judge(&counts, cases);
            let others = counts.iter().sum::<u64>() - cases as u64;
            let seconds = began.elapsed().as_secs();
            println!("compare: {cases} cases of the seed and {others} that are always tried, no disagreement, {seconds} s");
        }
    }
}
