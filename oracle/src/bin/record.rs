//! The recorded list: cases with the Rust's lines, chosen so that every answer and every branch of the rules is met. One case a line: the
//! output's length, the image, and the line that is expected.
//!
//!     record make          writes the list to standard output
//!     record check FILE    says whether the lines of a list are the Rust's
//!
//! Chosen are H and its neighbours, and of a million cases of a fixed seed short ones with one fault or none, so many that each choice of the
//! generator, a field with a value or a fault, is met with each answer that it was met with at all.

use std::collections::BTreeMap;

use oracle::case::{hex, Case};
use oracle::cases::Seeded;
use oracle::dice::Choice;
use oracle::every;

const SEED: u64 = 1;
const TRIED: usize = 1_000_000;

/// No longer than this, so that the list stays small.
const MOST_IMAGE: usize = 240;
const MOST_OUT: usize = 24;

fn near_h() -> impl Iterator<Item = Case> {
    every::neighbours().map(|image| Case { image, out: 6 })
}

/// A choice of the generator, and the answer that a case with it got.
type Met = (Choice, u32);

/// A case, and what is met in it.
#[derive(Clone)]
struct Shown {
    case: Case,
    met: Vec<Met>,
}

/// For all that is met in any case, the shortest one.
fn shortest() -> BTreeMap<Met, Shown> {
    let mut found: BTreeMap<Met, Shown> = BTreeMap::new();
    let mut seeded = Seeded::new(SEED);
    for _ in 0..TRIED {
        let case = seeded.next().unwrap();
        if seeded.dice.broken > 1 || case.image.len() > MOST_IMAGE || case.out > MOST_OUT {
            continue;
        }
        let number = case.expected().number;
        let met: Vec<Met> = seeded.dice.choices.iter().map(|&choice| (choice, number)).collect();
        let shown = Shown { case, met };
        for &met in &shown.met {
            if found.get(&met).is_none_or(|held| shown.case.image.len() < held.case.image.len()) {
                found.insert(met, shown.clone());
            }
        }
    }
    found
}

/// Of those, again and again the one that shows most of what no earlier one did.
fn chosen() -> Vec<Case> {
    let mut left = shortest();
    let mut shown: Vec<Shown> = left.values().cloned().collect();
    let mut chosen = Vec::new();
    while !left.is_empty() {
        for one in &mut shown {
            one.met.retain(|met| left.contains_key(met));
        }
        let best = shown.iter().max_by_key(|one| one.met.len()).unwrap();
        chosen.push(best.case.clone());
        for met in best.met.clone() {
            left.remove(&met);
        }
    }
    chosen
}

fn written(case: &Case) -> String {
    format!("{} {} {}", case.out, hex(&case.image), case.expected().line)
}

fn read(line: &str) -> Option<Case> {
    let mut words = line.split(' ');
    let out = words.next()?.parse().ok()?;
    let digits = words.next()?.trim_start_matches('-');
    let image = (0..digits.len() / 2).map(|k| u8::from_str_radix(&digits[2 * k..2 * k + 2], 16).ok());
    Some(Case { image: image.collect::<Option<_>>()?, out })
}

fn check(file: &str) {
    let list = std::fs::read_to_string(file).unwrap_or_else(|error| panic!("{file}: {error}"));
    let mut met = [false; 30];
    for (k, line) in list.lines().enumerate() {
        let case = read(line).unwrap_or_else(|| panic!("{file}: line {} is no case", k + 1));
        assert!(line == written(&case), "{file}: line {} should be {}", k + 1, written(&case));
        met[case.expected().number as usize] = true;
    }
    let missing: Vec<usize> = (0..=26).chain([28]).filter(|&number| !met[number]).collect();
    assert!(missing.is_empty(), "{file} has none of the answers {missing:?}");
    println!("record: {} cases, all with the Rust's own lines", list.lines().count());
}

fn main() {
    let words: Vec<String> = std::env::args().skip(1).collect();
    match &words[..] {
        [word] if word == "make" => near_h().chain(chosen()).for_each(|case| println!("{}", written(&case))),
        [word, file] if word == "check" => check(file),
        _ => panic!("record make, or record check FILE"),
    }
}
