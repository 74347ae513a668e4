//! The tables of both sides, of HEIF, of JPEG and of the sheet, and of the listing. bench/run starts it, with one of:
//!
//!     time           measures by the clock, and prints the tables
//!     marks          makes the calls between marks, for bench/count-insns
//!     counted FILE   prints the tables of what was counted

mod listing;
mod meters;
mod report;

use bench::{jpeg_rows, rows, sheet_rows};
use meters::{Clock, Counted, Marks, Meter, BATCHES, CALLS};

struct Figures {
    groups: [report::Measured; 3],
    listing: Vec<listing::Figure>,
}

/// What each part is measured on is made when its turn comes, so that the Rust, which allocates, finds the heap as it would without those behind it.
fn measure(meter: &mut impl Meter) -> Figures {
    let groups = [rows::groups, jpeg_rows::groups, sheet_rows::groups].map(|groups| report::measure(groups(), meter));
    Figures { groups, listing: listing::measure(meter) }
}

fn print(figures: &Figures, head: &str, unit: &str) {
    println!("{head}\n");
    figures.groups.iter().for_each(|measured| report::print(measured, unit));
    listing::print(&figures.listing, unit);
}

fn main() {
    let words: Vec<String> = std::env::args().skip(1).collect();
    match words.iter().map(String::as_str).collect::<Vec<_>>()[..] {
        ["time"] => {
            let head = format!("TIME a call, in nanoseconds (ns): the fastest of {BATCHES} batches, in which the sides take turns.");
            print(&measure(&mut Clock), &head, "ns");
        }
        ["marks"] => drop(measure(&mut Marks)),
        ["counted", file] => {
            let head = format!(
                "INSTRUCTIONS that a call executes, the mean of {CALLS} calls, counted by an emulator: exact, but no measure of time."
            );
            print(&measure(&mut Counted::read(file)), &head, "instructions");
        }
        _ => panic!("bench time, bench marks, or bench counted FILE"),
    }
}
