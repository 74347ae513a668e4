//! The listing, which only ours has: measured, and the table of its figures.

use std::hint::black_box;

use bench::rows::{self, Listed};
use bench::sides;
use bench::table::{grouped, Table};

use crate::meters::Meter;
use crate::report::{apiece, figure};

pub struct Figure {
    row: Listed,
    /// The length of its text.
    text: usize,
    number: f64,
    limit: f64,
}

/// Each text is seen to end as it should before its call is measured. The output is made once and not cleared between calls. The limit is its text copied
/// by C's memcpy: so much has to be written at least.
fn measure_row(row: Listed, meter: &mut impl Meter) -> Figure {
    let text = sides::listed_text(row.name, &row.image, &row.last);
    let mut out = vec![0; sides::TEXT_ROOM];
    let number = meter.alone(|| _ = black_box(sides::our_list(black_box(&row.image), black_box(&mut out))));
    let mut copy = vec![0; text];
    let limit = meter.alone(|| black_box(&mut copy[..]).copy_from_slice(black_box(&out[..text])));
    Figure { row, text, number, limit }
}

pub fn measure(meter: &mut impl Meter) -> Vec<Figure> {
    rows::listing().into_iter().map(|row| measure_row(row, meter)).collect()
}

pub fn print(figures: &[Figure], unit: &str) {
    let mut head = ["image", "bytes", "bytes of text"].map(str::to_string).to_vec();
    head.extend([
        format!("ours, {unit}"),
        format!("{unit} a byte of text"),
        format!("{unit} a byte of the image"),
        format!("limit, {unit}"),
    ]);
    let mut table = Table::new("The listing", head);
    for Figure { row, text, number, limit } in figures {
        let bytes = row.image.len();
        let sizes = [row.name.to_string(), grouped(bytes), grouped(*text)];
        table.add(sizes.into_iter().chain([figure(*number), apiece(*number, *text), apiece(*number, bytes), figure(*limit)]).collect());
    }
    table.print();
}
