//! Every row measured, whatever the meter is, and the tables of the figures.

use std::hint::black_box;

use bench::rows::{Call, Group, Row};
use bench::sides;
use bench::table::{grouped, Table};

use crate::meters::{Costs, Meter};

/// The answer that both sides give. Stops where they differ.
fn agreed(row: &Row) -> String {
    match row.call {
        Call::Exif => grouped(sides::agreed_block(row.name, &row.input)),
        Call::Photo => grouped(sides::agreed_photo(row.name, &row.input)),
        Call::Jpeg => sides::agreed_jpeg(row.name, &row.input).map_or_else(|number| format!("refusal {number}"), grouped),
        Call::Sheet => sheet_answer(&sides::agreed_sheet(row.name, &row.input)),
        Call::Heif => if sides::agreed_heif(row.name, &row.input) { "yes" } else { "no" }.to_string(),
        Call::Empty => "-".to_string(),
    }
}

/// The length of a sheet, or the only line of one that names a line.
fn sheet_answer(text: &str) -> String {
    if text.starts_with("line=") {
        text.trim_end().to_string()
    } else {
        grouped(text.len())
    }
}

/// The output is made once and not cleared between calls. The Rust allocates its answer and it is freed: both are part of its call. That of the limit lies
/// on the stack, so that the Rust finds the heap as it would without it.
fn measure_row(row: &Row, meter: &mut impl Meter) -> Costs {
    let input = &row.input[..];
    let mut out = vec![0; sides::ROOM];
    let copy: &mut [u8] = &mut [0; sides::ROOM];
    let limit = row.limit.as_ref().map(|limit| move || _ = black_box(black_box(limit).run(black_box(input), black_box(copy))));
    match row.call {
        Call::Exif => meter.measure(
            || drop(black_box(sides::rust_exif(black_box(input)))),
            || _ = black_box(sides::our_exif(black_box(input), black_box(&mut out))),
            limit,
        ),
        Call::Photo => meter.measure(
            || drop(black_box(sides::rust_photo(black_box(input)))),
            || _ = black_box(sides::our_photo(black_box(input), black_box(&mut out))),
            limit,
        ),
        Call::Jpeg => meter.measure(
            || drop(black_box(sides::plain_jpeg(black_box(input)))),
            || _ = black_box(sides::our_photo(black_box(input), black_box(&mut out))),
            limit,
        ),
        Call::Sheet => meter.measure(
            || drop(black_box(sides::plain_sheet(black_box(input)))),
            || _ = black_box(sides::our_sheet(black_box(input), black_box(&mut out))),
            limit,
        ),
        Call::Heif => meter.measure(
            || _ = black_box(sides::rust_is_heif(black_box(input))),
            || _ = black_box(sides::our_is_heif(black_box(input))),
            limit,
        ),
        Call::Empty => meter.measure(|| sides::empty(black_box(input), &mut []), || sides::empty(black_box(input), &mut []), limit),
    }
}

/// Groups, and the figures of each one's rows.
pub struct Measured {
    groups: Vec<Group>,
    costs: Vec<Vec<Costs>>,
}

/// Both sides have to give the same answer on every input; nothing of these groups is measured before that.
pub fn measure(groups: Vec<Group>, meter: &mut impl Meter) -> Measured {
    for row in groups.iter().flat_map(|group| &group.rows) {
        agreed(row);
    }
    let costs = groups.iter().map(|group| group.rows.iter().map(|row| measure_row(row, meter)).collect()).collect();
    Measured { groups, costs }
}

/// One digit after the point of a small figure, none of another.
pub fn figure(number: f64) -> String {
    if number < 100.0 {
        format!("{number:.1}")
    } else {
        grouped(number.round() as usize)
    }
}

/// In bold where ours takes more.
fn ratio(row: &Row, costs: &Costs) -> String {
    let ratio = costs.ours / costs.rust;
    match row.call {
        Call::Empty => "-".to_string(),
        _ if ratio < 0.01 => format!("{ratio:.5}"),
        _ if ratio < 1.005 => format!("{ratio:.2}"),
        _ => format!("**{ratio:.2}**"),
    }
}

/// What each of so many costs.
pub fn apiece(number: f64, count: usize) -> String {
    format!("{:.4}", number / count as f64)
}

/// What a call is made on, what that is made of, and how many of these it has.
fn parts(row: &Row) -> (&'static str, &'static str, usize) {
    match row.call {
        Call::Sheet => ("lines", "line", row.input.iter().filter(|&&byte| byte == b'\n').count()),
        _ => ("image", "byte", row.input.len()),
    }
}

/// In a group of growth, what a byte of the image or a line costs too.
fn line(group: &Group, row: &Row, costs: &Costs) -> Vec<String> {
    let bytes = grouped(row.input.len());
    let mut line = vec![row.name.to_string(), bytes, agreed(row), figure(costs.rust), figure(costs.ours), ratio(row, costs)];
    line.push(costs.limit.map_or("-".to_string(), figure));
    if group.growth {
        let (_, _, count) = parts(row);
        line.extend([costs.rust, costs.ours].map(|number| apiece(number, count)));
    }
    line
}

pub fn print(measured: &Measured, unit: &str) {
    for (group, costs) in measured.groups.iter().zip(&measured.costs) {
        let (input, part, _) = parts(&group.rows[0]);
        let mut head = [input, "bytes", "answer"].map(str::to_string).to_vec();
        let other = group.other;
        head.extend([format!("{other}, {unit}"), format!("ours, {unit}"), format!("ours / {other}"), format!("limit, {unit}")]);
        if group.growth {
            head.extend([format!("{other}, {unit} a {part}"), format!("ours, {unit} a {part}")]);
        }
        let mut table = Table::new(group.title, head);
        for (row, costs) in group.rows.iter().zip(costs) {
            table.add(line(group, row, costs));
        }
        table.print();
    }
}
