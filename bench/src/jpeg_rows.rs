//! What is measured of `coinbarrow_photo`. KB and MB are 1,000 and 1,000,000 bytes.

use oracle::every;

use crate::images;
use crate::jpegs;
use crate::limits;
use crate::rows::{grown, Call, Group, Row, PHONE};

pub fn groups() -> Vec<Group> {
    vec![
        Group { title: "JPEG by `coinbarrow_photo`", other: "plain Rust", growth: false, rows: jpeg() },
        Group { title: "JPEG as the image grows tenfold", other: "plain Rust", growth: true, rows: growth() },
        Group { title: "HEIF by `coinbarrow_photo`", other: "Rust", growth: false, rows: heif() },
    ]
}

pub fn jpeg() -> Vec<Row> {
    let row = |name, input, limit| Row::new(name, Call::Jpeg, input, limit);
    vec![
        row("block of 4 bytes", jpegs::block(4), limits::jpeg_block),
        row("block of 65,527 bytes", jpegs::block(65_527), limits::jpeg_block),
        row("photograph of 5 MB, Exif first", jpegs::first(5_000_000), limits::jpeg_block),
        row("photograph of 5 MB, no Exif", jpegs::without(5_000_000), limits::segments),
        row("Exif behind 5 MB: segments with the longest bodies", jpegs::behind_longest(5_000_000), limits::segments),
        row("Exif behind 5 MB: segments without a body", jpegs::behind_bodyless(5_000_000), limits::segments),
        row("Exif behind 5 MB: markers without a length", jpegs::behind_restarts(5_000_000), limits::markers),
        row("Exif behind 5 MB: fill", jpegs::behind_fill(5_000_000), limits::markers),
        row("Exif behind 5 MB: E1 of XMP", jpegs::behind_xmp(5_000_000), limits::segments),
        row("Exif behind 5 MB: E1 of `Exif`, 00, 01", jpegs::behind_misnamed(5_000_000), limits::segments),
        row("Exif behind 5 MB: all kinds, mixed", jpegs::behind_mixed(5_000_000), limits::none),
        row("FF for 5 MB, and nothing behind", jpegs::endless_fill(5_000_000), limits::markers),
    ]
}

const LENGTHS: [usize; 3] = [50_000, 500_000, 5_000_000];
const BLOCKS: [usize; 3] = [655, 6_552, 65_527];

fn growth() -> Vec<Row> {
    let jpeg = Call::Jpeg;
    [
        grown("block", jpeg, &BLOCKS, jpegs::block, limits::jpeg_block),
        grown("photograph, Exif first", jpeg, &LENGTHS, jpegs::first, limits::jpeg_block),
        grown("behind segments with the longest bodies", jpeg, &LENGTHS, jpegs::behind_longest, limits::segments),
        grown("behind segments without a body", jpeg, &LENGTHS, jpegs::behind_bodyless, limits::segments),
        grown("behind markers without a length", jpeg, &LENGTHS, jpegs::behind_restarts, limits::markers),
        grown("behind fill", jpeg, &LENGTHS, jpegs::behind_fill, limits::markers),
        grown("behind E1 of XMP", jpeg, &LENGTHS, jpegs::behind_xmp, limits::segments),
        grown("behind E1 of `Exif`, 00, 01", jpeg, &LENGTHS, jpegs::behind_misnamed, limits::segments),
        grown("behind all kinds, mixed", jpeg, &LENGTHS, jpegs::behind_mixed, limits::none),
        grown("FF, and nothing behind", jpeg, &LENGTHS, jpegs::endless_fill, limits::markers),
    ]
    .into_iter()
    .flatten()
    .collect()
}

/// Where the question whether it is HEIF costs little, and where it costs most.
pub fn heif() -> Vec<Row> {
    let row = |name, input, limit| Row::new(name, Call::Photo, input, limit);
    vec![
        row("H", every::h(), limits::none),
        row("phone, `mdat` of 3 MB before `meta`", PHONE.image(), limits::none),
        row("`ftyp` of 10,000 brands", images::brands(10_000), limits::brands),
        row("`ftyp` after 10,000 small top-level boxes", images::ftyp_last(10_000), limits::top_level),
    ]
}
