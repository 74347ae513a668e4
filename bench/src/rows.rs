//! What is measured: which call, on which image; jpeg_rows.rs has those of `coinbarrow_photo`, sheet_rows.rs those of `coinbarrow_sheet`. KB and MB
//! are 1,000 and 1,000,000 bytes.

use oracle::every;

use crate::images::{self, Phone};
use crate::limits::{self, Find, Limit};

#[derive(Clone, Copy)]
pub enum Call {
    Exif,
    Heif,
    /// `coinbarrow_photo` on a HEIF image, and on a JPEG image.
    Photo,
    Jpeg,
    /// `coinbarrow_sheet`, on lines.
    Sheet,
    Empty,
}

pub struct Row {
    pub name: &'static str,
    pub call: Call,
    /// The image, or the lines.
    pub input: Vec<u8>,
    /// None where no least work is plain to see.
    pub limit: Option<Limit>,
}

impl Row {
    pub(crate) fn new(name: &'static str, call: Call, input: Vec<u8>, limit: Find) -> Row {
        Row { name, call, limit: limit(&input), input }
    }
}

/// The rows of a table. In one of growth, rows of the same name follow each other, each with ten times more of what the name says.
pub struct Group {
    pub title: &'static str,
    /// What ours is held against: the Rust, or plain code in Rust.
    pub other: &'static str,
    pub growth: bool,
    pub rows: Vec<Row>,
}

pub fn groups() -> Vec<Group> {
    vec![
        Group { title: "Extraction", other: "Rust", growth: false, rows: extraction() },
        Group { title: "Extraction of short extents", other: "Rust", growth: false, rows: short_extents() },
        Group { title: "`is_heif`", other: "Rust", growth: false, rows: heif() },
        Group { title: "Extraction as the image grows tenfold", other: "Rust", growth: true, rows: extraction_growth() },
        Group { title: "`is_heif` as the image grows tenfold", other: "Rust", growth: true, rows: heif_growth() },
    ]
}

/// 2,000 bytes stand for what a camera writes.
pub(crate) const PHONE: Phone = Phone { exif: 2_000, mdat: 3_000_000, mdat_first: true, names: false };

/// The longest item; four bytes of offset are before its block.
const LONGEST: usize = 65_535;

pub fn extraction() -> Vec<Row> {
    let row = |name, input, limit| Row::new(name, Call::Exif, input, limit);
    vec![
        row("H", every::h(), limits::none),
        row("phone, `mdat` of 3 MB before `meta`", PHONE.image(), limits::none),
        row("phone, `mdat` of 3 MB after `meta`", Phone { mdat_first: false, ..PHONE }.image(), limits::none),
        row("phone with names, `mdat` of 3 MB before `meta`", Phone { names: true, ..PHONE }.image(), limits::none),
        row("phone with names, `mdat` of 3 MB after `meta`", Phone { names: true, mdat_first: false, ..PHONE }.image(), limits::none),
        row("phone, 30 bytes of Exif, `mdat` of 3 MB", Phone { exif: 30, ..PHONE }.image(), limits::none),
        row("phone, 30 bytes of Exif, `mdat` of 30 bytes", Phone { exif: 30, mdat: 30, ..PHONE }.image(), limits::none),
        row("block of 65,531 bytes, 1 extent, image", images::in_image(LONGEST, 1), limits::block),
        row("block of 65,531 bytes, 1 extent, `idat`", images::in_idat(LONGEST, 1), limits::block),
        row("block of 65,531 bytes, 1,000 extents, image", images::in_image(LONGEST, 1_000), limits::block),
        row("block of 65,531 bytes, 1,000 extents, `idat`", images::in_idat(LONGEST, 1_000), limits::block),
        row("10,000 small top-level boxes", images::top_level(10_000), limits::top_level),
        row("`ftyp` of 10,000 brands", images::brands(10_000), limits::brands),
        row("`meta` of 100,000 children", images::children(100_000), limits::children),
        row("`iinf` of 1 MB: boxes of 8 bytes", images::iinf_of_boxes(1_000_000), limits::items),
        row("`iinf` of 1 MB: `infe`", images::iinf_of_infe(1_000_000), limits::items),
        row("`iloc` of 1 MB: other ids", images::iloc_of_entries(1_000_000, false), limits::entries),
        row("`iloc` of 1 MB: the wanted id", images::iloc_of_entries(1_000_000, true), limits::entries),
        row("`iloc` of 1 MB: other ids, 65,535 extents of no bytes", images::iloc_of_no_bytes(1_000_000, false), limits::long_entries),
        row("`iloc` of 1 KB: the wanted id, 65,535 extents of no bytes", images::iloc_of_no_bytes(1_000, true), limits::long_entries),
    ]
}

/// Where copying is done in small pieces: the lengths just below a power of two take the most moves. An item has room for 516 extents of 127 bytes.
fn short_extents() -> Vec<Row> {
    let row =
        |name, image: fn(usize, usize) -> Vec<u8>, count, length| Row::new(name, Call::Exif, image(length * count, count), limits::block);
    let image = images::in_image;
    let idat = images::in_idat;
    vec![
        row("1,000 extents of 7 bytes, image", image, 1_000, 7),
        row("1,000 extents of 31 bytes, image", image, 1_000, 31),
        row("1,000 extents of 60 bytes, image", image, 1_000, 60),
        row("1,000 extents of 63 bytes, image", image, 1_000, 63),
        row("516 extents of 127 bytes, image", image, 516, 127),
        row("1,000 extents of 7 bytes, `idat`", idat, 1_000, 7),
        row("1,000 extents of 31 bytes, `idat`", idat, 1_000, 31),
        row("1,000 extents of 60 bytes, `idat`", idat, 1_000, 60),
        row("1,000 extents of 63 bytes, `idat`", idat, 1_000, 63),
        row("516 extents of 127 bytes, `idat`", idat, 516, 127),
    ]
}

/// The same images, and one where there is more than one box to walk.
fn heif() -> Vec<Row> {
    let mut rows = vec![Row::new("(an empty call)", Call::Empty, Vec::new(), limits::none)];
    rows.extend(extraction().into_iter().map(|row| Row::new(row.name, Call::Heif, row.input, limits::brands)));
    rows.push(Row::new("`ftyp` after 10,000 small top-level boxes", Call::Heif, images::ftyp_last(10_000), limits::top_level));
    rows
}

/// What is listed, by ours alone: the Rust has no listing.
pub struct Listed {
    pub name: &'static str,
    pub image: Vec<u8>,
    /// The last line of the text.
    pub last: String,
}

/// The longest image that is listed.
const LONGEST_LISTED: usize = 65_536;

/// Rows of the same name follow each other, each with about ten times as many boxes.
pub fn listing() -> Vec<Listed> {
    let row = |name, image: Vec<u8>| Listed { name, last: format!("end={} answer=0", image.len()), image };
    let grown = |name, counts: [usize; 3], image: fn(usize) -> Vec<u8>| counts.map(|count| row(name, image(count)));
    let mut rows = vec![row("H", every::h()), row("phone, without its `mdat`", PHONE.front())];
    rows.extend(grown("boxes of 8 bytes", [81, 819, 8_192], images::small_boxes));
    rows.extend(grown("boxes of 8 bytes, in 8 `moov`, one in another", [73, 811, 8_184], images::deep_boxes));
    rows.extend(grown("9 boxes, one in another, again and again", [9, 91, 910], images::chains));
    rows.push(row("one box", images::one_box(LONGEST_LISTED)));
    let image = images::one_box(LONGEST_LISTED + 1);
    rows.push(Listed { name: "one box, longer than is listed", image, last: format!("end={LONGEST_LISTED} answer=29") });
    rows
}

const COUNTS: [usize; 3] = [1_000, 10_000, 100_000];
const LENGTHS: [usize; 3] = [10_000, 100_000, 1_000_000];
const ITEMS: [usize; 3] = [655, 6_553, 65_530];
const EXTENTS: [usize; 3] = [100, 1_000, 10_000];
const MDATS: [usize; 4] = [3_000, 30_000, 300_000, 3_000_000];

pub(crate) fn grown(name: &'static str, call: Call, sizes: &[usize], input: impl Fn(usize) -> Vec<u8>, limit: Find) -> Vec<Row> {
    sizes.iter().map(|&size| Row::new(name, call, input(size), limit)).collect()
}

fn extraction_growth() -> Vec<Row> {
    let exif = Call::Exif;
    [
        grown("phone, `mdat` before `meta`", exif, &MDATS, |mdat| Phone { mdat, ..PHONE }.image(), limits::none),
        grown("phone, `mdat` after `meta`", exif, &MDATS, |mdat| Phone { mdat, mdat_first: false, ..PHONE }.image(), limits::none),
        grown("item in 1 extent, image", exif, &ITEMS, |length| images::in_image(length, 1), limits::block),
        grown("item in 1 extent, `idat`", exif, &ITEMS, |length| images::in_idat(length, 1), limits::block),
        grown("extents of 6 bytes, image", exif, &EXTENTS, |count| images::in_image(6 * count, count), limits::block),
        grown("extents of 6 bytes, `idat`", exif, &EXTENTS, |count| images::in_idat(6 * count, count), limits::block),
        grown("small top-level boxes", exif, &COUNTS, images::top_level, limits::top_level),
        grown("brands of `ftyp`", exif, &COUNTS, images::brands, limits::brands),
        grown("children of `meta`", exif, &COUNTS, images::children, limits::children),
        grown("`iinf`: boxes of 8 bytes", exif, &LENGTHS, images::iinf_of_boxes, limits::items),
        grown("`iinf`: `infe`", exif, &LENGTHS, images::iinf_of_infe, limits::items),
        grown("`iloc`: other ids", exif, &LENGTHS, |length| images::iloc_of_entries(length, false), limits::entries),
        grown("`iloc`: the wanted id", exif, &LENGTHS, |length| images::iloc_of_entries(length, true), limits::entries),
        grown(
            "`iloc`: other ids, 65,535 extents of no bytes",
            exif,
            &LENGTHS,
            |length| images::iloc_of_no_bytes(length, false),
            limits::long_entries,
        ),
        // Longer ones would take the Rust seconds.
        grown(
            "`iloc`: the wanted id, 65,535 extents of no bytes",
            exif,
            &[10, 100, 1_000],
            |length| images::iloc_of_no_bytes(length, true),
            limits::long_entries,
        ),
    ]
    .into_iter()
    .flatten()
    .collect()
}

fn heif_growth() -> Vec<Row> {
    [
        grown("small top-level boxes before `ftyp`", Call::Heif, &COUNTS, images::ftyp_last, limits::top_level),
        grown("brands of `ftyp`", Call::Heif, &COUNTS, images::brands, limits::brands),
    ]
    .into_iter()
    .flatten()
    .collect()
}
