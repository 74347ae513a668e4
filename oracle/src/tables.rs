//! `iinf` and `iloc`: the tables that lead to the item, with a fault possible at every field.

use crate::boxes::{big_endian, boxed, cut, plain};
use crate::dice::Dice;
use crate::item::{Extent, Item};

/// The version, and flags that nobody reads.
fn version(dice: &mut Dice, field: &'static str, usual: &[u64], faults: &[u64]) -> (u64, Vec<u8>) {
    let version = dice.choose(field, usual, faults);
    let mut bytes = vec![version as u8];
    let flags = if dice.one_in(4) { dice.bytes(3) } else { vec![0; 3] };
    bytes.extend(flags);
    (version, bytes)
}

/// A count that is right or not, in so many bytes.
fn count(dice: &mut Dice, field: &'static str, right: usize, size: usize) -> Vec<u8> {
    let right = right as u64;
    let count = match dice.choose(field, &[0], &[1, 2, 3, 4]) {
        1 => 0,
        2 => right + 1,
        3 => right.saturating_sub(1),
        4 => u64::MAX,
        _ => right,
    };
    big_endian(count, size)
}

fn other_id(dice: &mut Dice, id: u64) -> u64 {
    let near = [id ^ 1, id ^ 0x1_0000, 3, 0xfffe];
    let other = dice.pick(&near);
    if other == id {
        7
    } else {
        other
    }
}

// ---- iinf

fn infe(dice: &mut Dice, id: u64, kind: &[u8; 4]) -> Vec<u8> {
    let usual: &[u64] = if id > 0xffff { &[3] } else { &[2, 2, 3] };
    let (version, mut body) = version(dice, "infe version", usual, &[0, 1, 2, 3, 4, 255]);
    body.extend(big_endian(id, if version == 3 { 4 } else { 2 }));
    let protection = dice.pick(&[0, 0, 0, 1]);
    body.extend(big_endian(protection, 2));
    body.extend(kind);
    body.extend(&b"name\0"[dice.index(6)..]);
    let body = cut(dice, "infe cut", body);
    boxed(dice, "infe size", b"infe", &body)
}

/// With an entry for the item, unless that is left out.
fn entries(dice: &mut Dice, id: u64) -> Vec<Vec<u8>> {
    let mut entries = Vec::new();
    for _ in 0..dice.pick(&[0, 0, 1, 2, 4]) {
        let other = other_id(dice, id);
        let kind = dice.pick(&[b"mime", b"hvc1", b"Exi\0", b"exif"]);
        entries.push(infe(dice, other, kind));
    }
    if dice.one_in(8) {
        let earlier = other_id(dice, id);
        entries.push(infe(dice, earlier, b"Exif"));
    }
    if !dice.fault("no Exif item") {
        entries.push(infe(dice, id, b"Exif"));
    }
    if dice.one_in(4) {
        let kind = dice.pick(&[b"free", b"Exif", b"inf\0"]);
        entries.insert(dice.index(entries.len() + 1), boxed(dice, "other in iinf", kind, b"Exif"));
    }
    entries
}

pub fn iinf(dice: &mut Dice, id: u64) -> Vec<u8> {
    let (version, mut body) = version(dice, "iinf version", &[0, 0, 1], &[2, 255]);
    let entries = entries(dice, id);
    body.extend(count(dice, "iinf count", entries.len(), if version == 0 { 2 } else { 4 }));
    body.extend(entries.concat());
    let behind = dice.pick(&[0, 0, 0, 1, 9]);
    body.extend(dice.bytes(behind));
    let body = cut(dice, "iinf cut", body);
    boxed(dice, "iinf size", b"iinf", &body)
}

// ---- iloc

/// The sizes of an extent's fields and of the base, by the half-bytes; and the version, which says how long an id and a count are.
struct Shape {
    version: u64,
    offset: usize,
    length: usize,
    base: usize,
    index: usize,
}

const SIZE_FAULTS: [u64; 16] = [0, 1, 2, 3, 4, 5, 6, 7, 8, 9, 10, 11, 12, 13, 14, 15];

impl Shape {
    /// One that can say where the item's extents are. Thousands of them have no bytes in the table, or the file would be a large one.
    fn of(dice: &mut Dice, item: &Item, version: u64) -> Shape {
        if item.extents.len() > 300 {
            return Shape { version, offset: 0, length: 0, base: 4, index: 0 };
        }
        let ends = item.extents.iter().all(|x| x.length == 0);
        let starts = item.extents.iter().all(|x| x.at == item.extents[0].at);
        let lengths: &[u64] = if ends { &[0, 0, 4, 8] } else { &[4, 8, 8] };
        let offsets: &[u64] = if starts { &[0, 4, 8] } else { &[4, 8] };
        let offset = dice.choose("offset size", offsets, &SIZE_FAULTS);
        let bases: &[u64] = if offset == 0 { &[4, 8] } else { &[0, 4, 8] };
        Shape {
            version,
            offset: offset as usize,
            length: dice.choose("length size", lengths, &SIZE_FAULTS) as usize,
            base: dice.choose("base size", bases, &SIZE_FAULTS) as usize,
            index: dice.choose("index size", &[0, 0, 0, 4, 8], &SIZE_FAULTS) as usize,
        }
    }

    /// How long an index is in the table: version 0 has none, whatever the half-byte says.
    fn index_size(&self) -> usize {
        if self.version == 0 {
            0
        } else {
            self.index
        }
    }
}

/// The half-byte of the method stands behind twelve bits that nobody reads.
fn front(dice: &mut Dice, shape: &Shape, id: u64, method: u64, data_reference: u64) -> Vec<u8> {
    let mut bytes = big_endian(id, if shape.version == 2 { 4 } else { 2 });
    if shape.version != 0 {
        let reserved = dice.pick(&[0, 0, 0, 0xfff0, 0x10]);
        bytes.extend(big_endian(reserved | method, 2));
    }
    bytes.extend(big_endian(data_reference, 2));
    bytes
}

/// A number beside the right one. The largest comes often: only in eight bytes does it pass the end of 64 bits, which 18 and 19 are for.
fn beside(dice: &mut Dice, field: &'static str, right: u64) -> u64 {
    match dice.choose(field, &[0], &[1, 2, 3, 3, 3, 3, 3, 3, 3, 4, 5, 6, 6, 7]) {
        1 => right.wrapping_add(1),
        2 => right.wrapping_sub(1),
        3 => u64::MAX,
        4 => 1 << 63,
        5 => right.wrapping_add(1000),
        6 => u64::MAX - right,
        7 => 0,
        _ => right,
    }
}

/// The extents, from the base on.
fn extents(dice: &mut Dice, shape: &Shape, extents: &[Extent], start: u64, base: u64) -> Vec<u8> {
    let mut bytes = Vec::new();
    // Nothing to choose, however many there are.
    if shape.index_size() + shape.offset + shape.length == 0 {
        return bytes;
    }
    for x in extents {
        bytes.extend(dice.bytes(shape.index_size()));
        let at = beside(dice, "extent offset", (start + x.at).wrapping_sub(base));
        bytes.extend(big_endian(at, shape.offset));
        let length = beside(dice, "extent length", x.length);
        bytes.extend(big_endian(length, shape.length));
    }
    bytes
}

/// A base from which the extents' offsets can say the rest. Without offsets it says all.
fn base_offset(dice: &mut Dice, shape: &Shape, item: &Item, start: u64) -> u64 {
    if shape.base == 0 {
        return 0;
    }
    let first = start + item.extents.first().map_or(0, |x| x.at);
    let base = if shape.offset == 0 { first } else { dice.pick(&[0, start, start / 2]) };
    beside(dice, "base offset", base)
}

/// The item's entry. Its data starts at `start` of the image, or of `idat`.
fn entry(dice: &mut Dice, shape: &Shape, item: &Item, start: u64) -> Vec<u8> {
    let method = dice.choose("method", &[item.method], &[0, 1, 2, 2, 2, 2, 3, 4, 8, 15]);
    let data_reference = dice.choose("data reference", &[0], &[1, 0xffff]);
    let mut bytes = front(dice, shape, item.id, method, data_reference);
    let base = base_offset(dice, shape, item, start);
    bytes.extend(big_endian(base, shape.base));
    bytes.extend(count(dice, "extent count", item.extents.len(), 2));
    bytes.extend(extents(dice, shape, &item.extents, start, base));
    bytes
}

/// An entry of another id, or an earlier one of the item, with anything in its fields.
fn other(dice: &mut Dice, shape: &Shape, id: u64) -> Vec<u8> {
    let method = dice.choose("other's method", &[0, 1], &[2, 3, 15]);
    let data_reference =
        if method == 0 || shape.version == 0 { dice.choose("other's data reference", &[0], &[1]) } else { dice.pick(&[0, 1, 0xffff]) };
    let mut bytes = front(dice, shape, id, method, data_reference);
    bytes.extend(dice.bytes(shape.base));
    let extents = dice.index(3);
    bytes.extend(count(dice, "other's extent count", extents, 2));
    bytes.extend(dice.bytes(extents * (shape.index_size() + shape.offset + shape.length)));
    bytes
}

fn locations(dice: &mut Dice, shape: &Shape, item: &Item, start: u64) -> Vec<Vec<u8>> {
    let mut entries = Vec::new();
    for _ in 0..dice.pick(&[0, 0, 1, 2, 3]) {
        let id = if dice.one_in(6) { item.id } else { other_id(dice, item.id) };
        entries.push(other(dice, shape, id));
    }
    if !dice.fault("no entry") {
        entries.push(entry(dice, shape, item, start));
    }
    if dice.one_in(4) {
        let id = other_id(dice, item.id);
        entries.push(other(dice, shape, id));
    }
    entries
}

pub fn iloc(dice: &mut Dice, item: &Item, start: u64) -> Vec<u8> {
    let usual: &[u64] = match (item.id > 0xffff, item.method) {
        (true, _) => &[2],
        (_, 0) => &[0, 0, 1, 2],
        _ => &[1, 1, 2],
    };
    let (version, mut body) = version(dice, "iloc version", usual, &[0, 1, 2, 3, 255]);
    let shape = Shape::of(dice, item, version);
    let sizes = (shape.offset << 12 | shape.length << 8 | shape.base << 4 | shape.index) as u64;
    body.extend(big_endian(sizes, 2));
    let entries = locations(dice, &shape, item, start);
    body.extend(count(dice, "iloc count", entries.len(), if version == 2 { 4 } else { 2 }));
    body.extend(entries.concat());
    let body = cut(dice, "iloc cut", body);
    boxed(dice, "iloc size", b"iloc", &body)
}

/// An `iloc` that a later one takes the place of.
pub fn earlier_iloc(dice: &mut Dice) -> Vec<u8> {
    let length = dice.index(20);
    plain(b"iloc", &dice.bytes(length))
}
