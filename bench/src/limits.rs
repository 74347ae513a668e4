//! The limit of a row: the least that its work could cost. The block is copied at once, or the way to it is gone by sizes alone, and nothing is asked of
//! what is met there. It answers nothing, so it is no third side; it says how much of a figure a better program could still save.

use std::ops::Range;

/// What is done with the part of an input that takes most of a row's work.
#[derive(Clone, Copy)]
enum Step {
    /// Copied by C's memcpy.
    Copy,
    /// From box to box, by the first four bytes of each.
    Boxes,
    /// From segment to segment of JPEG, by the two bytes behind each marker.
    Segments,
    /// From entry to entry of an `iloc`: the last two bytes of its head count its extents.
    Entries { head: usize, extent: usize },
    /// Read four bytes at a time, where none of them can be left out.
    Words,
    /// Its newlines counted.
    Lines,
}

pub struct Limit {
    step: Step,
    part: Range<usize>,
}

impl Limit {
    /// What was added up or counted, so that the compiler can leave out nothing. Like a call of the sides it is not folded into its caller.
    #[inline(never)]
    pub fn run(&self, input: &[u8], out: &mut [u8]) -> usize {
        let part = &input[self.part.clone()];
        match self.step {
            Step::Copy => {
                out[..part.len()].copy_from_slice(part);
                part.len()
            }
            Step::Boxes => walk(part.len(), |at| four(part, at)),
            Step::Segments => walk(part.len(), |at| 2 + two(part, at + 2)),
            Step::Entries { head, extent } => walk(part.len(), |at| head + extent * two(part, at + head - 2)),
            Step::Words => {
                part.chunks_exact(4).fold(0, |sum: u32, word| sum.wrapping_add(u32::from_ne_bytes(word.try_into().unwrap()))) as usize
            }
            Step::Lines => newlines(part),
        }
    }
}

/// Where the next one begins is known only once the size of this one is read: that is what a step costs.
fn walk(length: usize, size: impl Fn(usize) -> usize) -> usize {
    let mut at = 0;
    while at < length {
        at += size(at);
    }
    at
}

fn two(bytes: &[u8], at: usize) -> usize {
    usize::from(u16::from_be_bytes(bytes[at..at + 2].try_into().unwrap()))
}

fn four(bytes: &[u8], at: usize) -> usize {
    u32::from_be_bytes(bytes[at..at + 4].try_into().unwrap()) as usize
}

/// By parts whose count fits a byte: so the compiler can count in many bytes at once.
fn newlines(lines: &[u8]) -> usize {
    lines.chunks(255).map(|part| usize::from(part.iter().map(|&byte| u8::from(byte == b'\n')).sum::<u8>())).sum()
}

/// How the limit of an input is found.
pub type Find = fn(&[u8]) -> Option<Limit>;

/// Where the work is of several kinds, or too little to be taken apart.
pub fn none(_: &[u8]) -> Option<Limit> {
    None
}

fn place(input: &[u8], letters: &[u8]) -> Option<usize> {
    input.windows(letters.len()).position(|window| window == letters)
}

/// The body of the first box of this kind, but for so many bytes at its beginning.
fn body(image: &[u8], kind: &[u8; 4], without: usize) -> Range<usize> {
    let at = place(image, kind).unwrap();
    at + 4 + without..at - 4 + four(image, at - 4)
}

/// Stops where a walk doesn't end with its part: it would have gone astray.
fn walked(image: &[u8], step: Step, part: Range<usize>) -> Option<Limit> {
    let limit = Limit { step, part };
    assert_eq!(limit.run(image, &mut []), limit.part.len());
    Some(limit)
}

/// The block of an item in `mdat`, or else in `idat`, behind four bytes of offset.
pub fn block(image: &[u8]) -> Option<Limit> {
    let kind = if place(image, b"mdat").is_some() { b"mdat" } else { b"idat" };
    Some(Limit { step: Step::Copy, part: body(image, kind, 4) })
}

pub fn top_level(image: &[u8]) -> Option<Limit> {
    walked(image, Step::Boxes, 0..image.len())
}

/// None where they are few: calling this would cost more than reading them.
pub fn brands(image: &[u8]) -> Option<Limit> {
    let part = body(image, b"ftyp", 8);
    (part.len() > 1_000).then_some(Limit { step: Step::Words, part })
}

pub fn children(image: &[u8]) -> Option<Limit> {
    walked(image, Step::Boxes, body(image, b"meta", 4))
}

/// Of an `iinf` of version 1.
pub fn items(image: &[u8]) -> Option<Limit> {
    walked(image, Step::Boxes, body(image, b"iinf", 8))
}

/// Of an `iloc` of version 1, with extents of eight bytes.
pub fn entries(image: &[u8]) -> Option<Limit> {
    walked(image, Step::Entries { head: 8, extent: 8 }, body(image, b"iloc", 8))
}

/// Of an `iloc` of version 2, with extents of no bytes.
pub fn long_entries(image: &[u8]) -> Option<Limit> {
    walked(image, Step::Entries { head: 10, extent: 0 }, body(image, b"iloc", 10))
}

const EXIF: &[u8] = b"Exif\0\0";

pub fn jpeg_block(image: &[u8]) -> Option<Limit> {
    let at = place(image, EXIF).unwrap();
    Some(Limit { step: Step::Copy, part: at + EXIF.len()..at - 2 + two(image, at - 2) })
}

/// What is behind FF D8 and before the Exif segment, or before DA where there is none, or all.
fn before_exif(image: &[u8]) -> Range<usize> {
    let exif = place(image, EXIF).map(|at| at - 4);
    2..exif.or_else(|| place(image, b"\xff\xda")).unwrap_or(image.len())
}

pub fn segments(image: &[u8]) -> Option<Limit> {
    walked(image, Step::Segments, before_exif(image))
}

/// Of fill and of markers without a length, which have no sizes to go by.
pub fn markers(image: &[u8]) -> Option<Limit> {
    Some(Limit { step: Step::Words, part: before_exif(image) })
}

/// Nothing behind line 100,000 has to be looked at.
pub fn lines(lines: &[u8]) -> Option<Limit> {
    let last = (0..lines.len()).filter(|&at| lines[at] == b'\n').nth(99_999);
    Some(Limit { step: Step::Lines, part: 0..last.map_or(lines.len(), |at| at + 1) })
}
