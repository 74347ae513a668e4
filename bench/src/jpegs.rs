//! The JPEG images, made of their segments. Each has an Exif segment, and both sides answer 0 for it; but for those that say otherwise.

use oracle::dice::Dice;

use crate::images::two;

const START: &[u8] = b"\xff\xd8";
const END: &[u8] = b"\xff\xd9";

/// 2,000 bytes stand for what a camera writes.
const BLOCK: usize = 2_000;

fn segment(marker: u8, body: &[u8]) -> Vec<u8> {
    [&[0xff, marker], &two(body.len() + 2)[..], body].concat()
}

/// A segment with a block of so many bytes, which differ.
fn exif(length: usize) -> Vec<u8> {
    let block: Vec<u8> = (0..length).map(|k| (k * 7 + k / 251) as u8).collect();
    segment(0xe1, &[b"Exif\0\0", &block[..]].concat())
}

/// An Exif segment with so long a block, and nothing else.
pub fn block(length: usize) -> Vec<u8> {
    [START, &exif(length), END].concat()
}

/// A picture of so many bytes: tables, and what a camera writes behind DA, where no byte is FF.
fn picture(length: usize) -> Vec<u8> {
    let tables = [segment(0xdb, &[1; 130]), segment(0xc0, &[8; 15]), segment(0xc4, &[1; 416]), segment(0xda, &[1; 10])].concat();
    let scan = vec![0x55; length - tables.len() - END.len()];
    [&tables, &scan, END].concat()
}

/// A photograph of about so many bytes, as a camera writes it: the Exif segment first.
pub fn first(length: usize) -> Vec<u8> {
    [START, &exif(BLOCK), &picture(length)].concat()
}

/// The same without the Exif segment: 1.
pub fn without(length: usize) -> Vec<u8> {
    [START, &picture(length)].concat()
}

/// An Exif segment behind so many bytes, or a few less, of a piece over and over.
fn behind(length: usize, piece: &[u8]) -> Vec<u8> {
    [START, &piece.repeat(length / piece.len()), &exif(BLOCK), END].concat()
}

/// Segments of 65,537 bytes, with the longest bodies that there are; shorter ones fill up what is left.
pub fn behind_longest(length: usize) -> Vec<u8> {
    let sizes = (0..length).step_by(65_537).map(|at| (length - at).min(65_537));
    let before: Vec<u8> = sizes.filter(|&size| size > 4).flat_map(|size| segment(0xe2, &vec![0; size - 4])).collect();
    [START, &before, &exif(BLOCK), END].concat()
}

/// Segments of four bytes.
pub fn behind_bodyless(length: usize) -> Vec<u8> {
    behind(length, &segment(0xe0, &[]))
}

/// Markers without a length.
pub fn behind_restarts(length: usize) -> Vec<u8> {
    behind(length, b"\xff\xd0")
}

pub fn behind_fill(length: usize) -> Vec<u8> {
    behind(length, b"\xff")
}

/// E1 segments with the name of XMP alone.
pub fn behind_xmp(length: usize) -> Vec<u8> {
    behind(length, &segment(0xe1, b"http://ns.adobe.com/xap/1.0/\0"))
}

/// E1 segments whose name is wrong only in its last byte.
pub fn behind_misnamed(length: usize) -> Vec<u8> {
    behind(length, &segment(0xe1, b"Exif\0\x01"))
}

/// Up to three fill bytes, then a marker of any kind, and a body of up to twenty bytes where there is one: which comes when can't be guessed.
pub fn behind_mixed(length: usize) -> Vec<u8> {
    let mut dice = Dice::new(1);
    let mut before = Vec::new();
    while before.len() < length {
        before.resize(before.len() + dice.index(4), 0xff);
        match dice.pick(&[0x00, 0x01, 0xc4, 0xd0, 0xd7, 0xdb, 0xe0, 0xe1, 0xe1, 0xfe]) {
            marker @ (0x01 | 0xd0 | 0xd7) => before.extend([0xff, marker]),
            marker => before.extend(segment(marker, &b"Exif\0\x01Exif\0\x01Exif\0\x01Ex"[..dice.index(21)])),
        }
    }
    [START, &before, &exif(BLOCK), END].concat()
}

/// FF alone, and nothing behind: 2.
pub fn endless_fill(length: usize) -> Vec<u8> {
    [START, &vec![0xff; length]].concat()
}
