//! Images that are tried one and all: H and its neighbours, the shortest images, headers over a small alphabet.

use crate::boxes::{plain, sized};

/// The body of a box of H, in which the body of one box is another.
fn body(kind: &[u8; 4], changed: &[u8; 4], other: &[u8]) -> Vec<u8> {
    if kind == changed {
        return other.to_vec();
    }
    let child = |kind| plain(kind, &body(kind, changed, other));
    match kind {
        b"ftyp" => b"mif1\0\0\0\0mif1".to_vec(),
        b"infe" => b"\x02\0\0\0\0\x01\0\0Exif\0".to_vec(),
        b"iinf" => [b"\0\0\0\0\0\x01".to_vec(), child(b"infe")].concat(),
        b"iloc" => b"\x01\0\0\0\x44\0\0\x01\0\x01\0\x01\0\0\0\x01\0\0\0\0\0\0\0\0".to_vec(),
        b"idat" => b"\0\0\0\x01\xaaMM\0*".to_vec(),
        _ => [vec![0; 4], child(b"iinf"), child(b"iloc"), child(b"idat")].concat(),
    }
}

/// File H of document 01, in which the body of one box is another, and the boxes around that as long as they have to be.
fn with(changed: &[u8; 4], other: &[u8]) -> Vec<u8> {
    [b"ftyp", b"meta"].map(|kind| plain(kind, &body(kind, changed, other))).concat()
}

/// No box of H has it.
const NONE: &[u8; 4] = b"none";

pub fn h() -> Vec<u8> {
    with(NONE, &[])
}

fn ftyp() -> Vec<u8> {
    plain(b"ftyp", &body(b"ftyp", NONE, &[]))
}

/// Each box of H with its body cut to every length; those with a version that matters, with the versions 0 to 3.
fn bodies() -> impl Iterator<Item = Vec<u8>> {
    [b"ftyp", b"meta", b"iinf", b"infe", b"iloc", b"idat"].into_iter().flat_map(|kind| {
        let own = body(kind, NONE, &[]);
        let versions = if matches!(kind, b"iinf" | b"infe" | b"iloc") { 0..4 } else { own[0]..own[0] + 1 };
        versions.flat_map(move |version| {
            let changed = [&[version], &own[1..]].concat();
            (0..=own.len()).map(move |n| with(kind, &changed[..n]))
        })
    })
}

/// H cut at every byte, H itself last.
fn truncations() -> impl Iterator<Item = Vec<u8>> {
    let h = h();
    (0..=h.len()).map(move |n| h[..n].to_vec())
}

/// Every byte of H with a handful of other values: the ends of the range, its neighbours, the top bit turned, another case of a letter.
fn single_bytes() -> impl Iterator<Item = Vec<u8>> {
    let h = h();
    (0..h.len()).flat_map(move |at| {
        let b = h[at];
        let mut values = vec![0, 1, 2, 0xff, b.wrapping_add(1), b.wrapping_sub(1), b ^ 0x80, b ^ 0x20];
        values.sort_unstable();
        values.dedup();
        values.retain(|&value| value != b);
        let h = h.clone();
        values.into_iter().map(move |value| {
            let mut changed = h.clone();
            changed[at] = value;
            changed
        })
    })
}

/// Every row of up to three boxes: an `ftyp`, one without a known brand, one that is too small, `free`, `free` up to the end, and the `meta` of H.
fn rows() -> impl Iterator<Item = Vec<u8>> {
    let unknown = plain(b"ftyp", b"mif1\0\0\0\0heic");
    let meta = plain(b"meta", &body(b"meta", NONE, &[]));
    let boxes = [ftyp(), unknown, plain(b"ftyp", b"mif1\0\0\0"), plain(b"free", b""), sized(b"free", 0, None, b""), meta];
    let longer = |rows: Vec<Vec<u8>>| -> Vec<Vec<u8>> {
        rows.iter().flat_map(|row| boxes.iter().map(move |next| [&row[..], next].concat())).collect()
    };
    let one = boxes.to_vec();
    let two = longer(one.clone());
    let three = longer(two.clone());
    [one, two, three].into_iter().flatten()
}

/// All of these.
pub fn neighbours() -> impl Iterator<Item = Vec<u8>> {
    truncations().chain(single_bytes()).chain(bodies()).chain(rows())
}

/// Every image of up to `most` bytes.
pub fn shortest(most: u32) -> impl Iterator<Item = Vec<u8>> {
    (0..=most).flat_map(|n| (0..1_u64 << (8 * n)).map(move |k| k.to_be_bytes()[8 - n as usize..].to_vec()))
}

const SIZE_BYTES: [u8; 5] = [0, 1, 7, 8, 0xff];
const KINDS: [&[u8; 4]; 7] = [b"ftyp", b"meta", b"iinf", b"iloc", b"idat", b"infe", b"free"];
const LONG_BYTES: [u64; 5] = [0, 0x10, 0x7f, 0x80, 0xff];

/// Every four-byte size over a small alphabet, and after size 1 every eight-byte size whose first and last two bytes are over one.
fn sizes() -> Vec<(u64, Option<u64>)> {
    let mut sizes = Vec::new();
    for k in 0..5_usize.pow(4) {
        let digit = |place: u32| SIZE_BYTES[k / 5_usize.pow(place) % 5];
        let size = u32::from_be_bytes([digit(3), digit(2), digit(1), digit(0)]);
        sizes.push((size.into(), None));
        let long = |place: u32| LONG_BYTES[k / 5_usize.pow(place) % 5];
        sizes.push((1, Some(long(3) << 56 | long(2) << 48 | long(1) << 8 | long(0))));
    }
    sizes
}

/// Each of these headers with 0, 8 or 12 bytes behind it: alone, behind an `ftyp`, as a child of `meta`, and as an entry of `iinf`.
pub fn headers() -> impl Iterator<Item = Vec<u8>> {
    let ftyp = ftyp();
    sizes().into_iter().flat_map(move |(size, long)| {
        let ftyp = ftyp.clone();
        KINDS.into_iter().flat_map(move |kind| {
            let ftyp = ftyp.clone();
            [0, 8, 12].into_iter().flat_map(move |behind| {
                let header = sized(kind, size, long, &b"\0\0\0\0\0\0\0\0mif1"[..behind]);
                let iinf = plain(b"iinf", &[b"\0\0\0\0\0\x01", &header[..]].concat());
                let inside = |child: &[u8]| [&ftyp[..], &plain(b"meta", &[&[0; 4], child].concat())].concat();
                [[&ftyp[..], &header].concat(), inside(&header), inside(&iinf), header]
            })
        })
    })
}
