//! The images, made of their boxes. Each has an Exif item, and both sides answer 0 for it; but for those of the listing, at the end.

use oracle::boxes::plain;
use oracle::every;

/// The id of the Exif item, and one of an item that isn't.
const EXIF: usize = 1;
const OTHER: usize = 2;

/// An item of four bytes of offset, which is 1, one byte that it leaves out, and a block of four.
const ITEM: [u8; 9] = *b"\x00\x00\x00\x01\xaaMM\x00\x2a";

pub(crate) fn two(number: usize) -> [u8; 2] {
    u16::try_from(number).unwrap().to_be_bytes()
}

fn four(number: usize) -> [u8; 4] {
    u32::try_from(number).unwrap().to_be_bytes()
}

fn boxed(kind: &str, parts: &[&[u8]]) -> Vec<u8> {
    plain(kind.as_bytes().try_into().expect("four letters"), &parts.concat())
}

fn ftyp() -> Vec<u8> {
    boxed("ftyp", &[b"heic", &[0; 4], b"mif1heic"])
}

fn meta(children: &[&[u8]]) -> Vec<u8> {
    boxed("meta", &[&[0; 4], &children.concat()])
}

/// Version 2, with a two-byte id.
fn infe(id: usize, kind: &str, name: &str) -> Vec<u8> {
    boxed("infe", &[&[2, 0, 0, 0], &two(id), &[0; 2], kind.as_bytes(), name.as_bytes(), &[0]])
}

fn short_iinf(count: usize, entries: &[u8]) -> Vec<u8> {
    boxed("iinf", &[&[0; 4], &two(count), entries])
}

/// Version 1, with a four-byte count.
fn long_iinf(count: usize, entries: &[u8]) -> Vec<u8> {
    boxed("iinf", &[&[1, 0, 0, 0], &four(count), entries])
}

/// An `iinf` with the Exif item alone.
fn one_item() -> Vec<u8> {
    short_iinf(1, &infe(EXIF, "Exif", ""))
}

/// Version 1, with a two-byte count. An extent's offset and length have four bytes each.
fn iloc(count: usize, entries: &[u8]) -> Vec<u8> {
    boxed("iloc", &[&[1, 0, 0, 0], &[0x44, 0], &two(count), entries])
}

/// An entry with method 0, in the image, or 1, in `idat`, and so many extents.
fn entry(id: usize, method: usize, count: usize, extents: &[u8]) -> Vec<u8> {
    [&two(id), &two(method), &[0; 2], &two(count), extents].concat()
}

/// Version 2, with a four-byte count and ids, and with extents of no bytes.
fn long_iloc(count: usize, entries: &[u8]) -> Vec<u8> {
    boxed("iloc", &[&[2, 0, 0, 0], &[0; 2], &four(count), entries])
}

/// An entry of such an `iloc`, with method 1.
fn long_entry(id: usize, count: usize) -> Vec<u8> {
    [&four(id) as &[u8], &two(1), &[0; 2], &two(count)].concat()
}

fn extent(offset: usize, length: usize) -> Vec<u8> {
    [four(offset), four(length)].concat()
}

/// An entry for `ITEM`, which is all of `idat`.
fn small_entry(id: usize) -> Vec<u8> {
    entry(id, 1, 1, &extent(0, ITEM.len()))
}

/// The `iloc` and the `idat` of `ITEM`.
fn located() -> Vec<u8> {
    [iloc(1, &small_entry(EXIF)), boxed("idat", &[&ITEM])].concat()
}

/// So many bytes of one entry over and over, and another one last: how many there are, and their bytes.
fn filled(length: usize, filling: &[u8], last: &[u8]) -> (usize, Vec<u8>) {
    let count = length / filling.len();
    (count + 1, [&filling.repeat(count), last].concat())
}

/// So many boxes of 8 to 24 bytes between what comes first and last.
fn with_boxes(first: &[u8], count: usize, last: &[u8]) -> Vec<u8> {
    let boxes: Vec<u8> = (0..count).flat_map(|k| boxed("free", &[&[0; 17][..k * 5 % 17]])).collect();
    [first, &boxes, last].concat()
}

/// An item whose block begins right behind its four bytes of offset, with bytes that differ.
fn item(length: usize) -> Vec<u8> {
    (0..length).map(|k| if k < 4 { 0 } else { (k * 7 + k / 251) as u8 }).collect()
}

/// A photograph as a phone writes it: 64 items, of which one is Exif, in an `mdat`.
#[derive(Clone, Copy)]
pub struct Phone {
    /// The bytes of the Exif item, and of the whole `mdat` that it begins.
    pub exif: usize,
    pub mdat: usize,
    pub mdat_first: bool,
    /// Version 1 of `iinf`, with a name of 64 letters for each item, in the place of version 0 and no names.
    pub names: bool,
}

impl Phone {
    const ITEMS: usize = 64;
    const EXIF: usize = 51;

    pub fn image(self) -> Vec<u8> {
        let mut bytes = item(self.exif);
        bytes.resize(self.mdat, 0x55);
        let mdat = boxed("mdat", &[&bytes]);
        if self.mdat_first {
            return [ftyp(), mdat, self.meta(ftyp().len() + 8)].concat();
        }
        let at = ftyp().len() + self.meta(0).len() + 8;
        [ftyp(), self.meta(at), mdat].concat()
    }

    /// With the body of the `mdat` at this place of the image.
    fn meta(self, at: usize) -> Vec<u8> {
        self.meta_with(at, &boxed("iprp", &[&[0; 1000]]))
    }

    fn meta_with(self, at: usize, properties: &[u8]) -> Vec<u8> {
        let ids = 1..=Self::ITEMS;
        let entries: Vec<u8> = ids.flat_map(|id| entry(id, 0, 1, &extent(at, if id == Self::EXIF { self.exif } else { 16 }))).collect();
        meta(&[
            &boxed("hdlr", &[&[0; 8], b"pict", &[0; 13]]),
            &boxed("pitm", &[&[0; 4], &two(49)]),
            &self.iinf(),
            &boxed("iref", &[&[0; 200]]),
            properties,
            &boxed("idat", &[&[0; 8]]),
            &iloc(Self::ITEMS, &entries),
        ])
    }

    fn iinf(self) -> Vec<u8> {
        let name = if self.names { "n".repeat(64) } else { String::new() };
        let kind = |id| if id == Self::EXIF { "Exif" } else { "hvc1" };
        let entries: Vec<u8> = (1..=Self::ITEMS).flat_map(|id| infe(id, kind(id), &name)).collect();
        if self.names {
            long_iinf(Self::ITEMS, &entries)
        } else {
            short_iinf(Self::ITEMS, &entries)
        }
    }
}

/// An item of so many bytes, cut into so many extents.
fn extents(from: usize, length: usize, count: usize) -> Vec<u8> {
    let cut = |k| length * k / count;
    (0..count).flat_map(|k| extent(from + cut(k), cut(k + 1) - cut(k))).collect()
}

/// An item of so many bytes in an `mdat`, in so many extents.
pub fn in_image(length: usize, count: usize) -> Vec<u8> {
    let meta = |at| meta(&[&one_item(), &iloc(1, &entry(EXIF, 0, count, &extents(at, length, count)))]);
    let at = ftyp().len() + meta(0).len() + 8;
    [ftyp(), meta(at), boxed("mdat", &[&item(length)])].concat()
}

/// The same in `idat`.
pub fn in_idat(length: usize, count: usize) -> Vec<u8> {
    let iloc = iloc(1, &entry(EXIF, 1, count, &extents(0, length, count)));
    [ftyp(), meta(&[&one_item(), &iloc, &boxed("idat", &[&item(length)])])].concat()
}

/// So many small boxes at the top level, between `ftyp` and `meta`.
pub fn top_level(count: usize) -> Vec<u8> {
    with_boxes(&ftyp(), count, &meta(&[&one_item(), &located()]))
}

/// So many small boxes at the top level, and `ftyp` behind them.
pub fn ftyp_last(count: usize) -> Vec<u8> {
    with_boxes(&[], count, &every::h())
}

/// An `ftyp` with so many brands of which only the last is known.
pub fn brands(count: usize) -> Vec<u8> {
    let ftyp = boxed("ftyp", &[b"heic", &[0; 4], &b"heic".repeat(count - 1), b"mif1"]);
    [ftyp, meta(&[&one_item(), &located()])].concat()
}

/// So many children of `meta` with no body, before those that count.
pub fn children(count: usize) -> Vec<u8> {
    [ftyp(), meta(&[&boxed("free", &[]).repeat(count), &one_item(), &located()])].concat()
}

/// An `iinf` filled with one box, the Exif item last.
fn filled_iinf(length: usize, filling: &[u8]) -> Vec<u8> {
    let (count, entries) = filled(length, filling, &infe(EXIF, "Exif", ""));
    [ftyp(), meta(&[&long_iinf(count, &entries), &located()])].concat()
}

pub fn iinf_of_boxes(length: usize) -> Vec<u8> {
    filled_iinf(length, &boxed("free", &[]))
}

pub fn iinf_of_infe(length: usize) -> Vec<u8> {
    filled_iinf(length, &infe(OTHER, "hvc1", ""))
}

/// `ITEM` by an `iloc` of any kind.
fn by_iloc(iloc: &[u8]) -> Vec<u8> {
    [ftyp(), meta(&[&one_item(), iloc, &boxed("idat", &[&ITEM])])].concat()
}

/// An `iloc` filled with entries of one extent, of the wanted id or of another, a wanted one last.
pub fn iloc_of_entries(length: usize, wanted: bool) -> Vec<u8> {
    let id = if wanted { EXIF } else { OTHER };
    let (count, entries) = filled(length, &small_entry(id), &small_entry(EXIF));
    by_iloc(&iloc(count, &entries))
}

/// The same with entries of ten bytes, each with 65,535 extents that have no bytes in the table.
pub fn iloc_of_no_bytes(length: usize, wanted: bool) -> Vec<u8> {
    let id = if wanted { EXIF } else { OTHER };
    let (count, entries) = filled(length, &long_entry(id, 65_535), &long_entry(EXIF, 1));
    by_iloc(&long_iloc(count, &entries))
}

impl Phone {
    /// Without the `mdat`, and with properties that are boxes, as the listing looks into them.
    pub fn front(self) -> Vec<u8> {
        let zeros = |kind, length| boxed(kind, &[&[0; 1000][..length]]);
        let property = [("colr", 548), ("hvcC", 104), ("ispe", 12), ("irot", 1), ("pixi", 8), ("ispe", 12), ("hvcC", 104)];
        let properties: Vec<u8> = property.iter().flat_map(|&(kind, length)| zeros(kind, length)).collect();
        [ftyp(), self.meta_with(0, &boxed("iprp", &[&boxed("ipco", &[&properties]), &zeros("ipma", 139)]))].concat()
    }
}

/// So many boxes with no body.
pub fn small_boxes(count: usize) -> Vec<u8> {
    boxed("free", &[]).repeat(count)
}

/// One box of so many bytes.
pub fn one_box(length: usize) -> Vec<u8> {
    boxed("mdat", &[&vec![0; length - 8]])
}

/// The boxes at this depth aren't opened.
const DEEPEST: usize = 8;

/// Bytes in as many boxes as are opened, each in the one before it.
fn nested(inner: Vec<u8>) -> Vec<u8> {
    (0..DEEPEST).fold(inner, |inner, _| boxed("moov", &[&inner]))
}

/// So many boxes with no body, as deep as boxes are listed.
pub fn deep_boxes(count: usize) -> Vec<u8> {
    nested(small_boxes(count))
}

/// So many boxes in a row, each with boxes in it, one in another, as deep as they are listed.
pub fn chains(count: usize) -> Vec<u8> {
    nested(small_boxes(1)).repeat(count)
}
