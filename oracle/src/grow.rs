//! Files grown from the box grammar: `ftyp`, `meta` with its tables, the data, and other boxes around them.

use crate::boxes::{big_endian, boxed, cut, plain};
use crate::dice::Dice;
use crate::item::Item;
use crate::tables::{earlier_iloc, iinf, iloc};

fn ftyp(dice: &mut Dice) -> Vec<u8> {
    let mut body = dice.pick(&[b"mif1", b"heic", b"msf1"]).to_vec();
    body.extend(big_endian(0, 4));
    let mut brands = vec![*b"heic"; dice.index(3)];
    if !dice.fault("no known brand") {
        brands.insert(dice.index(brands.len() + 1), *dice.pick(&[b"mif1", b"msf1"]));
    }
    body.extend(brands.concat());
    let behind = dice.choose("behind the brands", &[0], &[1, 2, 3]) as usize;
    body.extend(&b"mif"[..behind]);
    let body = cut(dice, "ftyp cut", body);
    boxed(dice, "ftyp size", b"ftyp", &body)
}

fn filler(dice: &mut Dice, field: &'static str) -> Vec<u8> {
    let kind = dice.pick(&[b"free", b"skip", b"hdlr", b"pitm", b"mdat", b"infe", b"\0\0\0\0"]);
    let length = dice.index(12);
    let body = dice.bytes(length);
    boxed(dice, field, kind, &body)
}

/// The boxes in front of `meta` and of the data.
fn front(dice: &mut Dice) -> Vec<u8> {
    let mut boxes = Vec::new();
    if !dice.fault("no ftyp") {
        boxes.push(ftyp(dice));
    }
    if dice.one_in(10) {
        boxes.push(ftyp(dice));
    }
    if dice.one_in(5) {
        boxes.insert(dice.index(boxes.len() + 1), filler(dice, "box before meta"));
    }
    boxes.concat()
}

/// Children whose place is taken by later ones, or that are skipped.
fn earlier(dice: &mut Dice, id: u64) -> Vec<Vec<u8>> {
    let mut children = Vec::new();
    for _ in 0..dice.pick(&[0, 0, 0, 0, 0, 0, 0, 1, 2]) {
        children.push(earlier_iloc(dice));
    }
    for _ in 0..dice.pick(&[0, 0, 0, 0, 0, 0, 0, 1, 2]) {
        let length = dice.index(9);
        children.push(plain(b"idat", &dice.bytes(length)));
    }
    for _ in 0..dice.pick(&[0, 0, 0, 0, 0, 0, 0, 0, 1, 2]) {
        children.push(iinf(dice, id ^ 1));
    }
    children
}

/// The children that count, in any order.
fn counting(dice: &mut Dice, item: &Item, start: u64) -> Vec<Vec<u8>> {
    let mut children = Vec::new();
    if !dice.fault("no iinf") {
        children.push(iinf(dice, item.id));
    }
    if !dice.fault("no iloc") {
        children.push(iloc(dice, item, if item.method == 0 { start } else { 0 }));
    }
    if item.method == 1 && !dice.fault("no idat") {
        children.push(boxed(dice, "idat size", b"idat", &item.data));
    }
    dice.shuffle(&mut children);
    children
}

/// The item's data starts at `start` of the image; in `idat` it starts at 0.
fn meta(dice: &mut Dice, item: &Item, start: u64) -> Vec<u8> {
    let counting = counting(dice, item, start);
    let mut earlier = earlier(dice, item.id);
    dice.shuffle(&mut earlier);
    let mut children = if dice.fault("earlier ones last") { [counting, earlier] } else { [earlier, counting] }.concat();
    for _ in 0..dice.index(3) {
        let child = filler(dice, "other child");
        children.insert(dice.index(children.len() + 1), child);
    }
    let mut body = big_endian(dice.choose("meta version", &[0], &[1, 2, 255]) << 24, 4);
    body.extend(children.concat());
    let body = cut(dice, "meta cut", body);
    boxed(dice, "meta size", b"meta", &body)
}

/// A file with the data before `meta` or behind it. No choice hangs on where the data starts, so `meta` made twice has one length.
fn whole(dice: &mut Dice) -> Vec<u8> {
    let item = Item::grow(dice);
    let mut file = front(dice);
    if item.method == 1 {
        file.extend(meta(dice, &item, 0));
        return file;
    }
    let mdat = boxed(dice, "mdat size", b"mdat", &item.data);
    let header = mdat.len() - item.data.len();
    if dice.one_in(2) {
        let start = file.len() + header;
        file.extend(mdat);
        file.extend(meta(dice, &item, start as u64));
    } else {
        let start = file.len() + meta(&mut dice.clone(), &item, 0).len() + header;
        file.extend(meta(dice, &item, start as u64));
        file.extend(mdat);
    }
    file
}

pub fn file(dice: &mut Dice) -> Vec<u8> {
    dice.start();
    let mut file = whole(dice);
    if dice.one_in(10) {
        file.extend(filler(dice, "box behind"));
    }
    if dice.fault("file cut") {
        file.truncate(dice.index(file.len()));
    }
    file
}
