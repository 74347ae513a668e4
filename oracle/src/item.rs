//! The Exif item: its bytes, and the extents that join them.

use crate::boxes::big_endian;
use crate::dice::Dice;

/// Where an extent begins in the item's data, and its length; 0 is up to the end.
#[derive(Clone, Copy)]
pub struct Extent {
    pub at: u64,
    pub length: u64,
}

pub struct Item {
    pub id: u64,
    /// 0: the data lies in the image, in an `mdat`. 1: it is the body of `idat`.
    pub method: u64,
    pub data: Vec<u8>,
    pub extents: Vec<Extent>,
}

/// How long the data is and how often it is taken, around a total of 65,535: short data many times, and long data a few times.
const MANY: [(usize, usize); 7] = [(255, 257), (256, 256), (257, 255), (1, 65_535), (2, 32_768), (2, 32_767), (3, 21_845)];
const FEW: [(usize, usize); 5] = [(4_369, 15), (16_384, 4), (65_534, 1), (65_535, 1), (65_536, 1)];

impl Item {
    pub fn grow(dice: &mut Dice) -> Item {
        let id = dice.choose("id", &[1, 1, 1, 2, 0, 0xffff, 0x1_0000, 0x1_0001, 0xffff_ffff], &[0x1_0002]);
        let method = dice.pick(&[0, 1]);
        let (data, extents) = match dice.below(400) {
            0 => large(dice),
            1..=40 => repeated(dice),
            41..=140 => to_the_end(dice),
            _ => pieces(dice),
        };
        Item { id, method, data, extents }
    }
}

/// Joined bytes of about the length that is asked for: the offset, what it skips, the block.
fn joined(dice: &mut Dice, total: usize) -> Vec<u8> {
    let offset = match dice.choose("header offset", &[0, 0, 0, 1, 6], &[100, 101, 102, 103]) {
        100 => total.saturating_sub(4) as u64,
        101 => total.saturating_sub(3) as u64,
        102 => 0xffff_ffff,
        103 => 0x8000_0000,
        small => small,
    };
    let mut bytes = big_endian(offset, 4);
    bytes.extend(dice.bytes(total.saturating_sub(4)));
    bytes.truncate(total);
    bytes
}

fn total(dice: &mut Dice) -> usize {
    dice.choose("total", &[5, 10, 11, 12, 20, 40], &[0, 1, 2, 3, 4, 5]) as usize
}

/// Cut into pieces, which lie in any order with bytes between them.
fn pieces(dice: &mut Dice) -> (Vec<u8>, Vec<Extent>) {
    let total = total(dice);
    let bytes = joined(dice, total);
    let count = dice.choose("extents", &[1, 1, 1, 2, 3, 5], &[0, 12]) as usize;
    let mut cuts: Vec<usize> = (1..count).map(|_| dice.index(bytes.len() + 1)).collect();
    cuts.extend([0, bytes.len()]);
    cuts.sort_unstable();
    let mut data = dice.index(4).checked_sub(1).map_or(vec![], |n| dice.bytes(n));
    let mut extents = vec![Extent { at: 0, length: 0 }; count];
    let backwards = dice.one_in(3);
    for k in 0..count {
        let k = if backwards { count - 1 - k } else { k };
        let piece = &bytes[cuts[k]..cuts[k + 1]];
        extents[k] = Extent { at: data.len() as u64, length: piece.len() as u64 };
        data.extend(piece);
        let gap = dice.index(3);
        data.extend(dice.bytes(gap));
    }
    (data, extents)
}

/// One extent of length 0, up to the end.
fn to_the_end(dice: &mut Dice) -> (Vec<u8>, Vec<Extent>) {
    let total = total(dice);
    let skipped = dice.index(3);
    let mut data = dice.bytes(skipped);
    data.extend(joined(dice, total));
    (data, vec![Extent { at: skipped as u64, length: 0 }])
}

/// All of the data up to its end, several times.
fn repeated(dice: &mut Dice) -> (Vec<u8>, Vec<Extent>) {
    let (size, times) = match dice.below(8) {
        0 => dice.pick(&MANY),
        _ => dice.pick(&[(1, 4), (1, 3), (2, 2), (3, 2), (4, 1), (5, 0), (8, 3), (12, 2)]),
    };
    dice.choices.push(("repeated", (size * times) as u64));
    (joined(dice, size), vec![Extent { at: 0, length: 0 }; times])
}

/// A total around 65,535, by few extents.
fn large(dice: &mut Dice) -> (Vec<u8>, Vec<Extent>) {
    let (size, times) = dice.pick(&FEW);
    dice.choices.push(("repeated", (size * times) as u64));
    let mut extents = vec![Extent { at: 0, length: size as u64 }; times];
    if dice.one_in(2) {
        extents[times - 1].length -= dice.below(3);
    }
    (joined(dice, size), extents)
}
