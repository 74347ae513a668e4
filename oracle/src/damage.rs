//! Copies of a file with something broken in them.

use crate::boxes::big_endian;
use crate::dice::Dice;

/// Numbers at which something begins or ends, as four bytes.
const NOTABLE: [u64; 14] = [0, 1, 2, 7, 8, 9, 15, 16, 0xffff, 0x1_0000, 0x7fff_ffff, 0x8000_0000, 0xffff_fff8, 0xffff_ffff];

/// Overwrites what is there from a position on, and no more than that.
fn put(file: &mut [u8], at: usize, bytes: &[u8]) {
    let n = bytes.len().min(file.len() - at);
    file[at..at + n].copy_from_slice(&bytes[..n]);
}

fn part(dice: &mut Dice, file: &[u8]) -> (usize, usize) {
    let from = dice.index(file.len() + 1);
    let most = dice.pick(&[1, 4, 8, 32]);
    (from, (from + dice.index(most) + 1).min(file.len()))
}

fn once(dice: &mut Dice, file: &mut Vec<u8>) {
    let at = dice.index(file.len());
    let (from, to) = part(dice, file);
    let kind = dice.below(9);
    dice.choices.push(("damage", kind));
    dice.broken += 1;
    match kind {
        0 => file[at] = dice.below(256) as u8,
        1 => file[at] ^= 1 << dice.below(8),
        2 => file[at] = file[at].wrapping_add(1),
        3 => file[at] = file[at].wrapping_sub(1),
        4 => {
            let value = dice.pick(&NOTABLE);
            put(file, at, &big_endian(value, 4));
        }
        5 => file.truncate(at),
        6 => drop(file.drain(from..to)),
        7 => {
            let again = file[from..to].to_vec();
            file.splice(from..from, again);
        }
        _ => {
            let other = file[from..to].to_vec();
            put(file, at, &other);
        }
    }
}

/// A copy with one to three things broken.
pub fn damaged(dice: &mut Dice, file: &[u8]) -> Vec<u8> {
    let mut file = file.to_vec();
    for _ in 0..dice.pick(&[1, 1, 2, 3]) {
        if file.is_empty() {
            break;
        }
        once(dice, &mut file);
    }
    file
}
