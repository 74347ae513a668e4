//! The box grammar's smallest parts: numbers in big-endian, and a box around a body, with every kind of size.

use crate::dice::Dice;

/// The last `size` bytes of a number, big-endian; a size over 8 has zeros in front.
pub fn big_endian(value: u64, size: usize) -> Vec<u8> {
    let mut bytes = vec![0; size.saturating_sub(8)];
    bytes.extend(&value.to_be_bytes()[8 - size.min(8)..]);
    bytes
}

/// A box as it should be.
pub fn plain(kind: &[u8; 4], body: &[u8]) -> Vec<u8> {
    sized(kind, body.len() as u64 + 8, None, body)
}

/// A box with the sizes that are given, right or wrong.
pub fn sized(kind: &[u8; 4], size: u64, long: Option<u64>, body: &[u8]) -> Vec<u8> {
    let mut bytes = big_endian(size, 4);
    bytes.extend(kind);
    bytes.extend(long.iter().flat_map(|long| long.to_be_bytes()));
    bytes.extend(body);
    bytes
}

/// The four-byte size of a box, and the eight-byte size where one follows, for a body of n bytes. The first two are right.
fn sizes(n: u64) -> [(u64, Option<u64>); 29] {
    let short = |size: u64| (size, None);
    let long = |size: u64| (1, Some(size));
    [
        short(n + 8),
        long(n + 16),
        short(0),
        short(1),
        short(2),
        short(3),
        short(4),
        short(5),
        short(6),
        short(7),
        short(n + 7),
        short(n + 9),
        short(n / 2 + 8),
        short((1 << 32) - 1),
        short((1 << 32) - 8),
        long(n + 15),
        long(n + 17),
        long(0),
        long(15),
        long(16),
        long((1 << 32) - 1),
        long((1 << 32) + n + 16),
        long((1 << 63) - 1),
        long(1 << 63),
        long((1 << 63) + 15),
        long((1 << 63) + 16),
        long(u64::MAX - n),
        long(u64::MAX - 7),
        long(u64::MAX),
    ]
}

/// A box whose size is right, in four bytes or in eight, or has a fault.
pub fn boxed(dice: &mut Dice, field: &'static str, kind: &[u8; 4], body: &[u8]) -> Vec<u8> {
    let sizes = sizes(body.len() as u64);
    let faults: Vec<u64> = (2..sizes.len() as u64).collect();
    let (size, long) = sizes[dice.choose(field, &[0, 0, 0, 0, 0, 1], &faults) as usize];
    sized(kind, size, long, body)
}

/// A body, or where the fault is chosen, only the front of it.
pub fn cut(dice: &mut Dice, place: &'static str, mut body: Vec<u8>) -> Vec<u8> {
    if dice.fault(place) {
        body.truncate(dice.index(body.len()));
    }
    body
}
