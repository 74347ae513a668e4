//! A smaller case with the same fault, so that a reader sees what matters.

use crate::case::Case;

/// A size field: where it is, how many bytes it has, and where its box ends.
struct Sized {
    at: usize,
    bytes: usize,
    to: usize,
}

fn load(image: &[u8], at: usize, bytes: usize) -> Option<u64> {
    let field = image.get(at..at + bytes)?;
    Some(field.iter().fold(0, |n, &b| n << 8 | u64::from(b)))
}

/// The boxes between two places that fit there, and those inside `meta` and `iinf`.
fn boxes(image: &[u8], mut at: usize, end: usize, found: &mut Vec<Sized>) {
    while at + 8 <= end {
        let (field, bytes, header) = if load(image, at, 4) == Some(1) { (at + 8, 8, 16) } else { (at, 4, 8) };
        let Some(size) = load(image, field, bytes) else { return };
        if size < header || size > (end - at) as u64 {
            return;
        }
        let to = at + size as usize;
        found.push(Sized { at: field, bytes, to });
        let body = at + header as usize;
        match &image[at + 4..at + 8] {
            b"meta" => boxes(image, body + 4, to, found),
            b"iinf" => boxes(image, body + if image.get(body) == Some(&0) { 6 } else { 8 }, to, found),
            _ => {}
        }
        at = to;
    }
}

/// The image without a part, and every box around that part smaller by it.
fn without(image: &[u8], from: usize, to: usize) -> Vec<u8> {
    let mut found = Vec::new();
    boxes(image, 0, image.len(), &mut found);
    let mut rest = image.to_vec();
    for field in found {
        if field.at + field.bytes <= from && to <= field.to {
            let size = load(image, field.at, field.bytes).unwrap() - (to - from) as u64;
            rest[field.at..field.at + field.bytes].copy_from_slice(&size.to_be_bytes()[8 - field.bytes..]);
        }
    }
    rest.drain(from..to);
    rest
}

/// Smaller cases to try, the smallest first: a shorter output, a part left out, a byte made zero.
fn smaller(case: &Case) -> impl Iterator<Item = Case> + '_ {
    let n = case.image.len();
    let outs = [0, 1, case.out / 2, case.out.saturating_sub(1)].into_iter().filter(|&out| out < case.out);
    let outs = outs.map(|out| Case { image: case.image.clone(), out });
    let lengths = (0..usize::BITS).rev().map(|k| 1 << k).filter(move |&length| length <= n);
    let parts = lengths.flat_map(move |length| (0..=n - length).step_by(length.div_ceil(4)).map(move |from| (from, from + length)));
    let parts = parts.flat_map(|(from, to)| [without(&case.image, from, to), [&case.image[..from], &case.image[to..]].concat()]);
    let zeros = (0..n).filter(|&at| case.image[at] != 0).map(|at| {
        let mut image = case.image.clone();
        image[at] = 0;
        image
    });
    outs.chain(parts.chain(zeros).map(|image| Case { image, out: case.out }))
}

/// As small as single steps make it, or as `most` questions allow.
pub fn shrink(mut case: Case, mut most: usize, mut fails: impl FnMut(&Case) -> bool) -> Case {
    loop {
        let next = smaller(&case).take(most).enumerate().find(|(_, candidate)| fails(candidate));
        let Some((asked, next)) = next else { return case };
        most -= asked + 1;
        case = next;
    }
}
