//! The two sides: the Rust (for JPEG and the sheet plain code in Rust), and ours out of the archive, each behind one call that is not folded into its
//! caller.

use std::hint::black_box;

use oracle::Error;

use crate::{plain, plain_sheet};

extern "C" {
    fn coinbarrow_exif(image: *const u8, image_len: usize, out: *mut u8, out_len: usize) -> u64;
    fn coinbarrow_photo(image: *const u8, image_len: usize, out: *mut u8, out_len: usize) -> u64;
    fn coinbarrow_is_heif(bytes: *const u8, len: usize) -> bool;
    fn coinbarrow_list(image: *const u8, image_len: usize, out: *mut u8, out_len: usize) -> usize;
    fn coinbarrow_sheet(lines: *const u8, lines_len: usize, out: *mut u8, out_len: usize) -> usize;
}

/// Room for every block, and for every sheet.
pub const ROOM: usize = 65_536;

/// Room for every text of the listing.
pub const TEXT_ROOM: usize = 458_771;

/// What the output holds before a call that is checked.
const BEFORE: u8 = 0xa5;

#[inline(never)]
pub fn rust_exif(image: &[u8]) -> Result<Vec<u8>, Error> {
    oracle::get_exif_attr(image)
}

#[inline(never)]
pub fn rust_is_heif(image: &[u8]) -> bool {
    oracle::is_heif(image)
}

/// Extraction from HEIF, behind the question whether it is HEIF, as `coinbarrow_photo` has it.
#[inline(never)]
pub fn rust_photo(image: &[u8]) -> Option<Result<Vec<u8>, Error>> {
    oracle::is_heif(image).then(|| oracle::get_exif_attr(image))
}

/// JPEG alone: it is not asked whether the image is HEIF.
#[inline(never)]
pub fn plain_jpeg(image: &[u8]) -> Result<Vec<u8>, u8> {
    plain::jpeg_exif(image)
}

#[inline(never)]
pub fn plain_sheet(lines: &[u8]) -> String {
    plain_sheet::sheet(lines)
}

/// The number times 2^32, plus the length.
#[inline(always)]
pub fn our_exif(image: &[u8], out: &mut [u8]) -> u64 {
    // SAFETY: both are slices, and ours keeps neither.
    unsafe { coinbarrow_exif(image.as_ptr(), image.len(), out.as_mut_ptr(), out.len()) }
}

#[inline(always)]
pub fn our_photo(image: &[u8], out: &mut [u8]) -> u64 {
    // SAFETY: both are slices, and ours keeps neither.
    unsafe { coinbarrow_photo(image.as_ptr(), image.len(), out.as_mut_ptr(), out.len()) }
}

#[inline(always)]
pub fn our_is_heif(image: &[u8]) -> bool {
    // SAFETY: it is a slice, and ours doesn't keep it.
    unsafe { coinbarrow_is_heif(image.as_ptr(), image.len()) }
}

/// The length of the whole text.
#[inline(always)]
pub fn our_list(image: &[u8], out: &mut [u8]) -> usize {
    // SAFETY: both are slices, and ours keeps neither.
    unsafe { coinbarrow_list(image.as_ptr(), image.len(), out.as_mut_ptr(), out.len()) }
}

/// The length of the whole sheet.
#[inline(always)]
pub fn our_sheet(lines: &[u8], out: &mut [u8]) -> usize {
    // SAFETY: both are slices, and ours keeps neither.
    unsafe { coinbarrow_sheet(lines.as_ptr(), lines.len(), out.as_mut_ptr(), out.len()) }
}

/// A call that does nothing: what calling adds to every figure.
#[inline(never)]
pub fn empty(_image: &[u8], _out: &mut [u8]) {
    black_box(());
}

/// Stops where ours has not given this number and this block, or has written anything else. A text has the number 0: its length is the answer.
fn agree(name: &str, number: u8, block: &[u8], ours: impl FnOnce(&mut [u8]) -> u64) {
    let mut out = vec![BEFORE; ROOM];
    assert_eq!(ours(&mut out), u64::from(number) << 32 | block.len() as u64, "{name}: ours has another answer");
    assert!(out[..block.len()] == *block, "{name}: ours has another output");
    assert!(out[block.len()..].iter().all(|&byte| byte == BEFORE), "{name}: ours wrote behind it");
}

/// The length of the block, once both sides have given the same one and ours has written nothing else. Stops where they differ.
pub fn agreed_block(name: &str, image: &[u8]) -> usize {
    let block = rust_exif(image).unwrap_or_else(|error| panic!("{name}: the Rust gives no block: {error}"));
    agree(name, 0, &block, |out| our_exif(image, out));
    block.len()
}

/// The same by `coinbarrow_photo`, of a HEIF image.
pub fn agreed_photo(name: &str, image: &[u8]) -> usize {
    let block = rust_photo(image).unwrap_or_else(|| panic!("{name}: the Rust says it is no HEIF"));
    let block = block.unwrap_or_else(|error| panic!("{name}: the Rust gives no block: {error}"));
    agree(name, 0, &block, |out| our_photo(image, out));
    block.len()
}

/// The length of the block of a JPEG image, or the number of its refusal, once both sides say the same. Stops where they differ.
pub fn agreed_jpeg(name: &str, image: &[u8]) -> Result<usize, u8> {
    let answer = plain_jpeg(image);
    match &answer {
        Ok(block) => agree(name, 0, block, |out| our_photo(image, out)),
        Err(number) => agree(name, *number, &[], |out| our_photo(image, out)),
    }
    answer.map(|block| block.len())
}

/// The sheet, once both sides have given the same one and ours has written nothing else. Stops where they differ.
pub fn agreed_sheet(name: &str, lines: &[u8]) -> String {
    let text = plain_sheet(lines);
    agree(name, 0, text.as_bytes(), |out| our_sheet(lines, out) as u64);
    text
}

/// Whether it is a HEIF image, once both sides say so. Stops where they differ.
pub fn agreed_heif(name: &str, image: &[u8]) -> bool {
    let heif = rust_is_heif(image);
    assert_eq!(our_is_heif(image), heif, "{name}: ours has another answer");
    heif
}

/// The length of the text of a listing, once it is seen to end as it should and nothing is written behind it. Stops where it is not so.
pub fn listed_text(name: &str, image: &[u8], last: &str) -> usize {
    let mut out = vec![BEFORE; TEXT_ROOM];
    let length = our_list(image, &mut out);
    let text = std::str::from_utf8(&out[..length]).unwrap_or_else(|error| panic!("{name}: its text is none: {error}"));
    assert_eq!(text.lines().last(), Some(last), "{name}: its text ends in another way");
    assert!(out[length..].iter().all(|&byte| byte == BEFORE), "{name}: ours wrote behind the text");
    length
}
