//! Coinbarrow from Rust: a safe function for each of the five that include/coinbarrow.h declares, tried on document 01's file H, a small JPEG file J
//! and lines of the intake.

extern "C" {
    fn coinbarrow_exif(image: *const u8, image_len: usize, out: *mut u8, out_len: usize) -> u64;
    fn coinbarrow_photo(image: *const u8, image_len: usize, out: *mut u8, out_len: usize) -> u64;
    fn coinbarrow_is_heif(bytes: *const u8, bytes_len: usize) -> bool;
    fn coinbarrow_list(image: *const u8, image_len: usize, out: *mut u8, out_len: usize) -> usize;
    fn coinbarrow_sheet(lines: *const u8, lines_len: usize, out: *mut u8, out_len: usize) -> usize;
}

#[derive(Debug, PartialEq)]
enum Refused {
    /// The block has so many bytes, and `out` has less.
    NoRoom(usize),
    /// There is no block; the header says what the number means.
    By(u32),
}

/// The two halves of an answer.
fn unpacked(answer: u64, out: &[u8]) -> Result<&[u8], Refused> {
    let (number, length) = ((answer >> 32) as u32, answer as u32 as usize);
    match number {
        0 => Ok(&out[..length]),
        28 => Err(Refused::NoRoom(length)),
        _ => Err(Refused::By(number)),
    }
}

/// The Exif block of a HEIF image, at the front of `out`.
fn exif<'a>(image: &[u8], out: &'a mut [u8]) -> Result<&'a [u8], Refused> {
    // SAFETY: both are slices, and `out` is borrowed mutably, so it overlaps nothing.
    let answer = unsafe { coinbarrow_exif(image.as_ptr(), image.len(), out.as_mut_ptr(), out.len()) };
    unpacked(answer, out)
}

/// The same of an image that may be HEIF or JPEG.
fn photo<'a>(image: &[u8], out: &'a mut [u8]) -> Result<&'a [u8], Refused> {
    // SAFETY: as in `exif`.
    let answer = unsafe { coinbarrow_photo(image.as_ptr(), image.len(), out.as_mut_ptr(), out.len()) };
    unpacked(answer, out)
}

fn is_heif(bytes: &[u8]) -> bool {
    // SAFETY: it is a slice.
    unsafe { coinbarrow_is_heif(bytes.as_ptr(), bytes.len()) }
}

/// Room for the text of every image.
const LONGEST_TEXT: usize = 458_771;

/// The boxes of an image as text, a line a box.
fn list(image: &[u8]) -> String {
    let mut text = vec![0; LONGEST_TEXT];
    // SAFETY: a slice, and a vector of its own, which overlaps nothing.
    let length = unsafe { coinbarrow_list(image.as_ptr(), image.len(), text.as_mut_ptr(), text.len()) };
    text.truncate(length);
    String::from_utf8(text).expect("the text is letters, digits and signs")
}

/// Room for the sheet of any lines.
const LONGEST_SHEET: usize = 2_350;

/// The morning sheet of the intake's lines, at the front of `out`, as much of it as there is room for. Gives the length of all of it.
fn write_sheet(lines: &[u8], out: &mut [u8]) -> usize {
    // SAFETY: as in `exif`.
    unsafe { coinbarrow_sheet(lines.as_ptr(), lines.len(), out.as_mut_ptr(), out.len()) }
}

fn sheet(lines: &[u8]) -> String {
    let mut text = vec![0; LONGEST_SHEET];
    let length = write_sheet(lines, &mut text);
    text.truncate(length);
    String::from_utf8(text).expect("the sheet is letters, digits and signs")
}

/// One box a line.
const H: &[u8] = b"\
    \0\0\0\x14ftypmif1\0\0\0\0mif1\
    \0\0\0\x60meta\0\0\0\0\
    \0\0\0\x23iinf\0\0\0\0\0\x01\
    \0\0\0\x15infe\x02\0\0\0\0\x01\0\0Exif\0\
    \0\0\0\x20iloc\x01\0\0\0\x44\0\0\x01\0\x01\0\x01\0\0\0\x01\0\0\0\0\0\0\0\0\
    \0\0\0\x11idat\0\0\0\x01\xaa\x4d\x4d\0\x2a";

/// FF D8, an Exif segment, FF D9.
const J: &[u8] = b"\xff\xd8\xff\xe1\0\x0cExif\0\0\x4d\x4d\0\x2a\xff\xd9";

/// J with some bytes before its segment.
fn with(bytes: &[u8]) -> Vec<u8> {
    [&J[..2], bytes, &J[2..]].concat()
}

const LISTED: &str = "\
depth=0 at=0 type=66747970 header=8 body=12
depth=0 at=20 type=6d657461 header=8 body=88
depth=1 at=32 type=69696e66 header=8 body=27
depth=2 at=46 type=696e6665 header=8 body=13
depth=1 at=67 type=696c6f63 header=8 body=24
depth=1 at=99 type=69646174 header=8 body=9
end=116 answer=0
";

/// The block of H and of J.
const BLOCK: &[u8] = b"\x4d\x4d\0\x2a";

fn heif_calls() {
    let mut out = [0xa5; 8];
    assert_eq!(exif(H, &mut out), Ok(BLOCK));
    assert_eq!(out[4..], [0xa5; 4]);
    assert_eq!(exif(H, &mut out[..3]), Err(Refused::NoRoom(4)));
    assert_eq!(exif(&H[..115], &mut out), Err(Refused::By(2)));
    assert_eq!(exif(&[], &mut []), Err(Refused::By(1)));
    assert!(is_heif(H));
    assert!(!is_heif(&H[..19]));
}

fn photo_calls() {
    let mut out = [0xa5; 8];
    assert_eq!(photo(H, &mut out), Ok(BLOCK));
    assert_eq!(photo(J, &mut out), Ok(BLOCK));
    assert_eq!(out[4..], [0xa5; 4]);
    assert_eq!(photo(J, &mut out[..4]), Ok(BLOCK));
    assert_eq!(photo(J, &mut out[..3]), Err(Refused::NoRoom(4)));
    assert_eq!(photo(J, &mut []), Err(Refused::NoRoom(4)));
    assert_eq!(photo(&J[..15], &mut out), Err(Refused::By(2)));
    assert_eq!(photo(&with(b"\xff\xff"), &mut out), Ok(BLOCK));
    assert_eq!(photo(&with(b"\0"), &mut out), Err(Refused::By(32)));
    assert_eq!(photo(&with(b"\xff\xe0\0\x01"), &mut out), Err(Refused::By(33)));
    assert_eq!(photo(&with(b"\xff\xda"), &mut out), Err(Refused::By(1)));
    assert_eq!(photo(b"\0\0\0\x07free", &mut out), Err(Refused::By(4)));
    assert_eq!(photo(&[], &mut []), Err(Refused::By(1)));
    let longest = [&J[..4], b"\xff\xffExif\0\0", &[7; 65_527]].concat();
    assert_eq!(photo(&longest, &mut [0; 65_527]), Ok(&[7; 65_527][..]));
    assert_eq!(photo(&longest, &mut [0; 65_526]), Err(Refused::NoRoom(65_527)));
}

fn listings() {
    assert_eq!(list(H), LISTED);
    assert_eq!(list(&[]), "end=0 answer=0\n");
    assert_eq!(list(&[0; 65_537]), "end=65536 answer=29\n");
}

/// A line, and its sheet.
const LINE: &[u8] = b"answer=0 length=4\n";
const SHEET: &str = "answer=0 files=1\ntotal files=1 bytes=4 largest=4\n";

fn sheets() {
    assert_eq!(sheet(LINE), SHEET);
    assert_eq!(sheet(&[]), "total files=0 bytes=0 largest=0\n");
    assert_eq!(sheet(b"answer=0 length=4\nanswer=2 length=4\n"), "line=2\n");
    assert_eq!(sheet(b"answer=0 length=4\n\n"), "line=2\n");
    assert_eq!(sheet(b"answer=0 length=4"), "line=1\n");
}

/// An output that is too short holds the front of the sheet; the length that is given is that of all of it.
fn cut_sheets() {
    for room in 0..=SHEET.len() {
        let mut out = [0xa5; SHEET.len() + 1];
        assert_eq!(write_sheet(LINE, &mut out[..room]), SHEET.len());
        assert_eq!(out[..room], SHEET.as_bytes()[..room]);
        assert!(out[room..].iter().all(|&byte| byte == 0xa5));
    }
}

/// As many lines as are counted, and one more; and the sheet that has a line for each answer.
fn long_sheets() {
    let lines = |count| b"answer=0 length=65535\n".repeat(count);
    assert_eq!(sheet(&lines(100_000)), "answer=0 files=100000\ntotal files=100000 bytes=6553500000 largest=65535\n");
    assert_eq!(sheet(&lines(100_001)), "line=100001\n");
    let each = |name: &str, number: u32| (0..100).map(|answer| format!("answer={answer} {name}={number}\n")).collect::<String>();
    let total = "total files=100000 bytes=0 largest=0\n";
    assert_eq!(sheet(each("length", 0).repeat(1_000).as_bytes()), each("files", 1_000) + total);
}

fn main() {
    heif_calls();
    photo_calls();
    listings();
    sheets();
    cut_sheets();
    long_sheets();
}
