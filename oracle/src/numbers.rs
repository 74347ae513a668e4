//! The Rust's messages as document 01's numbers.

use crate::Error;

/// An unexpected end is a message too: isobmff.rs makes "Broken HEIF file" of it.
const MESSAGES: [(&str, u32); 25] = [
    ("Broken HEIF file", 2),
    ("Box too small", 3),
    ("Invalid box size", 4),
    ("Large seek not supported", 5),
    ("MetaBox found before FileTypeBox", 6),
    ("No compatible brand recognized in ISO base media file", 7),
    ("Unsupported MetaBox", 8),
    ("Unsupported ItemInfoEntry", 9),
    ("Unsupported ItemLocationBox", 10),
    ("Invalid base_offset_size", 11),
    ("Invalid index_size", 12),
    ("Invalid offset_size", 13),
    ("Invalid length_size", 14),
    ("External data reference is not supported", 15),
    ("No ItemLocationBox", 16),
    ("No matching item in ItemLocationBox", 17),
    ("Invalid offset", 18),
    ("Invalid length", 19),
    ("Out of ItemDataBox", 20),
    ("No ItemDataBox", 21),
    ("Construction by item offset is not supported", 22),
    ("Invalid construction_method", 23),
    ("Exif data too large", 24),
    ("ExifDataBlock too small", 25),
    ("Invalid Exif header offset", 26),
];

/// What the Rust says of a value that a `usize` can't hold. One of 64 bits holds every value, so 27, which these were, is retired.
const TOO_LARGE: [&str; 4] = [
    "Box is larger than the address space",
    "Extent too large",
    "Offset too large",
    "Length too large",
];

/// Stops at an answer that has no number: then the table or the Rust is another one. Stops at one of TOO_LARGE: then the theorem is wrong.
pub fn number(error: &Error) -> u32 {
    match error {
        Error::NotFound("HEIF") => 1,
        Error::InvalidFormat(message) | Error::NotSupported(message) => {
            assert!(!TOO_LARGE.contains(message), "the Rust said {message:?}, which no image can make it say where `usize` has 64 bits");
            let found = MESSAGES.iter().find(|(known, _)| known == message);
            found.unwrap_or_else(|| panic!("the Rust said {message:?}, which has no number")).1
        }
        other => panic!("the Rust said {other:?}, which has no number"),
    }
}
