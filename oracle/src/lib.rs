//! kamadak-exif's isobmff.rs made reachable, unedited, over the standard library's in-memory cursor, with its refusals by document 01's numbers.

// endian.rs, util.rs, error.rs and isobmff.rs, where build.rs found them. They call each other by `crate::`, so they stand here.
include!(concat!(env!("OUT_DIR"), "/modules.rs"));

pub mod boxes;
pub mod case;
pub mod cases;
pub mod damage;
pub mod dice;
pub mod every;
pub mod grow;
pub mod item;
pub mod numbers;
pub mod program;
pub mod shrink;
pub mod tables;

pub use error::Error;

// Document 01 takes the Rust on a 64-bit target: with a narrower `usize` it refuses images, as too large, that have another answer here.
const _: () = assert!(usize::BITS == 64, "the comparison is with the Rust on a 64-bit target");

/// What error.rs asks of the crate's `Exif`, which reads blocks and is no part of this.
pub struct Exif;

impl Exif {
    pub fn fields(&self) -> std::slice::Iter<'static, u8> {
        [].iter()
    }
}

/// The Rust's answer as it is.
pub fn get_exif_attr(image: &[u8]) -> Result<Vec<u8>, Error> {
    isobmff::get_exif_attr(&mut std::io::Cursor::new(image))
}

/// The block, or document 01's number. Where the Rust stops without an answer, or with one that has no number, the image is shown.
pub fn answer(image: &[u8]) -> Result<Vec<u8>, u32> {
    let answered = std::panic::catch_unwind(|| get_exif_attr(image).map_err(|error| numbers::number(&error)));
    answered.unwrap_or_else(|_| {
        println!("oracle: that was at the image {}", case::hex(image));
        std::process::exit(1)
    })
}

pub fn is_heif(image: &[u8]) -> bool {
    isobmff::is_heif(image)
}
