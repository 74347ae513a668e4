//! A case: an image and an output's length, as `cases` reads them and as the Rust answers them.

use crate::dice::Dice;

#[derive(Clone)]
pub struct Case {
    pub image: Vec<u8>,
    pub out: usize,
}

/// The number that is to be given, and the line that is to be printed, without its end.
pub struct Expected {
    pub number: u32,
    pub line: String,
}

/// The kind of case that asks for extraction and `is_heif`.
const KIND: u8 = b'h';

/// What the output holds before the call.
const BEFORE: u8 = 0xa5;

impl Case {
    /// The image with an output length that suits the block: none, one byte, one short, exact, one over, ample. A long block rarely has
    /// room, since its line is long too.
    pub fn with_room(dice: &mut Dice, image: Vec<u8>) -> Case {
        let length = crate::answer(&image).map_or(4, |block| block.len());
        let kind = dice.below(if length < 1000 { 8 } else { 40 });
        dice.choices.push(("room", kind.min(8)));
        let out = match kind {
            0 => 0,
            1 => 1,
            2 => length.saturating_sub(1),
            3 => length,
            4 => length + 1,
            5..=7 => length + dice.index(12),
            _ => dice.index(40),
        };
        Case { image, out }
    }

    /// As `cases` reads it.
    pub fn write(&self, to: &mut Vec<u8>) {
        to.push(KIND);
        to.extend((self.image.len() as u32).to_be_bytes());
        to.extend((self.out as u32).to_be_bytes());
        to.extend(&self.image);
    }

    /// The Rust's answer. 28 is its success with a block longer than the output.
    pub fn expected(&self) -> Expected {
        let mut out = vec![BEFORE; self.out];
        let (number, length) = match crate::answer(&self.image) {
            Ok(block) if block.len() > self.out => (28, block.len()),
            Ok(block) => {
                out[..block.len()].copy_from_slice(&block);
                (0, block.len())
            }
            Err(number) => (number, 0),
        };
        let heif = u8::from(crate::is_heif(&self.image));
        let line = format!("answer={number} length={length} heif={heif} out={}", hex(&out));
        Expected { number, line }
    }
}

/// Two digits a byte, and `-` where there is none.
pub fn hex(bytes: &[u8]) -> String {
    if bytes.is_empty() {
        return "-".into();
    }
    let digit = |half: u8| char::from(b"0123456789abcdef"[half as usize]);
    bytes.iter().flat_map(|b| [digit(b >> 4), digit(b & 15)]).collect()
}
