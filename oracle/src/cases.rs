//! The cases of a run: first those that are always tried, then as many from the seed as are asked for.

use crate::case::Case;
use crate::damage::damaged;
use crate::dice::Dice;
use crate::{every, grow};

/// H and its neighbours, with every output length that matters to a block of four bytes; then headers and the shortest images.
pub fn always(shortest: u32) -> impl Iterator<Item = Case> {
    let near_h = every::neighbours().flat_map(|image| [0, 1, 3, 4, 5, 8].map(|out| Case { image: image.clone(), out }));
    let others = every::headers().chain(every::shortest(shortest));
    near_h.chain(others.map(|image| Case { image, out: 1 }))
}

/// Grown files, and damaged copies of each.
pub struct Seeded {
    pub dice: Dice,
    file: Vec<u8>,
    broken: usize,
    copies: usize,
}

impl Seeded {
    pub fn new(seed: u64) -> Seeded {
        Seeded { dice: Dice::new(seed), file: Vec::new(), broken: 0, copies: 0 }
    }
}

impl Iterator for Seeded {
    type Item = Case;

    fn next(&mut self) -> Option<Case> {
        let image = if self.copies > 0 {
            self.copies -= 1;
            self.dice.choices.clear();
            self.dice.broken = self.broken;
            damaged(&mut self.dice, &self.file)
        } else {
            self.file = grow::file(&mut self.dice);
            self.broken = self.dice.broken;
            self.copies = self.dice.pick(&[0, 0, 0, 1, 2]);
            self.file.clone()
        };
        Some(Case::with_room(&mut self.dice, image))
    }
}
