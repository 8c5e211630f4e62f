//! The CRC generator that the sheets draw in figure 4, stage by stage.

use super::book::{Book, Slip};

/// The 1st to the 8th stage, in this order.
pub struct Figure4([bool; 8]);

impl Figure4 {
    /// The stages that read as a byte: the 8th is bit 0, the 1st is bit 7.
    pub fn reading(byte: u8) -> Figure4 {
        Figure4([7, 6, 5, 4, 3, 2, 1, 0].map(|place| byte >> place & 1 == 1))
    }

    /// The byte that the stages read as.
    pub fn byte(&self) -> u8 {
        self.0
            .iter()
            .fold(0, |byte, stage| byte << 1 | u8::from(*stage))
    }

    /// One bit of the input data.
    pub fn step(&mut self, input: bool, book: &Book) {
        let feedback = self.0[7] ^ input;
        let late = usize::from(book.slips(Slip::FigureLate));
        // Each stage takes the one before it, and the 1st the feedback ..
        self.0.rotate_right(1);
        self.0[0] = feedback;
        // .. which is also XORed into the 5th at X^4 and into the 6th at X^5.
        self.0[4 + late] ^= feedback;
        if !book.slips(Slip::FigureNoX5) {
            self.0[5 + late] ^= feedback;
        }
    }

    /// Bytes of the input data, each least significant bit first.
    pub fn take(&mut self, bytes: &[u8], book: &Book) {
        for byte in bytes {
            for place in 0..8 {
                self.step(byte >> place & 1 == 1, book);
            }
        }
    }
}
