//! Document 01's "Saturator and clipper", second half: a block's refusals, 7, 8, 3, 6, over the bits of
//! f32 numbers. What a done block writes is the Rust's.
use super::Kind;

pub struct Block {
    pub kind: Kind,
    pub drive: u32,
    pub input: Vec<u32>,
    /// How many samples the buffer for the output has.
    pub places: u32,
}

/// Document 01's number, 0 where the block is done, and the place of the first sample that is refused.
pub struct Refusal {
    pub number: u32,
    pub place: u64,
}

const INFINITY: u32 = 0x7f80_0000;
const SIXTY_FOUR: u32 = 0x4280_0000;
const LONGEST_BLOCK: usize = 4_096;

/// What the buffer for the output holds before the call: -1000.
pub const UNTOUCHED: u32 = 0xc47a_0000;

const fn size(bits: u32) -> u32 {
    bits & 0x7fff_ffff
}

const fn at(number: u32, place: u64) -> Refusal {
    Refusal { number, place }
}

impl Block {
    /// The first of 7, 8, 3 and 6 that holds.
    pub fn refusal(&self) -> Refusal {
        if self.input.len() != self.places as usize {
            return at(7, 0);
        }
        if self.input.len() > LONGEST_BLOCK {
            return at(8, 0);
        }
        if size(self.drive) >= INFINITY {
            return at(3, 0);
        }
        let refused = self.input.iter().position(|&x| size(x) > SIXTY_FOUR);
        refused.map_or(at(0, 0), |place| at(6, place as u64))
    }

    /// The refusal, and the buffer for the output after the call.
    pub fn answer(&self) -> (Refusal, Vec<u32>) {
        let refusal = self.refusal();
        let output = if refusal.number == 0 {
            let samples = self.input.iter();
            samples.map(|&x| self.kind.process(x, self.drive)).collect()
        } else {
            vec![UNTOUCHED; self.places as usize]
        };
        (refusal, output)
    }
}
