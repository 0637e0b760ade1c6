//! The clipper, hard and triode. `oracle/README.md` says what stands where in a call and in its answer.
mod cases;
mod rules;

use crate::{
    bits::{bits32, single},
    random::Random,
    replay::{Counts, Replay},
};
use rules::Block;
use rustortion_core::amp::stages::clipper::{ClipperType, triode_table};

#[derive(Clone, Copy, PartialEq, Eq)]
enum Kind {
    Hard,
    Triode,
}

enum Call {
    Block(Block),
    Sample { kind: Kind, drive: u32, x: u32 },
    Entry { place: u32 },
    None { number: u32 },
}

const WORDS: usize = 16;
const LONGEST: u32 = 4_097;

impl Kind {
    /// The Rust's answer to a sample.
    fn process(self, x: u32, drive: u32) -> u32 {
        let kind = match self {
            Self::Hard => ClipperType::Hard,
            Self::Triode => ClipperType::Triode,
        };
        bits32(kind.process(single(x.into()), single(drive.into()))) as u32
    }
}

fn words(bytes: &[u8]) -> Vec<u32> {
    let words = bytes.chunks_exact(4);
    words
        .map(|word| u32::from_le_bytes(word.try_into().expect("four bytes")))
        .collect()
}

impl Call {
    fn number(&self) -> u32 {
        match self {
            Self::Block(block) => 1 + block.kind as u32,
            Self::Sample { kind, .. } => 3 + *kind as u32,
            Self::Entry { .. } => 5,
            Self::None { number } => *number,
        }
    }

    fn bytes(&self) -> Vec<u8> {
        let head = match self {
            Self::Block(block) => [block.drive, block.input.len() as u32, block.places],
            Self::Sample { drive, x, .. } => [*drive, *x, 0],
            Self::Entry { place } => [0, *place, 0],
            Self::None { .. } => [0x5555_5555; 3],
        };
        let samples = match self {
            Self::Block(block) => &block.input[..],
            _ => &[],
        };
        let words = [&[self.number()], &head[..], samples].concat();
        words.into_iter().flat_map(u32::to_le_bytes).collect()
    }

    /// The first call of a list, and what stands behind it.
    fn read(list: &[u8]) -> Option<(Self, &[u8])> {
        let (head, rest) = list.split_at_checked(WORDS)?;
        let head = words(head);
        let [number, drive, third, fourth] = head[..] else {
            return None;
        };
        let kind = if number % 2 == 1 {
            Kind::Hard
        } else {
            Kind::Triode
        };
        match number {
            1 | 2 => {
                let count = third.min(LONGEST) as usize;
                let (samples, rest) = rest.split_at_checked(4 * count)?;
                let block = Block {
                    kind,
                    drive,
                    input: words(samples),
                    places: fourth.min(LONGEST),
                };
                Some((Self::Block(block), rest))
            }
            3 | 4 => Some((
                Self::Sample {
                    kind,
                    drive,
                    x: third,
                },
                rest,
            )),
            5 => Some((Self::Entry { place: third }, rest)),
            number => Some((Self::None { number }, rest)),
        }
    }

    fn answer(&self) -> Vec<u8> {
        match self {
            Self::Block(block) => {
                let (refusal, output) = block.answer();
                answer(refusal.number, refusal.place, &output)
            }
            Self::Sample { kind, drive, x } => answer(0, 0, &[kind.process(*x, *drive)]),
            Self::Entry { place } => {
                let entry = triode_table().get(*place as usize).copied();
                answer(0, 0, &[bits32(entry.unwrap_or(f32::NAN)) as u32])
            }
            Self::None { .. } => vec![u8::MAX; 12],
        }
    }

    fn name(&self) -> &'static str {
        match self {
            Self::Block(block) if block.refusal().number != 0 => "samples of refused blocks",
            Self::Block(Block { kind, .. }) => match kind {
                Kind::Hard => "hard samples in blocks",
                Kind::Triode => "triode samples in blocks",
            },
            Self::Sample { kind, .. } => match kind {
                Kind::Hard => "hard samples alone",
                Kind::Triode => "triode samples alone",
            },
            Self::Entry { .. } => "entries of the table",
            Self::None { .. } => "no call",
        }
    }

    /// How many samples it has, or 1 where it has none.
    fn count(&self) -> u64 {
        match self {
            Self::Block(block) => block.input.len() as u64,
            _ => 1,
        }
    }

    fn told(&self) -> String {
        match self {
            Self::Block(block) => format!(
                "{}: drive {:x}, {} samples, {} places",
                self.name(),
                block.drive,
                block.input.len(),
                block.places
            ),
            Self::Sample { drive, x, .. } => format!("{}: {x:x} by {drive:x}", self.name()),
            Self::Entry { place } => format!("{}: {place}", self.name()),
            Self::None { number } => format!("{}: {number}", self.name()),
        }
    }
}

fn answer(number: u32, place: u64, numbers: &[u32]) -> Vec<u8> {
    let mut bytes = number.to_le_bytes().to_vec();
    bytes.extend(place.to_le_bytes());
    bytes.extend(numbers.iter().flat_map(|bits| bits.to_le_bytes()));
    bytes
}

fn calls(list: &[u8]) -> impl Iterator<Item = Call> {
    let mut rest = list;
    std::iter::from_fn(move || {
        let (call, behind) = Call::read(rest)?;
        rest = behind;
        Some(call)
    })
}

pub struct Clipper;

impl Replay for Clipper {
    fn stored(&self) -> Vec<u8> {
        cases::stored()
    }

    fn generated(&self, random: &mut Random, cases: u64) -> Vec<u8> {
        cases::generated(random, cases)
    }

    fn answers(&self, list: &[u8]) -> Result<Vec<u8>, String> {
        Ok(calls(list).flat_map(|call| call.answer()).collect())
    }

    fn counts(&self, list: &[u8]) -> Counts {
        let mut counts = Counts::new();
        for call in calls(list) {
            *counts.entry(call.name()).or_default() += call.count();
        }
        counts
    }

    fn told(&self, list: &[u8], answer_byte: usize) -> String {
        let mut passed = 0;
        for call in calls(list) {
            let length = call.answer().len();
            if answer_byte < passed + length {
                let at = (answer_byte - passed).saturating_sub(12) / 4;
                return format!("{}; its number {at}", call.told());
            }
            passed += length;
        }
        "the list has ended".into()
    }
}

#[cfg(test)]
mod tests {
    use super::*;

    /// The constants that the port has, exported once as bits by a run of the Rust.
    const EXPORTED: &str = include_str!("triode_bits.txt");

    #[test]
    fn the_table_is_the_exported_one() {
        let exported = EXPORTED.lines().filter(|line| !line.starts_with('#'));
        let exported: Vec<u32> = exported
            .map(|bits| u32::from_str_radix(bits, 16).expect("bits in hexadecimal"))
            .collect();
        assert_eq!(triode_table().map(f32::to_bits)[..], exported[..]);
    }

    #[test]
    fn the_table_rises_from_minus_one_to_one() {
        let table = triode_table();
        assert_eq!([table[0], table[255]], [-1.0, 1.0]);
        assert!(table.windows(2).all(|pair| pair[0] <= pair[1]));
    }
}
