//! Document 02's W8, "Write WAVE as well". The refusals stand in a table and the head is a list of fields; what a writing
//! leaves is told as a new output, with nothing written in place.
use crate::wave::rules::{ODD, RATE};

/// What a writing tells: its number, and the file's length in bytes, 0 where it is refused.
#[derive(Clone, Copy, Debug, PartialEq, Eq)]
pub struct Written {
    pub number: u32,
    pub length: u32,
}

/// Less room than the file takes.
pub const ROOM: u32 = 15;
/// More samples than [`MOST`] bytes.
pub const OVER: u32 = 17;

pub const MOST: usize = 1_048_576;
/// What stands before the samples.
pub const HEAD: usize = 44;

/// What the refusals look at: the rate, and how many bytes samples and output have.
#[derive(Clone, Copy)]
pub struct Asked {
    pub rate: u32,
    pub samples: usize,
    pub room: usize,
}

/// A refusal's number, and whether it holds.
type Refusal = (u32, fn(Asked) -> bool);

/// In the order that decides.
const REFUSALS: [Refusal; 4] = [
    (RATE, |asked| !(8_000..=192_000).contains(&asked.rate)),
    (ODD, |asked| asked.samples % 2 == 1),
    (OVER, |asked| asked.samples > MOST),
    (ROOM, |asked| asked.room < HEAD + asked.samples),
];

/// Every refusal that holds, the one that answers first.
pub fn refusals(asked: Asked) -> impl Iterator<Item = u32> {
    let held = REFUSALS.iter().filter(move |(_, holds)| holds(asked));
    held.map(|&(number, _)| number)
}

/// What a writing tells, and the whole output behind it, given what lay there before.
pub fn write(rate: u32, samples: &[u8], before: &[u8]) -> (Written, Vec<u8>) {
    let asked = Asked {
        rate,
        samples: samples.len(),
        room: before.len(),
    };
    if let Some(number) = refusals(asked).next() {
        return (Written { number, length: 0 }, before.to_vec());
    }
    let mut output = head(rate, samples.len() as u32);
    output.extend(samples);
    let length = output.len();
    output.extend(&before[length..]);
    let length = length as u32;
    (Written { number: 0, length }, output)
}

enum Field {
    Name(&'static [u8; 4]),
    Word(u32),
    Half(u16),
}

impl Field {
    fn bytes(&self) -> Vec<u8> {
        match self {
            Self::Name(name) => name.to_vec(),
            Self::Word(number) => number.to_le_bytes().to_vec(),
            Self::Half(number) => number.to_le_bytes().to_vec(),
        }
    }
}

/// What stands before so many bytes of samples.
pub fn head(rate: u32, length: u32) -> Vec<u8> {
    use Field::{Half, Name, Word};
    let fields = [
        Name(b"RIFF"),
        Word(36 + length),
        Name(b"WAVE"),
        Name(b"fmt "),
        Word(16),
        Half(1),
        Half(1),
        Word(rate),
        Word(2 * rate),
        Half(2),
        Half(16),
        Name(b"data"),
        Word(length),
    ];
    fields.iter().flat_map(Field::bytes).collect()
}
