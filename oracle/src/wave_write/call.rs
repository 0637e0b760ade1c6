//! A call on the writer as bytes of a list, what it hands over, and its answer's bytes.
use super::{
    cases, drawn,
    rules::{Asked, Written, refusals, write},
    writing::Writes,
};
use crate::{
    random::Random,
    wave::{self, rules::read},
};

/// Samples and output are named by tiles, so that a long file is a short call.
#[derive(Clone, Debug)]
pub struct Call {
    pub rate: u32,
    /// How many bytes of samples.
    pub length: usize,
    /// How many bytes the output has.
    pub room: usize,
    /// Repeated to fill the samples.
    pub samples: Vec<u8>,
    /// Repeated to fill the output before the call.
    pub before: Vec<u8>,
}

/// A list with more bytes of samples or of output ends there.
pub const LONGEST: usize = 2_097_152;
/// So does one with a longer tile.
pub const LONGEST_TILE: usize = 65_536;

/// So many bytes of the output stand in the answer.
const SHOWN: usize = 256;
/// An answer with no byte of the output.
const ANSWER: usize = 40;

impl Call {
    pub const fn asked(&self) -> Asked {
        Asked {
            rate: self.rate,
            samples: self.length,
            room: self.room,
        }
    }

    pub fn given_samples(&self) -> Vec<u8> {
        filled(&self.samples, self.length)
    }

    pub fn given_output(&self) -> Vec<u8> {
        filled(&self.before, self.room)
    }

    /// What the writing tells, and the output behind it.
    pub fn written(&self) -> (Written, Vec<u8>) {
        write(self.rate, &self.given_samples(), &self.given_output())
    }
}

impl Writes for Call {
    fn stored() -> Vec<u8> {
        cases::stored()
    }

    fn drawn(random: &mut Random) -> Self {
        drawn::call(random)
    }

    fn taken(list: &[u8]) -> Option<(Self, &[u8])> {
        let (rate, list) = word(list)?;
        let (length, list) = count(list, LONGEST)?;
        let (room, list) = count(list, LONGEST)?;
        let (samples, list) = tile(list)?;
        let (before, list) = tile(list)?;
        let call = Self {
            rate,
            length,
            room,
            samples,
            before,
        };
        Some((call, list))
    }

    fn bytes(&self) -> Vec<u8> {
        let mut bytes = Vec::new();
        for number in [self.rate, self.length as u32, self.room as u32] {
            bytes.extend(number.to_le_bytes());
        }
        for tile in [&self.samples, &self.before] {
            bytes.extend((tile.len() as u32).to_le_bytes());
            bytes.extend(tile);
        }
        bytes
    }

    fn number(&self) -> u32 {
        refusals(self.asked()).next().unwrap_or(0)
    }

    /// The writing, the output's first bytes and its digest, and what a reading tells of it.
    fn answer(&self) -> Vec<u8> {
        let (written, output) = self.written();
        let mut bytes = written.number.to_le_bytes().to_vec();
        bytes.extend(written.length.to_le_bytes());
        bytes.extend(&output[..output.len().min(SHOWN)]);
        bytes.extend(digest(&output).to_le_bytes());
        bytes.extend(wave::answer(read(&output)));
        bytes
    }

    fn answer_length(&self) -> usize {
        ANSWER + self.room.min(SHOWN)
    }

    fn in_words(&self) -> String {
        format!(
            "{} bytes of samples at {} Hz into room of {}: {:?}\nsamples of {:02x?}\nover {:02x?}",
            self.length,
            self.rate,
            self.room,
            self.written().0,
            self.samples,
            self.before
        )
    }
}

pub fn word(list: &[u8]) -> Option<(u32, &[u8])> {
    let (word, behind) = list.split_first_chunk::<4>()?;
    Some((u32::from_le_bytes(*word), behind))
}

pub fn count(list: &[u8], most: usize) -> Option<(usize, &[u8])> {
    let (count, behind) = word(list)?;
    let count = count as usize;
    (count <= most).then_some((count, behind))
}

pub fn tile(list: &[u8]) -> Option<(Vec<u8>, &[u8])> {
    let (length, behind) = count(list, LONGEST_TILE)?;
    let (tile, behind) = behind.split_at_checked(length)?;
    Some((tile.to_vec(), behind))
}

/// So many bytes of a tile in a row, zeros where it is empty.
pub fn filled(tile: &[u8], length: usize) -> Vec<u8> {
    if tile.is_empty() {
        return vec![0; length];
    }
    let mut bytes = tile.repeat(length.div_ceil(tile.len()));
    bytes.truncate(length);
    bytes
}

/// FNV-1a of 64 bits (Fowler, Noll and Vo).
fn digest(bytes: &[u8]) -> u64 {
    let basis: u64 = 0xcbf2_9ce4_8422_2325;
    bytes.iter().fold(basis, |sum, &byte| {
        (sum ^ u64::from(byte)).wrapping_mul(0x0100_0000_01b3)
    })
}

#[cfg(test)]
mod tests {
    use super::*;
    use crate::wave_write::writing::calls;

    /// Two bytes of a tile of three, room of 47 with a tile of two; and one byte of an empty tile, room of 3.
    const LIST: &[u8] = b"\x40\x1f\0\0\x02\0\0\0\x2f\0\0\0\x03\0\0\0abc\x02\0\0\0XY\
        \x40\x1f\0\0\x01\0\0\0\x03\0\0\0\x00\0\0\0\x02\0\0\0XY";

    fn numbers(call: &Call) -> (u32, usize, usize) {
        (call.rate, call.length, call.room)
    }

    #[test]
    fn calls_by_hand() {
        let calls: Vec<Call> = calls(LIST).collect();
        assert_eq!(calls.len(), 2);
        assert_eq!(numbers(&calls[0]), (8_000, 2, 47));
        assert_eq!(calls[0].given_samples(), b"ab");
        assert!(calls[0].given_output().starts_with(b"XYXYX"));
        assert!(calls[0].given_output().ends_with(b"YX"));
        assert_eq!(numbers(&calls[1]), (8_000, 1, 3));
        assert_eq!(calls[1].given_samples(), b"\0");
        assert_eq!(calls[1].given_output(), b"XYX");
        let bytes: Vec<u8> = calls.iter().flat_map(Call::bytes).collect();
        assert_eq!(bytes, LIST);
    }

    #[test]
    fn answers_by_hand() {
        let calls: Vec<Call> = calls(LIST).collect();
        assert_eq!(
            calls[0].answer(),
            b"\0\0\0\0\x2e\0\0\0\
                RIFF\x26\0\0\0WAVE\
                fmt \x10\0\0\0\x01\0\x01\0\x40\x1f\0\0\x80\x3e\0\0\x02\0\x10\0\
                data\x02\0\0\0abX\
                \x6a\x28\x05\x14\x89\xd8\x90\x17\
                \0\0\0\0\x40\x1f\0\0\x2c\0\0\0\0\0\0\0\x02\0\0\0\0\0\0\0"
        );
        assert_eq!(
            calls[1].answer(),
            b"\x0e\0\0\0\0\0\0\0XYX\
                \x66\xc3\x57\x1b\x1a\xac\x03\xd3\
                \x0a\0\0\0\0\0\0\0\0\0\0\0\0\0\0\0\0\0\0\0\0\0\0\0"
        );
        for call in calls {
            assert_eq!(call.answer().len(), call.answer_length());
        }
    }

    /// 256 bytes of a longer output stand in the answer, then the digest.
    #[test]
    fn an_answer_shows_so_much() {
        for (room, shown) in [(0, 0), (255, 255), (256, 256), (257, 256), (70_000, 256)] {
            let call = Call {
                rate: 0,
                length: 2,
                room,
                samples: vec![],
                before: vec![7],
            };
            let answer = call.answer();
            assert_eq!(answer.len(), 40 + shown);
            assert_eq!(call.answer_length(), 40 + shown);
            assert_eq!(answer[8..8 + shown], vec![7; shown]);
            assert_eq!(
                answer[8 + shown..][..8],
                digest(&vec![7; room]).to_le_bytes()
            );
        }
    }

    /// Vectors that its authors publish.
    #[test]
    fn digests() {
        assert_eq!(digest(b""), 0xcbf2_9ce4_8422_2325);
        assert_eq!(digest(b"a"), 0xaf63_dc4c_8601_ec8c);
        assert_eq!(digest(b"foobar"), 0x8594_4171_f739_67e8);
    }

    /// A call that is torn or that a replay doesn't take ends the list, whatever stands behind it.
    #[test]
    fn where_a_list_ends() {
        for length in 0..25 {
            assert_eq!(calls::<Call>(&LIST[..length]).count(), 0);
        }
        for length in 25..LIST.len() {
            assert_eq!(calls::<Call>(&LIST[..length]).count(), 1);
        }
        let ended = |rate: u32, length: u32, room: u32, tile: u32| {
            let mut list = LIST.to_vec();
            for number in [rate, length, room, tile] {
                list.extend(number.to_le_bytes());
            }
            list.extend(vec![1; tile as usize]);
            list.extend([0; 4]);
            list.extend(LIST);
            calls::<Call>(&list).count()
        };
        assert_eq!(ended(0, 2_097_152, 2_097_152, 65_536), 5);
        assert_eq!(ended(0, 2_097_153, 0, 0), 2);
        assert_eq!(ended(0, 0, 2_097_153, 0), 2);
        assert_eq!(ended(0, u32::MAX, 0, 0), 2);
        assert_eq!(ended(0, 0, 0, 65_537), 2);
    }
}
