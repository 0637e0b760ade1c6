//! A call for a head as bytes of a list, what it hands over, and its answer's bytes.
use super::{
    cases, drawn,
    rules::{Asked, refusals, write_head},
};
use crate::{
    random::Random,
    wave_write::{
        call::{count, filled, tile, word},
        rules::Written,
        writing::Writes,
    },
};

#[derive(Clone, Debug)]
pub struct Call {
    pub rate: u32,
    /// How many bytes of samples the head is for.
    pub samples: u64,
    /// How many bytes the output has.
    pub room: usize,
    /// Repeated to fill the output before the call.
    pub before: Vec<u8>,
}

/// A list with more bytes of output ends there.
pub const LONGEST: usize = 65_536;

/// An answer with no byte of the output.
const ANSWER: usize = 8;

impl Call {
    pub const fn asked(&self) -> Asked {
        Asked {
            rate: self.rate,
            samples: self.samples,
            room: self.room,
        }
    }

    pub fn given_output(&self) -> Vec<u8> {
        filled(&self.before, self.room)
    }

    /// What the call tells, and the output behind it.
    pub fn written(&self) -> (Written, Vec<u8>) {
        write_head(self.rate, self.samples, &self.given_output())
    }
}

impl Writes for Call {
    fn stored() -> Vec<u8> {
        cases::stored()
    }

    fn drawn(random: &mut Random) -> Self {
        drawn::call(random)
    }

    fn taken(list: &[u8]) -> Option<(Self, &[u8])> {
        let (rate, list) = word(list)?;
        let (samples, list) = list.split_first_chunk::<8>()?;
        let (room, list) = count(list, LONGEST)?;
        let (before, list) = tile(list)?;
        let call = Self {
            rate,
            samples: u64::from_le_bytes(*samples),
            room,
            before,
        };
        Some((call, list))
    }

    fn bytes(&self) -> Vec<u8> {
        let mut bytes = self.rate.to_le_bytes().to_vec();
        bytes.extend(self.samples.to_le_bytes());
        bytes.extend((self.room as u32).to_le_bytes());
        bytes.extend((self.before.len() as u32).to_le_bytes());
        bytes.extend(&self.before);
        bytes
    }

    fn number(&self) -> u32 {
        refusals(self.asked()).next().unwrap_or(0)
    }

    fn answer(&self) -> Vec<u8> {
        let (written, output) = self.written();
        let mut bytes = written.number.to_le_bytes().to_vec();
        bytes.extend(written.length.to_le_bytes());
        bytes.extend(output);
        bytes
    }

    fn answer_length(&self) -> usize {
        ANSWER + self.room
    }

    fn in_words(&self) -> String {
        format!(
            "a head for {} bytes of samples at {} Hz into room of {}: {:?}\nover {:02x?}",
            self.samples,
            self.rate,
            self.room,
            self.written().0,
            self.before
        )
    }
}

#[cfg(test)]
mod tests {
    use super::*;
    use crate::wave_write::writing::calls;

    /// Two bytes of samples, room of 45 with a tile of two; and 2^32 bytes, room of 3 with an empty tile.
    const LIST: &[u8] = b"\x40\x1f\0\0\x02\0\0\0\0\0\0\0\x2d\0\0\0\x02\0\0\0XY\
        \x40\x1f\0\0\0\0\0\0\x01\0\0\0\x03\0\0\0\0\0\0\0";

    fn numbers(call: &Call) -> (u32, u64, usize) {
        (call.rate, call.samples, call.room)
    }

    #[test]
    fn calls_and_answers_by_hand() {
        let calls: Vec<Call> = calls(LIST).collect();
        assert_eq!(calls.len(), 2);
        assert_eq!(numbers(&calls[0]), (8_000, 2, 45));
        assert_eq!(numbers(&calls[1]), (8_000, 1 << 32, 3));
        let bytes: Vec<u8> = calls.iter().flat_map(Call::bytes).collect();
        assert_eq!(bytes, LIST);
        assert_eq!(
            calls[0].answer(),
            b"\0\0\0\0\x2c\0\0\0\
                RIFF\x26\0\0\0WAVE\
                fmt \x10\0\0\0\x01\0\x01\0\x40\x1f\0\0\x80\x3e\0\0\x02\0\x10\0\
                data\x02\0\0\0X"
        );
        assert_eq!(calls[1].answer(), b"\x11\0\0\0\0\0\0\0\0\0\0");
        for call in calls {
            assert_eq!(call.answer().len(), call.answer_length());
        }
    }

    /// A call that is torn or that a replay doesn't take ends the list, whatever stands behind it.
    #[test]
    fn where_a_list_ends() {
        for length in 0..22 {
            assert_eq!(calls::<Call>(&LIST[..length]).count(), 0);
        }
        for length in 22..LIST.len() {
            assert_eq!(calls::<Call>(&LIST[..length]).count(), 1);
        }
        let ended = |room: u32, tile: u32| {
            let mut list = [LIST, &[0; 12]].concat();
            list.extend(room.to_le_bytes());
            list.extend(tile.to_le_bytes());
            list.extend(vec![1; tile as usize]);
            list.extend(LIST);
            calls::<Call>(&list).count()
        };
        assert_eq!(ended(65_536, 65_536), 5);
        assert_eq!(ended(65_537, 0), 2);
        assert_eq!(ended(u32::MAX, 0), 2);
        assert_eq!(ended(0, 65_537), 2);
    }
}
