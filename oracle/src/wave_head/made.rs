//! A call with the refusals that were put into it. The way it was made says what answers, and the parts that the reader's
//! lists are made of, with their sizes set, say the head.
use super::call::Call;
use crate::{
    wave::file::{Chunk, File, Format},
    wave_write::{made::ORDER, rules::Written},
};

pub struct Made {
    pub call: Call,
    pub refusals: Vec<u32>,
}

impl Made {
    /// The call, where the model answers as it was made.
    pub fn judged(self) -> Call {
        let held = |number: &u32| self.refusals.contains(number);
        let number = ORDER.into_iter().find(held).unwrap_or(0);
        let (written, output) = self.call.written();
        let mut expected = self.call.given_output();
        let mut length = 0;
        if number == 0 {
            expected[..44].copy_from_slice(&in_parts(self.call.rate, self.call.samples));
            length = 44;
        }
        assert_eq!(written, Written { number, length }, "{:?}", self.call);
        assert!(output == expected, "{:?}", self.call);
        self.call
    }
}

/// The file of no samples, with the sizes of so many bytes.
fn in_parts(rate: u32, samples: u64) -> Vec<u8> {
    let format = Chunk::format(Format::at(rate));
    let mut file = File::of([format, Chunk::data(0).sized(samples as u32)]);
    file.size = Some((samples + 36) as u32);
    file.bytes()
}
