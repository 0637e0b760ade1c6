//! A call with the refusals that were put into it. The way it was made says what answers, and the parts that the reader's
//! lists are made of say what is written.
use super::{
    call::Call,
    rules::{OVER, ROOM, Written},
};
use crate::wave::{
    file::{Chunk, File, Format},
    rules::{ODD, RATE},
};

/// Document 02's order.
pub const ORDER: [u32; 4] = [RATE, ODD, OVER, ROOM];

pub struct Made {
    pub call: Call,
    pub refusals: Vec<u32>,
}

impl Made {
    /// Of the refusals that were put in, the first in the order; 0 where none was.
    fn number(&self) -> u32 {
        let mut order = ORDER.into_iter();
        order
            .find(|number| self.refusals.contains(number))
            .unwrap_or(0)
    }

    /// The call, where the model answers as it was made.
    pub fn judged(self) -> Call {
        let number = self.number();
        let (written, output) = self.call.written();
        let mut expected = self.call.given_output();
        let mut length = 0;
        if number == 0 {
            let file = plain(self.call.rate, self.call.given_samples()).bytes();
            expected[..file.len()].copy_from_slice(&file);
            length = file.len() as u32;
        }
        assert_eq!(written, Written { number, length }, "{:?}", self.call);
        assert!(output == expected, "{:?}", self.call);
        self.call
    }
}

/// The file of these samples, in parts.
pub fn plain(rate: u32, samples: Vec<u8>) -> File {
    File::of([
        Chunk::format(Format::at(rate)),
        Chunk::new(b"data", samples),
    ])
}
