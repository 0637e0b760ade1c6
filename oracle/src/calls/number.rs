//! A state's numbers as bytes, the lowest first, floats as bits.
use crate::bits::{bits32, bits64};

#[derive(Clone, Copy, Debug)]
pub enum Number {
    Byte(u8),
    Whole(u32),
    Long(u64),
    Single(f32),
    Double(f64),
}

impl Number {
    /// Its bytes as it is, a NaN's too.
    fn kept(self) -> Vec<u8> {
        match self {
            Self::Byte(n) => vec![n],
            Self::Whole(n) => n.to_le_bytes().into(),
            Self::Long(n) => n.to_le_bytes().into(),
            Self::Single(x) => x.to_bits().to_le_bytes().into(),
            Self::Double(x) => x.to_bits().to_le_bytes().into(),
        }
    }

    /// Its bytes in an answer, where every NaN is the same.
    fn told(self) -> Vec<u8> {
        match self {
            Self::Byte(n) => vec![n],
            Self::Whole(n) => n.to_le_bytes().into(),
            Self::Long(n) => n.to_le_bytes().into(),
            Self::Single(x) => (bits32(x) as u32).to_le_bytes().into(),
            Self::Double(x) => bits64(x).to_le_bytes().into(),
        }
    }
}

pub fn singles(of: &[f32]) -> Vec<Number> {
    of.iter().map(|&x| Number::Single(x)).collect()
}

pub fn doubles(of: &[f64]) -> Vec<Number> {
    of.iter().map(|&x| Number::Double(x)).collect()
}

pub fn kept(numbers: &[Number]) -> Vec<u8> {
    numbers.iter().flat_map(|number| number.kept()).collect()
}

pub fn told(numbers: &[Number]) -> Vec<u8> {
    numbers.iter().flat_map(|number| number.told()).collect()
}

pub fn single_bytes(of: &[f32]) -> Vec<u8> {
    kept(&singles(of))
}

/// Takes numbers from the front of bytes.
#[derive(Clone, Copy)]
pub struct Taker<'a>(pub &'a [u8]);

impl Taker<'_> {
    fn bytes<const N: usize>(&mut self) -> [u8; N] {
        let (bytes, behind) = self.0.split_first_chunk().expect("enough bytes");
        self.0 = behind;
        *bytes
    }

    pub fn whole(&mut self) -> u32 {
        u32::from_le_bytes(self.bytes())
    }

    pub fn long(&mut self) -> u64 {
        u64::from_le_bytes(self.bytes())
    }

    pub fn single(&mut self) -> f32 {
        f32::from_bits(self.whole())
    }

    pub fn double(&mut self) -> f64 {
        f64::from_bits(self.long())
    }

    pub fn some<const N: usize>(&mut self) -> [f32; N] {
        [(); N].map(|()| self.single())
    }

    pub fn some_doubles<const N: usize>(&mut self) -> [f64; N] {
        [(); N].map(|()| self.double())
    }

    /// All that are left.
    pub fn singles(mut self) -> Vec<f32> {
        let count = self.0.len() / 4;
        (0..count).map(|_| self.single()).collect()
    }
}
