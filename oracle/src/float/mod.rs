//! Float arithmetic. `oracle/README.md` says what stands where in a case and in its answer.
#[cfg(test)]
mod by_f64;
mod cases;
mod edge_list;
mod edges;
#[cfg(test)]
mod kinds;
mod published;
mod roots;
mod singles;
mod triples;
mod wholes;
#[cfg(test)]
mod wrong;
#[cfg(test)]
mod wrong_words;

use crate::{
    bits::{bits32, bits64, double, single},
    exact::{self, BINARY32, BINARY64, CUT, EXACT, Format},
    random::Random,
    replay::{Counts, Replay},
};

#[derive(Clone, Copy, Debug, PartialEq, Eq, Hash)]
pub enum Operation {
    Fma32,
    Fma64,
    Narrowed,
    Truncated,
    Widened,
    Size32,
    Size64,
    Bits32,
    Bits64,
    Root32,
    Exactness,
}

impl Operation {
    const ALL: [Self; 11] = [
        Self::Fma32,
        Self::Fma64,
        Self::Narrowed,
        Self::Truncated,
        Self::Widened,
        Self::Size32,
        Self::Size64,
        Self::Bits32,
        Self::Bits64,
        Self::Root32,
        Self::Exactness,
    ];

    const fn number(self) -> u8 {
        self as u8 + 1
    }

    fn numbered(number: u8) -> Option<Self> {
        Self::ALL.into_iter().find(|one| one.number() == number)
    }

    const fn name(self) -> &'static str {
        match self {
            Self::Fma32 => "fma32",
            Self::Fma64 => "fma64",
            Self::Narrowed => "narrowed",
            Self::Truncated => "truncated",
            Self::Widened => "widened",
            Self::Size32 => "size32",
            Self::Size64 => "size64",
            Self::Bits32 => "bits32",
            Self::Bits64 => "bits64",
            Self::Root32 => "root32",
            Self::Exactness => "exactness",
        }
    }

    /// The format of the operands.
    const fn format(self) -> Format {
        match self {
            Self::Fma64 | Self::Narrowed | Self::Size64 | Self::Bits64 => BINARY64,
            _ => BINARY32,
        }
    }

    /// What the Rust answers.
    fn by_rust(self, [a, b, c]: [u64; 3]) -> u64 {
        match self {
            Self::Fma32 => bits32(single(a).mul_add(single(b), single(c))),
            Self::Fma64 => bits64(double(a).mul_add(double(b), double(c))),
            Self::Narrowed => bits32(double(a) as f32),
            Self::Truncated => single(a) as u64,
            Self::Widened => bits64(single(a).into()),
            Self::Size32 => bits32(single(a).abs()),
            Self::Size64 => bits64(double(a).abs()),
            Self::Bits32 => bits32(single(a)),
            Self::Bits64 => bits64(double(a)),
            Self::Root32 => bits32(single(a).sqrt()),
            Self::Exactness => exactness(single(a)).into(),
        }
    }

    /// What document 01 says, and of a root and of a truncation's word document 02.
    fn by_rule(self, operands: [u64; 3]) -> u64 {
        let format = self.format();
        let [a, b, c] = operands.map(|bits| bits & (format.sign() | (format.sign() - 1)));
        match self {
            Self::Fma32 | Self::Fma64 => exact::fma(format, a, b, c),
            Self::Narrowed => exact::converted(BINARY64, BINARY32, a),
            Self::Truncated => exact::truncated(BINARY32, a),
            Self::Widened => exact::converted(BINARY32, BINARY64, a),
            Self::Size32 | Self::Size64 => exact::size(format, a),
            Self::Bits32 | Self::Bits64 => exact::settled(format, a),
            Self::Root32 => exact::root(format, a),
            Self::Exactness => exact::exactness(BINARY32, a).into(),
        }
    }
}

/// Whether the whole number that `as` gives is the number taken. They are compared as f64, which has every f32, and of what
/// `as` gives all but 2^64-1.
fn exactness(x: f32) -> u32 {
    let whole = x as u64;
    let double = whole as f64;
    let is_kept = double as u128 == u128::from(whole);
    if is_kept && double == f64::from(x) {
        EXACT
    } else {
        CUT
    }
}

/// An operation and its operands.
#[derive(Clone, Copy, Debug, PartialEq, Eq, Hash)]
struct Case {
    operation: Operation,
    operands: [u64; 3],
}

const CASE: usize = 25;
const ANSWER: usize = 8;

impl Case {
    fn bytes(self) -> Vec<u8> {
        let operands = self.operands.map(u64::to_le_bytes);
        [&[self.operation.number()], operands.as_flattened()].concat()
    }

    /// The case that 25 bytes say, or none where no operation has the number.
    fn read(bytes: &[u8]) -> Option<Self> {
        let (number, operands) = bytes.split_first()?;
        let word = |at: usize| u64::from_le_bytes(operands[8 * at..8 * at + 8].try_into().unwrap());
        Some(Self {
            operation: Operation::numbered(*number)?,
            operands: [word(0), word(1), word(2)],
        })
    }

    /// The answer on which the Rust, document 01 and, where it is published, the vector agree.
    fn answer(self) -> Result<u64, String> {
        let rust = self.operation.by_rust(self.operands);
        let rule = self.operation.by_rule(self.operands);
        let published = published::answer(self).unwrap_or(rule);
        if rust == rule && published == rule {
            Ok(rule)
        } else {
            Err(format!(
                "{}: Rust {rust:x}, document 01 {rule:x}, published {published:x}",
                self.told()
            ))
        }
    }

    fn told(self) -> String {
        let [a, b, c] = self.operands;
        format!("{} {a:x} {b:x} {c:x}", self.operation.name())
    }
}

pub struct Float;

impl Replay for Float {
    fn stored(&self) -> Vec<u8> {
        cases::stored()
    }

    fn generated(&self, random: &mut Random, cases: u64) -> Vec<u8> {
        let all = (0..cases).flat_map(|_| Operation::ALL);
        all.flat_map(|operation| cases::new(operation, random).bytes())
            .collect()
    }

    fn answers(&self, calls: &[u8]) -> Result<Vec<u8>, String> {
        let mut answers = Vec::with_capacity(calls.len() / CASE * ANSWER);
        for bytes in calls.chunks_exact(CASE) {
            let answer = Case::read(bytes).map_or(Ok(u64::MAX), Case::answer)?;
            answers.extend(answer.to_le_bytes());
        }
        Ok(answers)
    }

    fn counts(&self, calls: &[u8]) -> Counts {
        let mut counts = Counts::new();
        for bytes in calls.chunks_exact(CASE) {
            let name = Case::read(bytes).map_or("no operation", |case| case.operation.name());
            *counts.entry(name).or_default() += 1;
        }
        counts
    }

    fn told(&self, calls: &[u8], answer_byte: usize) -> String {
        let case = calls.chunks_exact(CASE).nth(answer_byte / ANSWER);
        let case = case.map(|bytes| Case::read(bytes).map_or("no operation".into(), Case::told));
        case.unwrap_or("the list has ended".into())
    }
}
