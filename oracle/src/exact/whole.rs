//! Whole numbers of any size that a sum of a product and a third value can have: an f64's largest
//! product is below 2^4096 * 2^100 of its smallest one, 2^-2148.
use std::cmp::Ordering;

const WORDS: usize = 66;

/// The words of a whole number, the lowest first.
#[derive(Clone, PartialEq, Eq)]
pub struct Whole([u64; WORDS]);

impl Whole {
    /// `digits` * 2 ^ `shift`.
    pub fn shifted(digits: u128, shift: u32) -> Self {
        let mut words = [0; WORDS];
        let (at, by) = place(shift);
        let low = digits << by;
        let high = if by == 0 { 0 } else { digits >> (128 - by) };
        for (offset, word) in [low as u64, (low >> 64) as u64, high as u64]
            .into_iter()
            .enumerate()
        {
            if word != 0 {
                words[at + offset] = word;
            }
        }
        Self(words)
    }

    pub fn plus(&self, other: &Self) -> Self {
        self.word_by_word(other, u64::overflowing_add)
    }

    /// The difference from a number that is not larger.
    pub fn minus(&self, other: &Self) -> Self {
        self.word_by_word(other, u64::overflowing_sub)
    }

    /// `step` on each pair of words, and again on its result for what the words below it carry.
    fn word_by_word(&self, other: &Self, step: fn(u64, u64) -> (u64, bool)) -> Self {
        let mut words = [0; WORDS];
        let mut carry = false;
        for (at, word) in words.iter_mut().enumerate() {
            let (partial, first) = step(self.0[at], other.0[at]);
            let (whole, second) = step(partial, carry.into());
            *word = whole;
            carry = first || second;
        }
        assert!(!carry, "the result is a whole number of {WORDS} words");
        Self(words)
    }

    pub fn compare(&self, other: &Self) -> Ordering {
        self.0.iter().rev().cmp(other.0.iter().rev())
    }

    /// How many binary digits it has.
    pub fn length(&self) -> u32 {
        let top = (0..WORDS).rev().find(|&at| self.0[at] != 0);
        top.map_or(0, |at| start(at) + u64::BITS - self.0[at].leading_zeros())
    }

    pub fn bit(&self, index: u32) -> bool {
        let (at, by) = place(index);
        self.0[at] >> by & 1 == 1
    }

    /// Whether a digit below `index` is 1.
    pub fn any_below(&self, index: u32) -> bool {
        let (at, by) = place(index);
        self.0[..at].iter().any(|&word| word != 0) || self.0[at] & ((1 << by) - 1) != 0
    }

    /// The digits from `index` on, which must be 64 at most.
    pub fn from(&self, index: u32) -> u64 {
        let (at, by) = place(index);
        assert!(self.length() <= index + u64::BITS, "a word holds the rest");
        let high = self.0.get(at + 1).copied().unwrap_or(0);
        (u128::from(self.0[at]) >> by | u128::from(high) << 64 >> by) as u64
    }
}

/// The word that a digit stands in, and where in it.
const fn place(index: u32) -> (usize, u32) {
    ((index / u64::BITS) as usize, index % u64::BITS)
}

/// The first digit of a word.
fn start(at: usize) -> u32 {
    at as u32 * u64::BITS
}
