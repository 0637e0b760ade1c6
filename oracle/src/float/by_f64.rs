//! A fused multiply-add in f32 by a sum in f64, whose product is exact: what the sum is, what it lost, and how its
//! digits are cut.
use super::Operation;
use crate::{
    bits::{bits32, single},
    exact::BINARY32,
};
use std::cmp::Ordering;

const SIGN: u64 = BINARY32.sign();

/// How many digits more an f64 has, and the half that is added before they are cut.
pub const CUT: u32 = 29;
pub const HALF: u64 = 1 << (CUT - 1);

/// The exponents of normal f32.
pub const LOWEST: i64 = -126;
pub const HIGHEST: i64 = 127;

/// A sum in f64, the terms that it has, and the right answer.
pub struct Sum {
    pub operands: [u64; 3],
    pub product: f64,
    pub third: f64,
    pub sum: f64,
    pub right: u64,
}

impl Sum {
    pub fn of(operands: [u64; 3]) -> Self {
        let [a, b, c] = operands.map(|bits| f64::from(single(bits)));
        Self {
            operands,
            product: a * b,
            third: c,
            sum: a * b + c,
            right: Operation::Fma32.by_rule(operands),
        }
    }

    pub fn exponent(&self) -> i64 {
        (self.sum.to_bits() << 1 >> 53) as i64 - 1023
    }

    pub fn is_normal(&self) -> bool {
        (LOWEST..=HIGHEST).contains(&self.exponent())
    }

    /// Whether the digits that an f32 lacks, more of them below the normal numbers, are half of the last that it has.
    pub fn is_any_middle(&self) -> bool {
        let exponent = self.exponent();
        let lacking = CUT as i64 + (LOWEST - exponent).max(0);
        let digits = self.sum.to_bits() << 12 >> 12 | 1 << 52;
        (-150..=HIGHEST).contains(&exponent) && digits << (64 - lacking) == 1 << 63
    }

    /// Whether the 29 digits that are cut are half of the last one that stays.
    pub fn is_middle(&self) -> bool {
        self.is_normal() && self.is_any_middle()
    }

    /// The sum's last digits cut, after `more` of them.
    pub fn cut(&self, more: u64, digits: u32) -> u64 {
        let size = ((self.sum.to_bits() & (u64::MAX >> 1)) + more) >> digits;
        let bias = (1023 - 127) << (52 - digits);
        self.signed(size.wrapping_sub(bias) & (SIGN - 1))
    }

    pub fn signed(&self, size: u64) -> u64 {
        size | if self.sum.is_sign_negative() { SIGN } else { 0 }
    }

    pub fn up(&self) -> u64 {
        self.cut(HALF, CUT)
    }

    pub fn down(&self) -> u64 {
        self.cut(0, CUT)
    }

    pub fn narrowed(&self) -> u64 {
        bits32(self.sum as f32)
    }

    /// What the sum in f64 lost: whether the whole sum is larger.
    pub fn lost(&self) -> Ordering {
        let third = self.sum - self.product;
        let lost = (self.product - (self.sum - third)) + (self.third - third);
        lost.total_cmp(&0.0)
    }

    /// What the sum's size lost.
    pub fn lost_size(&self) -> Ordering {
        if self.sum.is_sign_negative() {
            self.lost().reverse()
        } else {
            self.lost()
        }
    }

    /// A middle by what is lost, to even where nothing is.
    pub fn middle(&self, lost: Ordering) -> u64 {
        match lost {
            Ordering::Less => self.down(),
            Ordering::Equal => self.narrowed(),
            Ordering::Greater => self.up(),
        }
    }

    /// This answer to a sum that is so, and the right one to any other.
    pub fn but(&self, so: bool, answer: u64) -> u64 {
        if so { answer } else { self.right }
    }

    pub fn is_zero(&self) -> bool {
        self.sum == 0.0
    }
}
