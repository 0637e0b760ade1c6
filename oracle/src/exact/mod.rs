//! Document 01's "IEEE 754 arithmetic" over whole numbers, with no float in it: a value is a whole
//! number of a format's smallest one, a sum is taken whole, and one function rounds, once, for every
//! width. It judges beside the Rust, and decides over it. A root is document 02's, by squares; so is a truncation's word.
mod root;
mod whole;

pub use root::root;
use std::cmp::Ordering;
use whole::Whole;

/// A binary format, by the bits of its fraction and of its exponent.
#[derive(Clone, Copy)]
pub struct Format {
    pub fraction: u32,
    pub exponent: u32,
}

pub const BINARY32: Format = Format {
    fraction: 23,
    exponent: 8,
};

pub const BINARY64: Format = Format {
    fraction: 52,
    exponent: 11,
};

/// The words of a truncation.
pub const EXACT: u32 = 1;
pub const CUT: u32 = 2;

/// What a bit pattern stands for.
enum Value {
    Nan,
    Infinite { negative: bool },
    Finite(Finite),
}

/// A finite value, of size `digits` * 2 ^ `shift` of its format's smallest one.
struct Finite {
    negative: bool,
    digits: u64,
    shift: u32,
}

impl Format {
    pub const fn sign(self) -> u64 {
        1 << (self.fraction + self.exponent)
    }

    pub const fn infinity(self) -> u64 {
        ((1 << self.exponent) - 1) << self.fraction
    }

    /// The one NaN that an answer has.
    pub const fn nan(self) -> u64 {
        self.infinity() | 1 << (self.fraction - 1)
    }

    pub const fn one(self) -> u64 {
        (self.bias() as u64) << self.fraction
    }

    pub const fn bias(self) -> u32 {
        (1 << (self.exponent - 1)) - 1
    }

    /// The smallest value is 2 to the power of minus this.
    pub const fn depth(self) -> u32 {
        self.bias() + self.fraction - 1
    }

    const fn signed(self, negative: bool, size: u64) -> u64 {
        if negative { size | self.sign() } else { size }
    }

    fn value(self, bits: u64) -> Value {
        let negative = bits & self.sign() != 0;
        let size = bits & (self.sign() - 1);
        match size.cmp(&self.infinity()) {
            Ordering::Greater => Value::Nan,
            Ordering::Equal => Value::Infinite { negative },
            Ordering::Less => Value::Finite(self.finite(negative, size)),
        }
    }

    const fn finite(self, negative: bool, size: u64) -> Finite {
        let field = (size >> self.fraction) as u32;
        let fraction = size & ((1 << self.fraction) - 1);
        let (digits, shift) = match field {
            0 => (fraction, 0),
            _ => (fraction | 1 << self.fraction, field - 1),
        };
        Finite {
            negative,
            digits,
            shift,
        }
    }

    /// The nearest value of this format, ties to the even significand, subnormals kept and overflow to
    /// infinity: of a whole number of units of which the format's smallest value has 2 ^ `low`.
    fn rounded(self, negative: bool, size: &Whole, low: u32) -> u64 {
        let cut = low.max(size.length().saturating_sub(self.fraction + 1));
        let kept = size.from(cut);
        let up = cut > 0 && size.bit(cut - 1) && (size.any_below(cut - 1) || kept % 2 == 1);
        let pattern = (u64::from(cut - low) << self.fraction) + kept + u64::from(up);
        self.signed(negative, pattern.min(self.infinity()))
    }
}

/// a * b + c, the product exact and the sum rounded once.
pub fn fma(format: Format, a: u64, b: u64, c: u64) -> u64 {
    match (format.value(a), format.value(b), format.value(c)) {
        (Value::Finite(a), Value::Finite(b), Value::Finite(c)) => {
            let digits = u128::from(a.digits) * u128::from(b.digits);
            let product = Whole::shifted(digits, a.shift + b.shift);
            let addend = Whole::shifted(c.digits.into(), c.shift + format.depth());
            sum(
                format,
                (a.negative != b.negative, product),
                (c.negative, addend),
            )
        }
        (a, b, c) => not_finite(format, &a, &b, &c),
    }
}

/// a * b, rounded once. Adding -0 to a product leaves it, its sign too.
pub fn product(format: Format, a: u64, b: u64) -> u64 {
    fma(format, a, b, format.sign())
}

/// a - b, rounded once.
pub fn difference(format: Format, a: u64, b: u64) -> u64 {
    fma(format, a, format.one(), b ^ format.sign())
}

/// Whether a > b; no NaN is, and the zeros are equal.
pub fn greater(format: Format, a: u64, b: u64) -> bool {
    let place = |bits: u64| {
        let size = (bits & (format.sign() - 1)) as i64;
        if bits & format.sign() == 0 {
            size
        } else {
            -size
        }
    };
    !format.value(a).is_nan() && !format.value(b).is_nan() && place(a) > place(b)
}

/// The value of this format nearest to `digits` * 2 ^ `power`.
pub fn nearest(format: Format, negative: bool, digits: u64, power: i64) -> u64 {
    let depth = i64::from(format.depth());
    let shift = (power + 2 * depth).clamp(0, 4 * depth - 64);
    format.rounded(
        negative,
        &Whole::shifted(digits.into(), shift as u32),
        format.depth(),
    )
}

/// The sum of two finite numbers, each a sign and how many squares of the smallest value.
fn sum(format: Format, product: (bool, Whole), addend: (bool, Whole)) -> u64 {
    let (negative, size) = match (product.0 == addend.0, product.1.compare(&addend.1)) {
        (true, _) => (product.0, product.1.plus(&addend.1)),
        (false, Ordering::Greater) => (product.0, product.1.minus(&addend.1)),
        (false, Ordering::Less) => (addend.0, addend.1.minus(&product.1)),
        (false, Ordering::Equal) => return 0,
    };
    format.rounded(negative, &size, format.depth())
}

/// The sum where an operand is a NaN or infinite.
fn not_finite(format: Format, a: &Value, b: &Value, c: &Value) -> u64 {
    if a.is_nan() || b.is_nan() || c.is_nan() {
        return format.nan();
    }
    let negative = a.is_negative() != b.is_negative();
    if !a.is_infinite() && !b.is_infinite() {
        return format.signed(c.is_negative(), format.infinity());
    }
    if a.is_zero() || b.is_zero() || (c.is_infinite() && c.is_negative() != negative) {
        return format.nan();
    }
    format.signed(negative, format.infinity())
}

impl Value {
    const fn is_nan(&self) -> bool {
        matches!(self, Self::Nan)
    }

    const fn is_infinite(&self) -> bool {
        matches!(self, Self::Infinite { .. })
    }

    const fn is_zero(&self) -> bool {
        matches!(self, Self::Finite(Finite { digits: 0, .. }))
    }

    const fn is_negative(&self) -> bool {
        match self {
            Self::Nan => false,
            Self::Infinite { negative } | Self::Finite(Finite { negative, .. }) => *negative,
        }
    }
}

/// A value of one format in another, rounded once.
pub fn converted(from: Format, to: Format, bits: u64) -> u64 {
    match from.value(bits) {
        Value::Nan => to.nan(),
        Value::Infinite { negative } => to.signed(negative, to.infinity()),
        Value::Finite(value) => {
            let depth = from.depth().max(to.depth());
            let size = Whole::shifted(value.digits.into(), value.shift + depth - from.depth());
            to.rounded(value.negative, &size, depth - to.depth())
        }
    }
}

/// Toward zero to a whole number; NaN and negatives give 0; at most 2^64-1.
pub fn truncated(format: Format, bits: u64) -> u64 {
    let value = format.value(bits);
    match value {
        Value::Nan => 0,
        _ if value.is_negative() => 0,
        Value::Infinite { .. } => u64::MAX,
        Value::Finite(value) => {
            let size = Whole::shifted(value.digits.into(), value.shift);
            if size.length() > format.depth() + u64::BITS {
                u64::MAX
            } else {
                size.from(format.depth())
            }
        }
    }
}

/// Whether truncation throws anything away: exact of a zero of either sign and of a whole number above it that 64 digits
/// hold; else cut.
pub fn exactness(format: Format, bits: u64) -> u32 {
    match format.value(bits) {
        Value::Finite(value) if !value.negative || value.digits == 0 => {
            let size = Whole::shifted(value.digits.into(), value.shift);
            let too_long = size.length() > format.depth() + u64::BITS;
            if too_long || size.any_below(format.depth()) {
                CUT
            } else {
                EXACT
            }
        }
        _ => CUT,
    }
}

/// The size of a number.
pub fn size(format: Format, bits: u64) -> u64 {
    settled(format, bits) & (format.sign() - 1)
}

/// The same number, a NaN as the one that an answer has.
pub fn settled(format: Format, bits: u64) -> u64 {
    if format.value(bits).is_nan() {
        format.nan()
    } else {
        bits
    }
}

#[cfg(test)]
mod tests {
    use super::*;

    /// P1 to P5 of document 01's proved table.
    #[test]
    fn proved_table() {
        let rows = [
            [0x3f80_0001, 0x3f80_0001, 0xbf80_0002, 0x2880_0000],
            [0x7f7f_ffff, 0x4000_0000, 0xff7f_ffff, 0x7f7f_ffff],
            [0x0000_0001, 0x3f00_0000, 0x0000_0000, 0x0000_0000],
            [0x3f80_0000, 0x8000_0000, 0x8000_0000, 0x8000_0000],
            [0x3f80_0000, 0x3f80_0000, 0xbf80_0000, 0x0000_0000],
            [0x7f80_0000, 0x0000_0000, 0x3f80_0000, 0x7fc0_0000],
        ];
        for [a, b, c, answer] in rows {
            assert_eq!(fma(BINARY32, a, b, c), answer, "{a:08x} {b:08x} {c:08x}");
        }
    }

    #[test]
    fn exact_by_hand() {
        let exact = [
            (0x0000_0000, 0),
            (0x8000_0000, 0),
            (0x3f80_0000, 1),
            (0x4516_0000, 2_400),
            (0x4b00_0001, (1 << 23) + 1),
            (0x4b80_0000, 1 << 24),
            (0x4b80_0001, (1 << 24) + 2),
            (0x5f00_0000, 1 << 63),
            (0x5f7f_ffff, u64::MAX - (1 << 40) + 1),
        ];
        for (bits, whole) in exact {
            assert_eq!(truncated(BINARY32, bits), whole, "{bits:08x}");
            assert_eq!(exactness(BINARY32, bits), EXACT, "{bits:08x}");
        }
    }

    /// The smallest number, 1/4 and what is next to 1; 3.0000002, which 1/16 ms are at 48,000 Hz; 2^22 and a half, and
    /// what is next to 2^23; -1/4, -1 and -2^24; 2^64 and more; infinities, NaNs.
    #[test]
    fn cut_by_hand() {
        let cut = [
            (0x0000_0001, 0),
            (0x8000_0001, 0),
            (0x3e80_0000, 0),
            (0x3f7f_ffff, 0),
            (0x3f80_0001, 1),
            (0x4040_0001, 3),
            (0x4a80_0001, 1 << 22),
            (0x4aff_ffff, (1 << 23) - 1),
            (0xbe80_0000, 0),
            (0xbf80_0000, 0),
            (0xcb80_0000, 0),
            (0x5f80_0000, u64::MAX),
            (0x5f80_0001, u64::MAX),
            (0x7f7f_ffff, u64::MAX),
            (0x7f80_0000, u64::MAX),
            (0xff80_0000, 0),
            (0x7fc0_0000, 0),
            (0xffc0_0001, 0),
            (0x7f80_0001, 0),
        ];
        for (bits, whole) in cut {
            assert_eq!(truncated(BINARY32, bits), whole, "{bits:08x}");
            assert_eq!(exactness(BINARY32, bits), CUT, "{bits:08x}");
        }
    }
}
