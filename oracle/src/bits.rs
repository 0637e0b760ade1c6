//! Floats as bits, and every NaN as the one that an answer has. Whether a number is a NaN is asked of its bits: of a
//! number whose operation it sees a compiler may drop `is_nan`, since to it one NaN is as good as another (rustc 1.95
//! does so with the root of an f64).

/// The f32 of the 32 low bits.
pub const fn single(bits: u64) -> f32 {
    f32::from_bits(bits as u32)
}

pub const fn double(bits: u64) -> f64 {
    f64::from_bits(bits)
}

/// An f32's bits, any NaN as 7FC00000.
pub const fn bits32(x: f32) -> u64 {
    let bits = x.to_bits() as u64;
    if bits & 0x7fff_ffff > 0x7f80_0000 {
        0x7fc0_0000
    } else {
        bits
    }
}

/// An f64's bits, any NaN as 7FF8000000000000.
pub const fn bits64(x: f64) -> u64 {
    let bits = x.to_bits();
    if bits & 0x7fff_ffff_ffff_ffff > 0x7ff0_0000_0000_0000 {
        0x7ff8_0000_0000_0000
    } else {
        bits
    }
}
