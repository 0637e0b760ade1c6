//! The 16-bit rule: document 01's, written as document 02's W5 has it.

const SCALE_IN: f32 = 32_768.0;
const SCALE_OUT: f32 = 32_768.0;
const LOWEST: i64 = -32_768;
const HIGHEST: i64 = 32_767;

/// In: n/32768.
pub fn read(n: i16) -> f32 {
    f32::from(n) / SCALE_IN
}

/// Out: x*32768 rounded once, then to nearest whole, ties to even, held to -32768..32767, NaN as 0. The
/// whole number is worked out from the bits and by Rust's own rounding, and must be the same.
pub fn written(x: f32) -> Result<i16, String> {
    let y = x * SCALE_OUT;
    let whole = held(nearest(y));
    let rust = held(y.round_ties_even() as i64);
    if whole != rust {
        return Err(format!("{y} as a whole number: {whole}, and Rust's {rust}"));
    }
    Ok(whole as i16)
}

fn held(n: i64) -> i64 {
    n.clamp(LOWEST, HIGHEST)
}

/// The nearest whole number to y, ties to even; a size of 2^40 or more as 2^40, and NaN as 0.
fn nearest(y: f32) -> i64 {
    if y.is_nan() {
        return 0;
    }
    let bits = y.to_bits();
    let field = (bits >> 23 & 0xff) as i32;
    let digits = i64::from(bits & 0x7f_ffff);
    let significand = if field == 0 {
        digits
    } else {
        digits + 0x80_0000
    };
    // The size is the significand times 2^exponent.
    let exponent = field.max(1) - 150;
    let size = match exponent {
        17.. => 1 << 40,
        0..17 => significand << exponent,
        -62..0 => {
            let (whole, rest) = (
                significand >> -exponent,
                significand & ((1 << -exponent) - 1),
            );
            let half = 1 << (-exponent - 1);
            whole + i64::from(rest > half || rest == half && whole % 2 == 1)
        }
        _ => 0,
    };
    if bits >> 31 == 1 { -size } else { size }
}

#[cfg(test)]
mod tests {
    use super::{read, written};

    /// P9, ties, both ends, NaN and infinities.
    #[test]
    fn the_rule() {
        let of = |x: f32| written(x).unwrap();
        assert_eq!([of(0.5), of(-1.0)], [16384, -32768]);
        let ties = [0.5, 1.5, 2.5, -0.5, -1.5, -2.5].map(|n: f32| of(n / 32_768.0));
        assert_eq!(ties, [0, 2, 2, 0, -2, -2]);
        assert_eq!([of(1.0), of(1.5), of(-1.5)], [32767, 32767, -32768]);
        assert_eq!(
            [of(f32::INFINITY), of(f32::NEG_INFINITY), of(f32::NAN)],
            [32767, -32768, 0]
        );
    }

    /// W5: as it was read.
    #[test]
    fn every_sample_is_itself() {
        for n in i16::MIN..=i16::MAX {
            assert_eq!(written(read(n)), Ok(n));
        }
    }
}
