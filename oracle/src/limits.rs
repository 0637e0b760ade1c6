//! Document 01's "The answers": the limits and tests that the stages share.

pub const LARGEST_SAMPLE: f32 = 64.0;
pub const LONGEST_BLOCK: usize = 4096;
/// 2^-14.
pub const LOWEST_FACTOR: f32 = 1.0 / 16384.0;

pub fn is_rate(rate: f32) -> bool {
    (8_000.0..=192_000.0).contains(&rate) && rate.fract() == 0.0
}

/// A smoothing number, a follower's or a blocker's: from 0 up to, excluding, 1.
pub fn is_smoothing(c: f32) -> bool {
    (0.0..1.0).contains(&c)
}

/// A threshold's linear factor.
pub fn is_threshold_factor(factor: f32) -> bool {
    (LOWEST_FACTOR..=1.0).contains(&factor)
}

pub fn is_refused(sample: f32) -> bool {
    sample.is_nan() || sample.abs() > LARGEST_SAMPLE
}

/// The number and the place that refuse a block, if anything does: 7, 8, 6.
pub fn block_refused(input: &[f32], places: usize) -> Option<(u32, u64)> {
    if input.len() != places {
        Some((7, 0))
    } else if input.len() > LONGEST_BLOCK {
        Some((8, 0))
    } else {
        let place = input.iter().position(|&sample| is_refused(sample))?;
        Some((6, place as u64))
    }
}
