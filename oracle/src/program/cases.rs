//! Lists of samples: P10 and every sample, then bursts around the threshold.
use crate::random::Random;

const SEED: u64 = 5;

/// The bytes of P10.
const P10: [u8; 10] = [0, 0x20, 0, 0x40, 0, 0x10, 0, 0x10, 0, 0x10];

/// The loudest sample that is not above the threshold's factor.
const QUIET: i64 = 8192;

/// P10; every sample, from the lowest to the highest; quiet ones right behind a loud one; bursts; an odd
/// byte.
pub fn stored() -> Vec<u8> {
    let mut bytes = P10.to_vec();
    bytes.extend((i16::MIN..=i16::MAX).flat_map(i16::to_le_bytes));
    for n in (-QUIET..=QUIET).step_by(3) {
        bytes.extend([i16::MIN, n as i16].into_iter().flat_map(i16::to_le_bytes));
    }
    bytes.extend(generated(&mut Random::new(SEED), 500));
    bytes.push(0x7f);
    bytes
}

/// Bursts of a few samples each: quiet ones, loud ones, ones at the threshold, at the ends and next to
/// nought, any.
pub fn generated(random: &mut Random, bursts: u64) -> Vec<u8> {
    let mut bytes = Vec::new();
    for _ in 0..bursts {
        let kind = random.below(5);
        for _ in 0..=random.below(12) {
            bytes.extend((sample(random, kind) as i16).to_le_bytes());
        }
    }
    bytes
}

fn sample(random: &mut Random, kind: u64) -> i64 {
    let sign = if random.coin() { 1 } else { -1 };
    match kind {
        0 => random.between(-QUIET, QUIET),
        1 => sign * random.between(QUIET + 1, 32_767),
        2 => sign * random.between(QUIET - 2, QUIET + 2),
        3 => random.pick(&[-32_768, -32_767, -1, 0, 1, 2, 3, 32_766, 32_767]),
        _ => random.between(-32_768, 32_767),
    }
}
