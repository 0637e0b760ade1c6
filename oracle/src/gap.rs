//! The gap between a leveller's gain and what the Rust takes in its place, the C library's power: over every value that
//! over can have above 1, up to 2^20, which is the largest level divided by the lowest factor.
use crate::{
    leveller::gain,
    limits::{LARGEST_SAMPLE, LOWEST_FACTOR},
    numbers::above,
    power,
    random::Random,
};
use std::fmt::{self, Display, Formatter};

/// What one ratio's gains and powers are apart.
pub struct Gap {
    ratio: f32,
    /// How many values have each gap, in units in the last place.
    counts: Vec<u64>,
    /// The first value with the largest gap, its gain and its power.
    first: [f32; 3],
    /// The largest gap as a part of what the power gives: of gains, and of outputs.
    of_gains: f64,
    of_outputs: f64,
}

/// Measures all values, and at each an output with a sample and a makeup drawn from 1 to 2.
pub fn measured(ratio: f32) -> Gap {
    let powf = power::of_the_c_library();
    let exponent = 1.0 / ratio - 1.0;
    let mut random = Random::new(1);
    let mut gap = Gap {
        ratio,
        counts: Vec::new(),
        first: [0.0; 3],
        of_gains: 0.0,
        of_outputs: 0.0,
    };
    for bits in above(1.0).to_bits()..=(LARGEST_SAMPLE / LOWEST_FACTOR).to_bits() {
        let over = f32::from_bits(bits);
        gap.take(over, powf(over, exponent), drawn(&mut random));
    }
    gap
}

fn drawn(random: &mut Random) -> [f32; 2] {
    let bits = random.bits();
    [bits >> 41, bits & 0x7f_ffff].map(|fraction| f32::from_bits(0x3f80_0000 | fraction as u32))
}

fn apart(a: f32, b: f32) -> f64 {
    ((f64::from(a) - f64::from(b)) / f64::from(b)).abs()
}

impl Gap {
    fn take(&mut self, over: f32, power: f32, [sample, makeup]: [f32; 2]) {
        let gain = gain(self.ratio, over);
        // Of numbers above 0 the bits count the units.
        let units = gain.to_bits().abs_diff(power.to_bits()) as usize;
        if units >= self.counts.len() {
            self.counts.resize(units + 1, 0);
            self.first = [over, gain, power];
        }
        self.counts[units] += 1;
        let [ours, theirs] = [gain, power].map(|gain| (sample * gain) * makeup);
        self.of_gains = self.of_gains.max(apart(gain, power));
        self.of_outputs = self.of_outputs.max(apart(ours, theirs));
    }
}

impl Display for Gap {
    fn fmt(&self, to: &mut Formatter) -> fmt::Result {
        let all: u64 = self.counts.iter().sum();
        let share = |count: u64| 100.0 * count as f64 / all as f64;
        let [over, gain, power] = self.first.map(f32::to_bits);
        let differ = all - self.counts[0];
        let largest = self.counts.len() - 1;
        writeln!(to, "ratio {}: {all} values of over", self.ratio)?;
        writeln!(to, "{differ:>12} differ, {:.4} %", share(differ))?;
        for (units, &count) in self.counts.iter().enumerate() {
            writeln!(to, "{count:>12} by {units}, {:.4} %", share(count))?;
        }
        writeln!(
            to,
            "first by {largest}: over {over:08X}, gain {gain:08X}, power {power:08X}"
        )?;
        write!(
            to,
            "gains differ by a part of {:.3e} at most, outputs by {:.3e}",
            self.of_gains, self.of_outputs
        )
    }
}

#[cfg(test)]
mod tests {
    use super::*;

    #[test]
    fn gaps_are_counted() {
        let mut gap = Gap {
            ratio: 2.0,
            counts: Vec::new(),
            first: [0.0; 3],
            of_gains: 0.0,
            of_outputs: 0.0,
        };
        for power in [0.5, above(0.5), above(above(above(0.5))), above(0.5)] {
            gap.take(4.0, power, [1.0, 1.5]);
        }
        assert_eq!(gap.counts, [1, 2, 0, 1]);
        assert_eq!(gap.first, [4.0, 0.5, above(above(above(0.5)))]);
        assert!(gap.of_gains > 3.0 * 1.19e-7 && gap.of_gains < 3.0 * 1.2e-7);
    }
}
