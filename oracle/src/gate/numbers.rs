//! A gate's numbers: those that are accepted, their limits among them, and those that are not.
use super::{
    rules::{Gate, LONGEST_COUNT, LONGEST_HOLD},
    setting::Setting,
};
use crate::{
    limits::{LARGEST_SAMPLE, LOWEST_FACTOR},
    numbers::{
        NANS, RATES_REFUSED, SMALLEST, SMOOTHING, SMOOTHING_REFUSED, ends, level, rate, smoothing,
        threshold_factor, within,
    },
    random::Random,
};

/// Holds and rates whose samples another order of the two products, or sums in f64, count otherwise.
pub const HOLDS: [(f32, f32); 5] = [
    (33.391_163, 79_542.0),
    (128.360_8, 12_683.0),
    (0.258_344_14, 139_349.0),
    (16.088_669, 107_094.0),
    (250.437_5, 16_000.0),
];

/// The state that a step halfway to 1 takes to 0.999, from where the gain is 1.
pub const HALF_WAY_OPEN: f32 = 2.0 * 0.999 - 1.0;

/// Mostly so short that it is a few samples; then any hold, the longest among them.
fn hold(random: &mut Random) -> f32 {
    match random.below(4) {
        0 => within(0.0, LONGEST_HOLD, random),
        1 => random.pick(&[0.0, 1.0 / 16.0, 0.125, 0.041_67, SMALLEST]),
        _ => random.below(1 << 12) as f32 / (1 << 10) as f32,
    }
}

/// Some steps above or below a hold from 0 on.
fn beside(hold: f32, steps: i32) -> f32 {
    f32::from_bits(hold.to_bits().saturating_add_signed(steps)).min(LONGEST_HOLD)
}

/// A hold that comes to a whole number of samples, where one is near; or a step or two from it.
fn whole_hold(samples: u64, rate: f32, random: &mut Random) -> f32 {
    let near = samples as f32 * 1_000.0 / rate;
    let is_whole = |&hold: &f32| (hold * 0.001) * rate == samples as f32;
    let mut holds = (-2..=2).map(|steps| beside(near, steps));
    let steps = random.pick(&[-2, -1, 0, 0, 0, 0, 1, 2]);
    beside(holds.find(is_whole).unwrap_or(near), steps)
}

/// A hold that is a whole number of samples or nearly one, or so of halves of milliseconds; or any.
pub fn counted_hold(rate: f32, random: &mut Random) -> f32 {
    let most = rate as u64 / 2;
    match random.below(8) {
        0 => hold(random),
        1 => random.below(1_001) as f32 / 2.0,
        2 | 3 => whole_hold(random.below(40), rate, random),
        4 => whole_hold(1 << random.below(17), rate, random),
        _ => whole_hold(random.below(most + 1), rate, random),
    }
}

/// A quiet count: mostly so near the top that a few blocks reach it; then few, around a power of two, or any.
pub fn quiet(random: &mut Random) -> u32 {
    match random.below(8) {
        0 => random.below(3) as u32,
        1 => (1 << random.below(32)) - random.below(2) as u32,
        2 => random.bits32(),
        _ => u32::MAX - random.below(60) as u32,
    }
}

/// A gate that 9 accepts, in the middle of its work.
pub fn acceptable(random: &mut Random) -> Gate {
    Gate {
        rate: rate(random),
        threshold: within(-80.0, 0.0, random),
        factor: threshold_factor(random),
        ratio: within(1.0, 100.0, random),
        attack: within(0.1, 100.0, random),
        opening: smoothing(random),
        release: within(1.0, 1_000.0, random),
        closing: smoothing(random),
        hold: hold(random),
        rising: smoothing(random),
        falling: smoothing(random),
        level: level(random),
        state: within(0.0, 1.0, random) * random.pick(&[1.0, 1e-38, 1e-44]),
        counter: random.pick(&[0, 1, 2, 100, LONGEST_COUNT]),
        quiet: 0,
    }
}

fn smoothing_ends() -> impl Iterator<Item = (f32, bool)> {
    let accepted = SMOOTHING.map(|c| (c, true));
    accepted
        .into_iter()
        .chain(SMOOTHING_REFUSED.map(|c| (c, false)))
}

/// A number that a setting takes: the setting with it, and whether it is accepted.
type Taken = (Setting, bool);

/// Each setting with its value at the limits, and with its worked number there; whether it is accepted.
pub fn at_the_limits() -> Vec<Taken> {
    let mut all: Vec<Taken> = Vec::new();
    let mut add = |numbers: &[(f32, bool)], setting: fn(f32) -> Setting| {
        all.extend(numbers.iter().map(|&(x, accepted)| (setting(x), accepted)));
    };
    let smoothing: Vec<_> = smoothing_ends().collect();
    add(&ends(-80.0, 0.0), |x| Setting::Threshold(x, 0.25));
    add(&[(-0.0, true)], |x| Setting::Threshold(x, 1.0));
    add(&ends(LOWEST_FACTOR, 1.0), |x| Setting::Threshold(-12.0, x));
    add(&ends(1.0, 100.0), Setting::Ratio);
    add(&ends(0.1, 100.0), |x| Setting::Attack(x, 0.5));
    add(&smoothing, |x| Setting::Attack(1.0, x));
    add(&ends(1.0, 1_000.0), |x| Setting::Release(x, 0.5));
    add(&smoothing, |x| Setting::Release(10.0, x));
    add(&ends(0.0, LONGEST_HOLD), Setting::Hold);
    add(&[(-0.0, true)], Setting::Hold);
    // The value is looked at before the worked number.
    add(&[(f32::NAN, false)], |x| Setting::Threshold(x, x));
    add(&[(0.0, false)], |x| Setting::Attack(x, 1.0));
    add(&[(0.5, false)], |x| Setting::Release(x, 1.0));
    all
}

pub fn refused_setting(random: &mut Random) -> Setting {
    let refused = at_the_limits()
        .into_iter()
        .filter(|&(_, accepted)| !accepted);
    random.pick(&refused.map(|(setting, _)| setting).collect::<Vec<_>>())
}

/// The gate spoilt in one number, in every way that 9 has.
pub fn spoilt(gate: &Gate) -> Vec<Gate> {
    let mut all: Vec<Gate> = Vec::new();
    let refused = at_the_limits()
        .into_iter()
        .filter(|&(_, accepted)| !accepted);
    all.extend(refused.map(|(setting, _)| setting.taken(*gate)));
    all.extend(RATES_REFUSED.map(|rate| Gate { rate, ..*gate }));
    for c in SMOOTHING_REFUSED {
        all.push(Gate { rising: c, ..*gate });
        all.push(Gate {
            falling: c,
            ..*gate
        });
    }
    for (x, accepted) in ends(0.0, LARGEST_SAMPLE)
        .into_iter()
        .chain([(NANS[2], false)])
    {
        all.extend((!accepted).then_some(Gate { level: x, ..*gate }));
    }
    for (x, accepted) in ends(0.0, 1.0).into_iter().chain([(NANS[1], false)]) {
        all.extend((!accepted).then_some(Gate { state: x, ..*gate }));
    }
    for counter in [LONGEST_COUNT + 1, 1 << 32, u64::MAX] {
        all.push(Gate { counter, ..*gate });
    }
    all.push(Gate::default());
    all
}
