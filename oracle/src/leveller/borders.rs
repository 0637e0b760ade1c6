//! What only a leveller's list has: soft talk before loud, levels at the threshold, at 1e-10 and at their bounds, and
//! roots that are hard to round.
use super::rules::{FLOOR, Leveller, RATIOS};
use crate::{
    bits::single,
    calls::{Call, List},
    exact::{self, BINARY32},
    limits::{LARGEST_SAMPLE, LOWEST_FACTOR},
    numbers::{SMALLEST, above, below, smoothing, threshold_factor, within},
    random::Random,
    shapes::beside_a_middle,
    signals,
};

/// The level is the sample's size at once, and a sample comes out times its gain.
pub const QUICK: Leveller = Leveller {
    rate: 48_000.0,
    threshold: -12.0,
    factor: 0.25,
    ratio: 4.0,
    attack: 1.0,
    rising: 0.0,
    release: 100.0,
    falling: 0.0,
    makeup: 1.0,
    level: 0.0,
};

/// Soft talk, loud talk and soft talk again, with the smoothing numbers of 1 ms and 100 ms at 48,000 Hz; then soft
/// talk after a reset.
pub fn talk(list: &mut List<Leveller>) {
    for (ratio, makeup) in RATIOS.into_iter().zip([1.0, 2.5, 4.0]) {
        for (factor, soft, loud) in [
            (LOWEST_FACTOR, 1e-4, 8.0),
            (0.1, 0.01, 0.25),
            (1.0, 0.2, 4.0),
        ] {
            list.made(&Leveller {
                factor,
                ratio,
                rising: 0.979_382_3,
                falling: 0.999_791_7,
                makeup,
                ..QUICK
            });
            for size in [soft, loud, soft] {
                let samples = signals::bursts(size, 800, list.random);
                list.block(samples);
                list.add(Call::Tell);
            }
            list.add(Call::Reset);
            list.add(Call::Tell);
            let samples = signals::bursts(soft, 100, list.random);
            list.block(samples);
        }
    }
}

/// A size and its neighbours, of either sign.
fn around(size: f32) -> Vec<f32> {
    let (up, down) = (above(size), below(size));
    let sizes = [size, up, down, above(up), below(down)];
    let sizes = sizes.into_iter().filter(|x| x.abs() <= LARGEST_SAMPLE);
    sizes.flat_map(|size| [size, -size]).collect()
}

/// Levels that are the threshold's factor or next to it, so that over is 1 or next to it, and the largest ones: over is
/// 2^20 at the lowest factor. Each makeup at its limits.
pub fn thresholds(list: &mut List<Leveller>) {
    let ends = [LOWEST_FACTOR, above(LOWEST_FACTOR), 1.0, below(1.0)];
    let drawn = [(); 12].map(|()| threshold_factor(list.random));
    let factors = ends.into_iter().chain([0.25, 0.1, 0.7]).chain(drawn);
    for (at, factor) in factors.enumerate() {
        let zero = [0.0, -0.0][at % 2];
        for ratio in RATIOS {
            list.load(&Leveller {
                factor,
                ratio,
                rising: zero,
                falling: zero,
                ..QUICK
            });
            let sizes = [factor, 2.0 * factor, LARGEST_SAMPLE, 0.0];
            list.block(sizes.into_iter().flat_map(around).collect());
        }
    }
    for makeup in [0.0, -0.0, SMALLEST, below(4.0), 4.0] {
        for ratio in RATIOS {
            list.load(&Leveller {
                makeup,
                ratio,
                ..QUICK
            });
            let sizes = [0.25, 0.5, LARGEST_SAMPLE, 0.0];
            list.block(sizes.into_iter().flat_map(around).collect());
        }
    }
}

/// From 1 to 2^20: a root that is nearly in the middle of two numbers, or whose own root is; a square, a fourth power, or
/// a number next to one.
fn hard_to_root(random: &mut Random) -> f32 {
    let (digits, power) = beside_a_middle(BINARY32, random);
    let beside = |half: i64| single(exact::nearest(BINARY32, false, digits, power + 2 * half));
    let whole = match random.below(4) {
        0 => return beside(random.between(-23, -14)),
        1 => {
            let s = beside(random.between(-23, -19));
            return s * s;
        }
        2 => random.between(2, 1_024).pow(2),
        _ => random.between(2, 32).pow(4),
    } as f32;
    let near = random.pick(&[whole, above(whole), below(whole)]);
    near.min(LARGEST_SAMPLE / LOWEST_FACTOR)
}

/// A sample whose level, divided by the lowest factor, is hard to take the root of.
pub fn roots(list: &mut List<Leveller>) {
    for ratio in [2.0, 4.0] {
        list.load(&Leveller {
            factor: LOWEST_FACTOR,
            ratio,
            ..QUICK
        });
        let overs = (0..800).map(|_| hard_to_root(list.random));
        let samples = overs.map(|over| over * LOWEST_FACTOR).collect();
        list.block(samples);
    }
}

/// Samples at 1e-10 and below it, and what level they leave.
pub fn floors(list: &mut List<Leveller>) {
    let samples = [
        0.0,
        -0.0,
        FLOOR,
        -FLOOR,
        above(FLOOR),
        below(FLOOR),
        SMALLEST,
        -1e-38,
        3e-11,
        2e-10,
    ];
    let levels = [0.0, -0.0, FLOOR, 2e-10, 1e-12, SMALLEST, 0.5];
    let mut levels = levels.into_iter().cycle();
    for (rising, falling) in [(0.0, 0.0), (0.5, 0.75), (0.999, 0.25)] {
        for sample in samples {
            list.load(&Leveller {
                rising,
                falling,
                level: levels.next().unwrap_or_default(),
                ..QUICK
            });
            list.block(vec![sample; 2]);
            list.add(Call::Tell);
        }
    }
}

/// A smoothing number below a half with all its digits, so that what it leaves of 1 is rounded.
fn low_smoothing(random: &mut Random) -> f32 {
    let (low, high) = ((1.0 / 4096.0_f32).to_bits(), 0.5_f32.to_bits());
    f32::from_bits(low + random.below(u64::from(high - low)) as u32)
}

/// Numbers with which a sample of the level's own size gives another level by attack's than by release's.
fn at_the_level(random: &mut Random) -> Leveller {
    loop {
        let [rising, falling] = [(); 2].map(|()| low_smoothing(random));
        let level = within(1e-3, LARGEST_SAMPLE, random);
        let after = |c: f32| c.mul_add(level, (1.0 - c) * level);
        if after(rising) != after(falling) {
            return Leveller {
                factor: LOWEST_FACTOR,
                rising,
                falling,
                level,
                ..QUICK
            };
        }
    }
}

/// A sample of the level's own size takes the release number. The level at its bounds.
pub fn levels(list: &mut List<Leveller>) {
    for _ in 0..20 {
        let state = at_the_level(list.random);
        list.load(&state);
        list.block(vec![state.level]);
        list.add(Call::Tell);
        list.drawn(60);
    }
    let bounds = [0.0, -0.0, LARGEST_SAMPLE, below(LARGEST_SAMPLE), SMALLEST];
    for level in bounds.into_iter().cycle().take(20) {
        let [rising, falling] = [(); 2].map(|()| smoothing(list.random));
        list.load(&Leveller {
            factor: LOWEST_FACTOR,
            rising,
            falling,
            level,
            ..QUICK
        });
        list.block(vec![-level, LARGEST_SAMPLE, above(level).min(1.0), 0.0]);
        list.add(Call::Tell);
    }
}
