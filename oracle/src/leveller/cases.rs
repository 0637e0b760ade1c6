//! A leveller's numbers: those that are accepted, their limits among them, and those that are not.
use super::{
    borders::{floors, levels, roots, talk, thresholds},
    refusals::{both_forms, every_call, pairs, pairs_with_9, spoilt},
    rules::{ATTACK, FLOOR, Leveller, MAKEUP, NAMES, RATIO, RATIOS, RELEASE, THRESHOLD, range},
};
use crate::{
    calls::{Call, Drawn, List, Rules, Setting, number::single_bytes},
    limits::{LARGEST_SAMPLE, LOWEST_FACTOR},
    numbers::{
        NANS, RATES_REFUSED, SMALLEST, SMOOTHING, SMOOTHING_REFUSED, above, below, ends, level,
        rate, smoothing, threshold_factor, within,
    },
    random::Random,
    signals,
};

/// Ratios that are refused: the neighbours of those that aren't, others that the Rust takes, and what is no ratio.
const RATIOS_REFUSED: [f32; 19] = [
    above(1.0),
    below(1.0),
    above(2.0),
    below(2.0),
    above(4.0),
    below(4.0),
    3.0,
    8.0,
    20.0,
    above(20.0),
    0.0,
    -0.0,
    0.5,
    -1.0,
    -2.0,
    f32::INFINITY,
    f32::NEG_INFINITY,
    NANS[0],
    NANS[2],
];

/// More values of a setting with a range: at the Rust's own limits, -0, and what is refused.
fn others(which: usize) -> Vec<f32> {
    match which {
        THRESHOLD => vec![-60.0, below(-60.0), -0.0, -12.0, NANS[1]],
        ATTACK => vec![0.0, -1.0, NANS[2]],
        RELEASE => vec![10.0, below(10.0), 0.5, NANS[1]],
        _ => {
            let taken = [-0.0, 1.0, SMALLEST];
            let decibels = [-12.0, below(-12.0), 24.0, above(24.0), NANS[2]];
            [&taken[..], &decibels].concat()
        }
    }
}

/// The highest value that a setting takes.
pub const fn good(which: usize) -> f32 {
    if which == RATIO { 4.0 } else { range(which).1 }
}

/// A worked number that the setting takes; beside one that takes none stands anything.
const fn some_worked(which: usize) -> f32 {
    match which {
        THRESHOLD => 0.25,
        RATIO => NANS[1],
        MAKEUP => f32::NEG_INFINITY,
        _ => 0.5,
    }
}

/// A threshold's factor: now and then a size that the samples lie around.
fn factor(random: &mut Random) -> f32 {
    match random.below(4) {
        0 => random.pick(&signals::LOUD[..3]),
        _ => threshold_factor(random),
    }
}

/// A follower's two numbers: now and then 0, so that the level is the sample's size.
fn follower(random: &mut Random) -> [f32; 2] {
    match random.below(4) {
        0 => [0.0; 2],
        _ => [(); 2].map(|()| smoothing(random)),
    }
}

fn makeup(random: &mut Random) -> f32 {
    match random.below(8) {
        0 => random.pick(&[0.0, -0.0, SMALLEST]),
        1 => 4.0,
        2 | 3 => 1.0,
        _ => within(0.25, 4.0, random),
    }
}

fn setting(which: usize, value: f32, worked: f32) -> Setting {
    Setting {
        which: which as u32,
        value,
        worked: single_bytes(&[worked]),
    }
}

/// Values of a setting: at its limits, outside them, and others.
fn values(which: usize) -> Vec<f32> {
    if which == RATIO {
        return [&RATIOS[..], &RATIOS_REFUSED].concat();
    }
    let (lowest, highest) = range(which);
    let ends = ends(lowest, highest).map(|(value, _)| value);
    [&ends[..], &others(which)].concat()
}

/// Worked numbers of a setting that takes one, those that are refused among them.
fn worked_numbers(which: usize) -> Vec<f32> {
    match which {
        THRESHOLD => {
            let ends = ends(LOWEST_FACTOR, 1.0).map(|(factor, _)| factor);
            [&ends[..], &[0.0, -0.0, -1.0, NANS[1], NANS[2]]].concat()
        }
        ATTACK | RELEASE => [&SMOOTHING[..], &SMOOTHING_REFUSED].concat(),
        _ => Vec::new(),
    }
}

impl Drawn for Leveller {
    const BYTES: usize = 40;
    const SEED: u64 = 8;
    const STORED: u64 = 150_000;

    fn drawn(random: &mut Random) -> Self {
        let [rising, falling] = follower(random);
        Self {
            rate: rate(random),
            threshold: within(-80.0, 0.0, random),
            factor: factor(random),
            ratio: random.pick(&[1.0, 2.0, 2.0, 4.0, 4.0]),
            attack: within(0.1, 100.0, random),
            rising,
            release: within(1.0, 1_000.0, random),
            falling,
            makeup: makeup(random),
            level: level(random),
        }
    }

    fn making(&self) -> Call {
        Call::Make(0, self.rate, single_bytes(&[self.rising, self.falling]))
    }

    fn settings(&self) -> Vec<Setting> {
        let order = [RATIO, MAKEUP, THRESHOLD, ATTACK, RELEASE];
        let kept = order.map(|which| (which, self.kept(which)));
        kept.map(|(which, (value, worked))| setting(which, value, worked))
            .into()
    }

    /// Each number at its limits beside one that is accepted, and beside one that isn't.
    fn makings() -> Vec<Call> {
        let numbers = [&SMOOTHING[..], &SMOOTHING_REFUSED].concat();
        let pairs = numbers.iter().flat_map(|&c| [[c, 0.5], [0.5, c], [c, c]]);
        pairs
            .map(|pair| Call::Make(0, 48_000.0, single_bytes(&pair)))
            .collect()
    }

    fn at_the_limits() -> Vec<Setting> {
        let mut all = Vec::new();
        for which in 0..NAMES.len() {
            let values = values(which).into_iter();
            all.extend(values.map(|value| setting(which, value, some_worked(which))));
            let worked = worked_numbers(which).into_iter();
            all.extend(worked.map(|worked| setting(which, good(which), worked)));
            // The value is looked at before the worked number.
            all.extend([f32::NAN, -100.0].map(|value| setting(which, value, f32::NAN)));
            all.push(setting(which, good(which), 1.0));
        }
        all
    }

    fn spoilt(&self) -> Vec<Self> {
        let mut all: Vec<Self> = Vec::new();
        all.extend(RATES_REFUSED.map(|rate| Self { rate, ..*self }));
        for which in 0..NAMES.len() {
            let (kept, worked) = self.kept(which);
            let values = values(which).into_iter();
            all.extend(values.map(|value| self.with(which, value, worked)));
            let numbers = worked_numbers(which).into_iter();
            all.extend(numbers.map(|worked| self.with(which, kept, worked)));
        }
        let levels = ends(0.0, LARGEST_SAMPLE).map(|(level, _)| level);
        let levels = levels.into_iter().chain([-FLOOR, NANS[1], NANS[2]]);
        all.extend(levels.map(|level| Self { level, ..*self }));
        all.push(Self::default());
        all.retain(|state| !state.is_acceptable());
        all
    }

    fn names(_: &mut Random) -> Vec<Vec<u8>> {
        let others: [&[u8]; 16] = [
            b"",
            b"Threshold",
            b"threshol",
            b"thresholds",
            b" threshold",
            b"ratio\0",
            b"rati",
            b"ratip",
            b"attack ",
            b"releas",
            b"releasf",
            b"make-up",
            b"makeups",
            b"hold",
            b"\xff\xfe",
            b"makeupmakeupmakeupmakeupmakeupmakeupmakeupmakeupmakeupmakeupmakeup",
        ];
        let known = NAMES.map(str::as_bytes);
        known.into_iter().chain(others).map(Vec::from).collect()
    }

    fn before_making(list: &mut List<Self>) {
        every_call(list);
    }

    fn borders(list: &mut List<Self>) {
        for part in [
            talk,
            thresholds,
            roots,
            floors,
            levels,
            both_forms,
            pairs,
            pairs_with_9,
            spoilt,
        ] {
            part(list);
        }
    }
}
