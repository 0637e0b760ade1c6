//! A saturator's numbers: those that are accepted, their limits among them, and those that are not.
use super::rules::{Filter, HIGH, LOW, NAMES, Saturator, range};
use crate::{
    calls::{Call, Drawn, List, Setting, number::single_bytes},
    numbers::{
        NANS, RATES_REFUSED, SMALLEST, SMOOTHING, SMOOTHING_REFUSED, above, below, ends, rate,
        smoothing, wild, within,
    },
    random::Random,
};
use std::f32::consts::FRAC_1_SQRT_2;

const NOT_FINITE: [f32; 4] = [f32::INFINITY, f32::NEG_INFINITY, NANS[0], NANS[2]];
const FINITE_ENDS: [f32; 6] = [f32::MAX, f32::MIN, SMALLEST, -SMALLEST, 0.0, -0.0];
/// A filter that lets everything through, and some numbers that are accepted.
const OPEN: Filter = [1.0, 0.0, 0.0, 0.0, 0.0];
const PLAIN: Filter = [0.25, 0.5, 0.25, -0.5, 0.125];
/// The level from where a band's gain is made up.
const BORDER: f32 = 0.0001;

/// From 0 to 1.
fn unit(random: &mut Random) -> f32 {
    random.below(1 << 24) as f32 / (1 << 24) as f32
}

/// Low-pass and high-pass of one frequency. The tangent of half its angle is drawn, which gives sine and
/// cosine without those functions, whose bits differ between machines.
fn crossover(random: &mut Random) -> [Filter; 2] {
    let tangent = unit(random) * random.pick(&[1.5, 0.2, 0.02]) + 1e-3;
    let turn = 1.0 + tangent * tangent;
    let (cosine, sine) = ((2.0 - turn) / turn, 2.0 * tangent / turn);
    let alpha = sine / (2.0 * FRAC_1_SQRT_2);
    let all = 1.0 + alpha;
    let (a1, a2) = (-2.0 * cosine / all, (1.0 - alpha) / all);
    let low = (1.0 - cosine) / 2.0 / all;
    let high = (1.0 + cosine) / 2.0 / all;
    [
        [low, 2.0 * low, low, a1, a2],
        [high, -2.0 * high, high, a1, a2],
    ]
}

fn wild_filter(random: &mut Random) -> Filter {
    [(); 5].map(|()| match wild(random) {
        x if x.is_finite() => x,
        _ => random.pick(&FINITE_ENDS),
    })
}

fn filters(random: &mut Random) -> [Filter; 4] {
    match random.below(8) {
        0 => [(); 4].map(|()| wild_filter(random)),
        1 => [(); 4].map(|()| random.pick(&[OPEN, PLAIN, [0.0; 5]])),
        _ => {
            let ([low_pass, high_pass], [upper, top]) = (crossover(random), crossover(random));
            [low_pass, high_pass, upper, top]
        }
    }
}

/// All 0, some of any bits, or in the middle of the work; `lowest` is 0 for levels.
fn register(kind: u64, lowest: f32, random: &mut Random) -> f32 {
    match kind {
        0 => 0.0,
        1 if random.below(3) == 0 => wild(random),
        2 if random.below(60) == 0 => wild(random),
        _ => within(lowest, 1.0, random) * random.pick(&[1.0, 0.01, BORDER]),
    }
}

fn setting(which: usize, value: f32, pair: [Filter; 2]) -> Setting {
    Setting {
        which: which as u32,
        value,
        worked: single_bytes(pair.as_flattened()),
    }
}

fn with(at: usize, x: f32) -> [Filter; 2] {
    let mut pair = [PLAIN; 2];
    pair.as_flattened_mut()[at] = x;
    pair
}

impl Saturator {
    fn lent(&self) -> Vec<u8> {
        let numbers = [self.filters.as_flattened(), &self.dynamics].concat();
        single_bytes(&numbers)
    }

    fn with_filter_number(&self, at: usize, x: f32) -> Self {
        let mut state = self.clone();
        state.filters.as_flattened_mut()[at] = x;
        state
    }

    fn with_dynamics(&self, at: usize, c: f32) -> Self {
        let mut state = self.clone();
        state.dynamics[at] = c;
        state
    }

    /// Filters and followers through which a sample is its bands' level.
    fn open() -> Self {
        Self {
            rate: 48_000.0,
            settings: [0.0, 0.5, 1.0, 1.0, 0.5, 2.0, 200.0, 2_000.0],
            filters: [OPEN; 4],
            dynamics: [0.0, 0.0, 0.5],
            ..Self::default()
        }
    }
}

impl Drawn for Saturator {
    const BYTES: usize = 4 * 89;
    const SEED: u64 = 7;
    const STORED: u64 = 120_000;

    fn drawn(random: &mut Random) -> Self {
        let kind = random.below(6);
        let settings = [0, 1, 2, 3, 4, 5, LOW, HIGH];
        Self {
            rate: rate(random),
            settings: settings.map(|which| {
                let (lowest, highest) = range(which);
                within(lowest, highest, random)
            }),
            filters: filters(random),
            dynamics: [(); 3].map(|()| smoothing(random)),
            registers: [[(); 8]; 6].map(|filter| filter.map(|()| register(kind, -1.0, random))),
            bands: [0; 3].map(|_| [0.0, -1.0, -1.0].map(|lowest| register(kind, lowest, random))),
        }
    }

    fn making(&self) -> Call {
        Call::Make(0, self.rate, self.lent())
    }

    /// Worked numbers are beside a frequency; beside the others stands anything.
    fn settings(&self) -> Vec<Setting> {
        let values = self.settings.iter().enumerate();
        let [low_pass, high_pass, upper, top] = self.filters;
        values
            .map(|(which, &value)| match which {
                LOW => setting(which, value, [low_pass, high_pass]),
                HIGH => setting(which, value, [upper, top]),
                _ => setting(which, value, [[f32::NAN; 5]; 2]),
            })
            .collect()
    }

    fn makings() -> Vec<Call> {
        let state = Self::open();
        let mut states = Vec::new();
        for at in 0..20 {
            for x in [NOT_FINITE[at % 4], FINITE_ENDS[at % 6]] {
                states.push(state.with_filter_number(at, x));
            }
        }
        for at in 0..3 {
            let numbers = SMOOTHING.into_iter().chain(SMOOTHING_REFUSED);
            states.extend(numbers.map(|c| state.with_dynamics(at, c)));
        }
        states.iter().map(Self::making).collect()
    }

    fn at_the_limits() -> Vec<Setting> {
        let mut all = Vec::new();
        for which in 0..NAMES.len() {
            let (lowest, highest) = range(which);
            for (value, _) in ends(lowest, highest) {
                all.push(setting(which, value, [PLAIN; 2]));
            }
            all.push(setting(which, -0.0, [PLAIN; 2]));
            all.push(setting(which, lowest, [[f32::NAN; 5]; 2]));
            // The value is looked at before the worked numbers.
            all.push(setting(which, NANS[1], [[f32::NAN; 5]; 2]));
        }
        for (which, value) in [(LOW, 75.0), (HIGH, 1_500.0)] {
            for at in 0..10 {
                for x in [NOT_FINITE[at % 4], FINITE_ENDS[at % 6]] {
                    all.push(setting(which, value, with(at, x)));
                }
            }
        }
        all
    }

    fn spoilt(&self) -> Vec<Self> {
        let mut all: Vec<Self> = Vec::new();
        all.extend(RATES_REFUSED.map(|rate| Self {
            rate,
            ..self.clone()
        }));
        for which in 0..NAMES.len() {
            let (lowest, highest) = range(which);
            for (value, accepted) in ends(lowest, highest) {
                let mut state = self.clone();
                state.settings[which] = value;
                all.extend((!accepted).then_some(state));
            }
        }
        for at in 0..20 {
            all.extend(NOT_FINITE.map(|x| self.with_filter_number(at, x)));
        }
        for at in 0..3 {
            all.extend(SMOOTHING_REFUSED.map(|c| self.with_dynamics(at, c)));
        }
        all.push(Self::default());
        all
    }

    fn names(_: &mut Random) -> Vec<Vec<u8>> {
        let others: [&[u8]; 14] = [
            b"",
            b"Low_drive",
            b"low_driv",
            b"low_drive ",
            b"low_drivf",
            b"low",
            b"mid_freq",
            b"mid_levels",
            b"high_level\0",
            b"_high_freq",
            b"low-freq",
            b"bass",
            b"\xff\xfe",
            b"high_freqhigh_freqhigh_freqhigh_freqhigh_freqhigh_freqhigh_freqhigh_freq",
        ];
        let known = NAMES.map(str::as_bytes);
        known.into_iter().chain(others).map(Vec::from).collect()
    }

    /// Levels at the border and next to it, in each band; a frequency that is set while its filters ring.
    fn borders(list: &mut List<Self>) {
        let sizes = [
            BORDER,
            above(BORDER),
            below(BORDER),
            BORDER / 2.0,
            above(BORDER) / 2.0,
        ];
        list.load(&Self::open());
        list.block(sizes.into_iter().flat_map(|x| [x, 0.0, -x]).collect());
        for (at, size) in sizes.into_iter().cycle().take(60).enumerate() {
            let mut state = Self::drawn(list.random);
            state.filters = [OPEN, OPEN, PLAIN, OPEN];
            state.dynamics = [0.5, 0.5, 0.25];
            state.registers = Self::default().registers;
            state.bands[at % 3] = [size, 0.5, -0.5];
            list.load(&state);
            list.block(vec![size, -size, size, 0.0]);
        }
        for which in [LOW, HIGH] {
            let state = Self::drawn(list.random);
            list.load(&state);
            list.drawn(20);
            list.set(setting(which, range(which).0, [PLAIN, OPEN]));
            list.add(Call::Tell);
            list.drawn(20);
            list.add(Call::Tell);
        }
    }
}
