//! A tone stack's numbers: those that are accepted, their limits among them, and those that are not.
use super::rules::{NAMES, PRESENCE, Tone};
use crate::{
    calls::{Call, Drawn, List, Setting, number::single_bytes},
    numbers::{self, NANS, RATES_REFUSED, SMALLEST, above, below, rate, wild, within},
    random::Random,
};

/// The gain that a control has at least.
const LEAST_GAIN: f32 = 0.001;

/// Controls that are refused, and those that are clamped.
const NOT_CONTROLS: [f32; 4] = [-SMALLEST, above(2.0), f32::INFINITY, NANS[1]];

fn registers(random: &mut Random) -> [f32; 4] {
    let kind = random.below(4);
    [(); 4].map(|()| match kind {
        0 => 0.0,
        1 => wild(random),
        _ => within(-1.0, 1.0, random),
    })
}

fn control(random: &mut Random) -> f32 {
    match random.below(8) {
        0 => random.pick(&[LEAST_GAIN, above(LEAST_GAIN), below(LEAST_GAIN), SMALLEST]),
        _ => within(0.0, 2.0, random),
    }
}

fn setting(which: usize, value: f32, factor: f32) -> Setting {
    Setting {
        which: which as u32,
        value,
        worked: single_bytes(&[factor]),
    }
}

impl Drawn for Tone {
    const BYTES: usize = 44;
    const SEED: u64 = 6;
    const STORED: u64 = 150_000;

    fn drawn(random: &mut Random) -> Self {
        Self {
            rate: rate(random),
            model: random.below(4) as u32,
            controls: [(); 4].map(|()| control(random)),
            factor: within(0.5, 2.0, random),
            registers: registers(random),
        }
    }

    fn making(&self) -> Call {
        Call::Make(self.model, self.rate, Vec::new())
    }

    /// The worked number is beside the setting that takes one; beside the others stands anything.
    fn settings(&self) -> Vec<Setting> {
        let controls = self.controls.iter().enumerate();
        controls
            .map(|(which, &value)| {
                let takes_one = which == PRESENCE;
                setting(which, value, if takes_one { self.factor } else { f32::NAN })
            })
            .collect()
    }

    fn makings() -> Vec<Call> {
        let rates = [8_000.0, 22_050.0, 48_000.0, 96_000.0, 191_999.0, 192_000.0];
        let making = |model| rates.map(|rate| Call::Make(model, rate, Vec::new()));
        (0..4).flat_map(making).collect()
    }

    fn at_the_limits() -> Vec<Setting> {
        let clamped = [
            -0.0,
            -1.0,
            1e30,
            LEAST_GAIN,
            above(LEAST_GAIN),
            below(LEAST_GAIN),
        ];
        let ends = numbers::ends(0.0, 2.0).map(|(value, _)| value);
        let values: Vec<f32> = [&clamped[..], &ends, &NANS].concat();
        let mut all = Vec::new();
        for which in 0..4 {
            all.extend(values.iter().map(|&value| setting(which, value, 0.75)));
            all.push(setting(which, 1.0, f32::NAN));
            // The value is looked at before the worked number.
            all.push(setting(which, f32::NAN, f32::NAN));
        }
        for (factor, _) in numbers::ends(0.5, 2.0) {
            all.push(setting(PRESENCE, 1.5, factor));
        }
        for factor in [NANS[1], NANS[2], 0.0, -0.0, -1.0] {
            all.push(setting(PRESENCE, f32::INFINITY, factor));
        }
        all
    }

    fn spoilt(&self) -> Vec<Self> {
        let mut all: Vec<Self> = Vec::new();
        all.extend(RATES_REFUSED.map(|rate| Self {
            rate,
            ..self.clone()
        }));
        all.extend([4, 5, 256, u32::MAX].map(|model| Self {
            model,
            ..self.clone()
        }));
        for which in 0..4 {
            for value in NOT_CONTROLS {
                let mut state = self.clone();
                state.controls[which] = value;
                all.push(state);
            }
        }
        for (factor, accepted) in numbers::ends(0.5, 2.0) {
            all.extend((!accepted).then(|| Self {
                factor,
                ..self.clone()
            }));
        }
        all.push(Self::default());
        all
    }

    fn names(_: &mut Random) -> Vec<Vec<u8>> {
        let others: [&[u8]; 14] = [
            b"",
            b"Bass",
            b"bas",
            b"bass ",
            b" bass",
            b"bass\0",
            b"mi",
            b"mids",
            b"treble_",
            b"presenc",
            b"presencf",
            b"threshold",
            b"\xff\xfe",
            b"presencepresencepresencepresencepresencepresencepresencepresencepresence",
        ];
        let known = NAMES.map(str::as_bytes);
        known.into_iter().chain(others).map(Vec::from).collect()
    }

    /// Each model with each control at its ends, from registers of every kind.
    fn borders(list: &mut List<Self>) {
        for model in 0..4 {
            for which in 0..4 {
                for value in [0.0, -0.0, 2.0, LEAST_GAIN, below(LEAST_GAIN)] {
                    let mut state = Self::drawn(list.random);
                    state.model = model;
                    state.controls[which] = value;
                    list.load(&state);
                    list.drawn(16);
                    list.add(Call::Tell);
                }
            }
        }
    }
}
