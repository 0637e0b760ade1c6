//! An equaliser's numbers: those that are accepted, their limits among them, and those that are not.
use super::{
    names,
    rules::{BANDS, Band, Equaliser, UNITY, is_unity},
};
use crate::{
    bits::double,
    calls::{
        Call, Drawn, List, Rules, Setting,
        number::{doubles, kept},
    },
    numbers::{NANS, RATES_REFUSED, above, below, ends, rate, within},
    random::Random,
};

/// The f32 nearest 1e-6, which lies below it as f64: the last one that is unity.
const LAST_UNITY: f32 = f32::from_bits(0x3586_37bd);
const NOT_FINITE: [f64; 4] = [
    f64::INFINITY,
    f64::NEG_INFINITY,
    f64::NAN,
    f64::from_bits(0xfff0_0000_0000_0001),
];
const FINITE_ENDS: [f64; 6] = [
    f64::MAX,
    f64::MIN,
    f64::from_bits(1),
    -f64::MIN_POSITIVE,
    0.0,
    -0.0,
];
/// Some five numbers that are accepted.
const PLAIN: [f64; 5] = [1.25, -1.5, 0.5, -1.5, 0.75];

/// From 0 to 1.
fn unit(random: &mut Random) -> f64 {
    (random.bits() >> 11) as f64 / (1u64 << 53) as f64
}

/// A peaking filter's numbers. The tangent of half its angle is drawn, which gives sine and cosine
/// without those functions, whose bits differ between machines.
fn peaking(random: &mut Random) -> [f64; 5] {
    let tangent = unit(random) * random.pick(&[1.5, 0.1, 0.01]) + 1e-4;
    let turn = 1.0 + tangent * tangent;
    let (cosine, sine) = ((2.0 - turn) / turn, 2.0 * tangent / turn);
    let alpha = sine * (0.05 + 0.5 * unit(random));
    let gain = 0.5 + 1.5 * unit(random);
    let all = 1.0 + alpha / gain;
    let middle = -2.0 * cosine / all;
    [
        (1.0 + alpha * gain) / all,
        middle,
        (1.0 - alpha * gain) / all,
        middle,
        (1.0 - alpha / gain) / all,
    ]
}

/// b1 and a1 zeros of either sign, as before a setting that clears the band.
fn without_middle(random: &mut Random) -> [f64; 5] {
    let zero = |random: &mut Random| random.pick(&[0.0, -0.0]);
    [
        unit(random),
        zero(random),
        unit(random) - 0.5,
        zero(random),
        unit(random) - 0.5,
    ]
}

fn finite(random: &mut Random) -> f64 {
    let any = double(random.bits());
    match random.below(4) {
        0 => random.pick(&FINITE_ENDS),
        _ if any.is_finite() => any,
        _ => 1.0,
    }
}

fn worked(wild: bool, random: &mut Random) -> [f64; 5] {
    match random.below(8) {
        0 if wild => [(); 5].map(|()| finite(random)),
        1 => without_middle(random),
        _ => peaking(random),
    }
}

fn drawn_band(wild: bool, random: &mut Random) -> Band {
    let value = within(-12.0, 12.0, random);
    let unity = random.pick(&[0.0, -0.0, LAST_UNITY, -LAST_UNITY, f32::from_bits(1)]);
    let decibels = if random.below(4) == 0 { unity } else { value };
    Band {
        decibels,
        worked: if is_unity(decibels) {
            UNITY
        } else {
            worked(wild, random)
        },
    }
}

/// Any bits: infinities and NaN of each kind more often than others.
fn wild_register(random: &mut Random) -> f64 {
    match random.below(4) {
        0 => random.pick(&NOT_FINITE),
        1 => random.pick(&FINITE_ENDS),
        _ => double(random.bits()),
    }
}

fn registers(random: &mut Random) -> [[f64; 4]; BANDS] {
    let kind = random.below(4);
    let one_in = random.pick(&[1, 16]);
    [[(); 4]; BANDS].map(|band| {
        band.map(|()| match kind {
            0 => 0.0,
            1 if random.below(one_in) == 0 => wild_register(random),
            _ => 2.0 * unit(random) - 1.0,
        })
    })
}

fn setting(which: u32, value: f32, worked: [f64; 5]) -> Setting {
    let worked = kept(&doubles(&worked));
    Setting {
        which,
        value,
        worked,
    }
}

fn with(numbers: [f64; 5], at: usize, x: f64) -> [f64; 5] {
    let mut numbers = numbers;
    numbers[at] = x;
    numbers
}

/// Unity's numbers with one of them changed, though by no more than a zero's sign.
fn near_unity() -> Vec<[f64; 5]> {
    let ones = [1.0 + f64::EPSILON, 1.0 - f64::EPSILON / 2.0, 0.0, f64::NAN];
    let mut all: Vec<[f64; 5]> = ones.map(|x| with(UNITY, 0, x)).into();
    for at in 1..5 {
        all.extend([-0.0, f64::from_bits(1), f64::NAN].map(|x| with(UNITY, at, x)));
    }
    all
}

impl Equaliser {
    fn with_band(&self, index: usize, decibels: f32, worked: [f64; 5]) -> Self {
        let mut state = self.clone();
        state.bands[index] = Band { decibels, worked };
        state
    }
}

impl Drawn for Equaliser {
    const BYTES: usize = 4 + BANDS * (4 + 40 + 32);
    const SEED: u64 = 5;
    const STORED: u64 = 80_000;

    fn drawn(random: &mut Random) -> Self {
        let wild = random.below(8) == 0;
        Self {
            rate: rate(random),
            bands: [(); BANDS].map(|()| drawn_band(wild, random)),
            registers: registers(random),
        }
    }

    fn making(&self) -> Call {
        Call::Make(0, self.rate, Vec::new())
    }

    /// A unity band's five numbers are looked at and not used.
    fn settings(&self) -> Vec<Setting> {
        let bands = (0..).zip(self.bands);
        bands
            .map(|(which, band)| {
                let unity = is_unity(band.decibels);
                setting(
                    which,
                    band.decibels,
                    if unity { PLAIN } else { band.worked },
                )
            })
            .collect()
    }

    fn makings() -> Vec<Call> {
        Vec::new()
    }

    fn at_the_limits() -> Vec<Setting> {
        let mut all = Vec::new();
        let mut bands = (0..16).cycle();
        let mut add = |value: f32, worked| {
            all.extend(bands.next().map(|which| setting(which, value, worked)));
        };
        let near = [LAST_UNITY, above(LAST_UNITY), below(LAST_UNITY), 0.0, -0.0];
        for value in near.into_iter().flat_map(|value| [value, -value]) {
            add(value, PLAIN);
            add(value, with(PLAIN, 2, f64::NAN));
        }
        for (value, _) in ends(-12.0, 12.0) {
            add(value, PLAIN);
            add(value, [f64::NAN; 5]);
        }
        for at in 0..5 {
            for x in NOT_FINITE.into_iter().chain(FINITE_ENDS) {
                add(3.0, with(PLAIN, at, x));
            }
        }
        for which in [16, 17, 255, 1 << 31, u32::MAX] {
            all.push(setting(which, 3.0, PLAIN));
            all.push(setting(which, f32::NAN, [f64::NAN; 5]));
        }
        all
    }

    fn spoilt(&self) -> Vec<Self> {
        let mut all: Vec<Self> = Vec::new();
        all.extend(RATES_REFUSED.map(|rate| Self {
            rate,
            ..self.clone()
        }));
        for index in 0..BANDS {
            let refused = ends(-12.0, 12.0).into_iter().filter(|&(_, fair)| !fair);
            let values = refused.map(|(value, _)| value).chain([NANS[2]]);
            all.extend(values.map(|value| self.with_band(index, value, PLAIN)));
            let unity = [0.0, -0.0, LAST_UNITY, -LAST_UNITY][index % 4];
            let numbers = near_unity().into_iter();
            all.extend(numbers.map(|numbers| self.with_band(index, unity, numbers)));
            for at in 0..5 {
                let x = NOT_FINITE[(index + at) % 4];
                all.push(self.with_band(index, 3.0, with(PLAIN, at, x)));
            }
        }
        all.push(Self::default());
        all
    }

    fn names(random: &mut Random) -> Vec<Vec<u8>> {
        names::names(random)
    }

    fn named(which: u32, random: &mut Random) -> Vec<u8> {
        names::of(which, random)
    }

    /// A band that is changed while it rings: from gain to gain, through unity, and from numbers whose
    /// b1 and a1 are 0.
    fn borders(list: &mut List<Self>) {
        let from = [
            PLAIN,
            UNITY,
            with(with(PLAIN, 1, 0.0), 3, -0.0),
            with(PLAIN, 1, 0.0),
        ];
        for (index, worked) in from.into_iter().enumerate() {
            for value in [3.0, LAST_UNITY, above(LAST_UNITY), -12.0] {
                let mut state = Self::drawn(list.random);
                for registers in &mut state.registers {
                    *registers = [0.5, -0.25, 0.125, -0.0625];
                }
                let band = 4 * index;
                list.load(&state.with_band(band, 6.0, worked));
                list.add(Call::SetNamed(
                    Self::name(band as u32),
                    value,
                    setting(0, 0.0, PLAIN).worked,
                ));
                list.add(Call::Tell);
                list.drawn(8);
            }
        }
    }
}
