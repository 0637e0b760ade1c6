//! Lists of calls: the one that is stored, and new ones.
use super::{
    call, numbers,
    rules::{Gate, LONGEST_COUNT},
    setting::{NAMES, Setting},
};
use crate::{
    calls::{Call, List},
    limits::{LARGEST_SAMPLE, LONGEST_BLOCK},
    numbers::{RATES_REFUSED, SAMPLES_REFUSED, SMOOTHING, SMOOTHING_REFUSED, above, below},
    random::Random,
    signals,
};

/// How many samples of done blocks the stored list has, at least.
const STORED: u64 = 300_000;

/// The hold that a made gate had when most of the stored list was made, in milliseconds.
pub(super) const FORMER_HOLD: f32 = 50.0;

/// The stored list: every refusal, every length, the borders; a made gate with nothing set but its hold; then
/// sessions; a call of each number that no call has; the same again of blocks with a record; how long a made gate
/// holds, and a kept one; what a set hold tells; how long it has been quiet; and a call that ends too soon.
pub fn stored() -> Vec<u8> {
    let mut random = Random::new(4);
    let mut list = List::<Gate>::new(&mut random);
    list.on_the_made_state();
    list.makings();
    list.limits();
    list.borders();
    list.lengths();
    list.refused_samples();
    list.kept_states_refused();
    list.until(STORED, List::session);
    list.at_the_level();
    list.add(Call::Unknown(u32::MAX));
    list.bytes.extend([0; 64]);
    list.bytes.extend([3; 64]);
    list.records();
    list.holds();
    list.words();
    list.quiet();
    list.ends_too_soon();
    list.bytes
}

/// Settings at 8,000 Hz with short times, so that a block opens and closes the gate many times.
pub(super) const QUICK: Gate = Gate {
    rate: 8_000.0,
    threshold: -12.0,
    factor: 0.25,
    ratio: 4.0,
    attack: 1.0,
    opening: 0.5,
    release: 10.0,
    closing: 0.875,
    hold: 1.0,
    rising: 0.3,
    falling: 0.7,
    level: 0.0,
    state: 0.0,
    counter: 0,
    quiet: 0,
};

pub(super) const fn settings(gate: &Gate) -> [Setting; 5] {
    [
        Setting::Threshold(gate.threshold, gate.factor),
        Setting::Ratio(gate.ratio),
        Setting::Attack(gate.attack, gate.opening),
        Setting::Release(gate.release, gate.closing),
        Setting::Hold(gate.hold),
    ]
}

/// Names that are no setting: near ones, other stages' ones, bytes that are no text, and one too long.
pub(super) const OTHERS: [&[u8]; 12] = [
    b"",
    b"Hold",
    b"hold ",
    b"hol",
    b"ratio\0",
    b"threshol",
    b"thresholds",
    b"band_3",
    b"bass",
    b"releasf",
    b"\xff\xfe",
    b"attackattackattackattackattackattackattackattack",
];

impl List<'_, Gate> {
    pub(super) fn drawn(&mut self, gate: &Gate, length: usize) {
        let samples = signals::drawn(gate.factor, length, self.random);
        self.block(samples);
    }

    pub(super) fn set(&mut self, setting: Setting, worked: f32) {
        if self.random.coin() {
            self.add(call::typed(setting));
        } else {
            let name = setting.name().as_bytes();
            self.add(call::named(name, setting.value(), worked));
        }
    }

    /// The worked number is beside a setting that takes one; beside the others stands anything.
    fn set_all(&mut self, gate: &Gate) {
        for setting in settings(gate) {
            let worked = setting.worked().unwrap_or(f32::NAN);
            self.set(setting, worked);
        }
    }

    /// A gate made, with the former hold set. For that setting nothing is drawn, so that the calls behind it stay the
    /// ones that they were, and their answers too.
    fn made_as_formerly(&mut self, gate: &Gate) {
        self.add(call::make(gate.rate, gate.rising, gate.falling));
        let hold = call::typed(Setting::Hold(FORMER_HOLD));
        self.bytes.extend(call::bytes(&hold, false));
    }

    /// A gate made, and its five settings set.
    pub(super) fn made(&mut self, gate: &Gate) {
        self.made_as_formerly(gate);
        self.set_all(gate);
    }

    pub(super) fn read_all(&mut self) {
        for name in NAMES {
            self.add(Call::Read(name.into()));
        }
    }

    /// A made gate with nothing set but the former hold: what it reads, and how long it holds.
    fn on_the_made_state(&mut self) {
        self.made_as_formerly(&Gate {
            rising: 0.0,
            falling: 0.0,
            ..QUICK
        });
        self.read_all();
        let mut samples = vec![0.0; 600];
        samples[20..30].fill(1.5);
        self.block(samples.clone());
        self.add(Call::Reset);
        self.block(samples);
    }

    fn makings(&mut self) {
        for rate in RATES_REFUSED {
            self.add(call::make(rate, 0.5, 0.5));
            self.add(call::make(rate, 1.0, f32::NAN));
        }
        for c in SMOOTHING_REFUSED {
            self.add(call::make(48_000.0, c, 0.0));
            self.add(call::make(48_000.0, 0.0, c));
            self.add(Call::Block(vec![1.0; 3], 3));
            self.add(Call::Read(b"hold".into()));
        }
        for rate in [8_000.0, 192_000.0, 44_100.0, 11_025.0] {
            for c in SMOOTHING {
                self.made(&Gate {
                    rate,
                    rising: c,
                    falling: c,
                    ..QUICK
                });
                self.drawn(&QUICK, 20);
            }
        }
    }

    /// Each setting at its limits and just outside them, and each worked number so.
    fn limits(&mut self) {
        self.made(&QUICK);
        for (setting, _) in numbers::at_the_limits() {
            self.set(setting, setting.worked().unwrap_or(0.0));
            self.add(Call::Read(setting.name().into()));
            self.add(Call::Block(vec![0.5, -0.5, 0.0, 0.125], 4));
        }
        for name in OTHERS {
            self.add(call::named(name, f32::NAN, f32::NAN));
            self.add(Call::Read(name.into()));
        }
        self.read_all();
    }

    /// Holds that are counted otherwise in another order, states around the full gain, and samples of the
    /// level's own size.
    fn borders(&mut self) {
        for (hold, rate) in numbers::HOLDS {
            self.made(&Gate {
                hold,
                rate,
                ..QUICK
            });
            self.block(vec![1.0]);
        }
        let state = numbers::HALF_WAY_OPEN;
        for state in [state, above(state), below(state)] {
            self.add(call::load(Gate { state, ..QUICK }));
            self.block(vec![1.0, 0.5]);
        }
        for level in (1..40).map(|part| part as f32 / 40.0) {
            self.add(call::load(Gate { level, ..QUICK }));
            self.block(vec![level, -level]);
        }
    }

    /// A sample of the level's own size takes the release number, and here the attack number would give other bits.
    fn at_the_level(&mut self) {
        let level = f32::from_bits(0x3ad9_9ffd);
        self.add(call::load(Gate {
            rising: f32::from_bits(0x1844_8a78),
            falling: f32::from_bits(0x3a09_f8ac),
            level,
            ..QUICK
        }));
        self.block(vec![level]);
    }

    /// Blocks of each length around the borders, the two lengths the same or not.
    fn lengths(&mut self) {
        self.made(&QUICK);
        for length in [0, 1, 2, 3, LONGEST_BLOCK - 1, LONGEST_BLOCK] {
            self.drawn(&QUICK, length);
        }
        let bad = [f32::NAN; LONGEST_BLOCK + 1];
        for length in [0, 1, 2, LONGEST_BLOCK, LONGEST_BLOCK + 1] {
            for places in [0, 1, 2, LONGEST_BLOCK, LONGEST_BLOCK + 1] {
                let refused = length != places || length > LONGEST_BLOCK;
                let few = length.min(places) <= 2 || length > places;
                if refused && few {
                    self.add(Call::Block(bad[..length].to_vec(), places));
                }
            }
        }
        self.add(Call::Block(bad.to_vec(), bad.len()));
        self.add(Call::Block(vec![0.25; bad.len()], bad.len()));
        self.drawn(&QUICK, 100);
    }

    /// The largest sample, and each kind of refused one at the first place, within and at the last.
    fn refused_samples(&mut self) {
        self.made(&QUICK);
        for largest in [LARGEST_SAMPLE, -LARGEST_SAMPLE] {
            self.block(vec![largest; 4]);
        }
        for sample in SAMPLES_REFUSED {
            for place in [0, 1, 7, 30] {
                let mut samples = signals::drawn(QUICK.factor, 31, self.random);
                samples[place] = sample;
                samples[30] = sample;
                self.add(Call::Block(samples, 31));
            }
        }
        let mut samples = vec![0.5; LONGEST_BLOCK];
        samples[LONGEST_BLOCK - 1] = above(LARGEST_SAMPLE);
        self.add(Call::Block(samples, LONGEST_BLOCK));
        self.drawn(&QUICK, 100);
    }

    /// A kept state spoilt in each way that 9 has, with every call on it.
    fn kept_states_refused(&mut self) {
        for gate in numbers::spoilt(&Gate {
            level: 0.5,
            state: 0.5,
            counter: 3,
            ..QUICK
        }) {
            self.refused_by_9(gate);
        }
        self.add(call::load(Gate {
            counter: LONGEST_COUNT,
            level: LARGEST_SAMPLE,
            state: 1.0,
            ..QUICK
        }));
        self.drawn(&QUICK, 200);
    }

    fn ends_too_soon(&mut self) {
        let torn = call::bytes(&Call::Record(vec![0.5; 2], 2, 2), false);
        self.bytes.extend(&torn[..torn.len() - 1]);
    }
}
