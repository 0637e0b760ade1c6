//! How long a gate holds: one made with nothing set but its threshold, and one kept from when made gates held 50 ms.
use super::{call, cases::FORMER_HOLD, rules::Gate, setting::Setting};
use crate::{
    calls::{Call, List},
    limits::LONGEST_BLOCK,
};

/// A threshold below the loud sample; the made one, of factor 1, is above it.
pub(super) const HEARD: Setting = Setting::Threshold(-12.0, 0.25);
pub(super) const LOUD: f32 = 0.5;

/// A gate made when made gates held 50 ms, its threshold set, some silence after a loud sample.
pub(super) const KEPT: Gate = Gate {
    rate: 48_000.0,
    threshold: -12.0,
    factor: 0.25,
    ratio: 10.0,
    attack: 1.0,
    opening: 0.0,
    release: 100.0,
    closing: 0.0,
    hold: FORMER_HOLD,
    rising: 0.0,
    falling: 0.0,
    level: 0.0,
    state: 1.0,
    counter: 300,
    quiet: 0,
};

impl List<'_, Gate> {
    pub(super) fn holds(&mut self) {
        for (rate, samples) in [(48_000.0, 4_800), (8_000.0, 800)] {
            self.add(call::make(rate, 0.0, 0.0));
            self.read_all();
            self.set(HEARD, 0.25);
            self.one_loud(samples, List::record);
            self.one_loud(samples, List::block);
        }
        for rate in [11_025.0, 22_050.0, 44_100.0, 96_000.0, 192_000.0] {
            self.add(call::make(rate, 0.0, 0.0));
            self.set(HEARD, 0.25);
            self.block(vec![LOUD]);
        }
        for (rate, samples) in [(48_000.0, 2_400), (8_000.0, 400)] {
            self.add(call::load(Gate { rate, ..KEPT }));
            self.record(vec![0.0; KEPT.counter as usize + 1]);
            self.one_loud(samples, List::record);
            self.add(Call::Reset);
            self.read_all();
            self.set(HEARD, 0.25);
            self.one_loud(samples, List::block);
        }
    }

    /// Silence, one loud sample and silence again: so many samples with the loud one, the last of them in a block of its
    /// own; and one more.
    fn one_loud(&mut self, samples: usize, block: fn(&mut Self, Vec<f32>)) {
        let mut signal = vec![0.0; samples - 1];
        signal[0] = LOUD;
        block(self, vec![0.0; 3]);
        for part in signal.chunks(LONGEST_BLOCK) {
            block(self, part.to_vec());
        }
        block(self, vec![0.0]);
        block(self, vec![0.0]);
    }
}
