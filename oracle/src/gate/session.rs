//! Sessions: a gate carried through calls drawn at random.
use super::{
    call,
    cases::{OTHERS, settings},
    numbers,
    records::OVER,
    rules::Gate,
    setting::{NAMES, Setting},
};
use crate::{
    calls::{Call, List},
    limits::LONGEST_BLOCK,
    numbers::{RATES_REFUSED, SMOOTHING_REFUSED, refused_sample},
    signals,
};

impl List<'_, Gate> {
    /// A gate made and set, or handed back, and blocks on it between calls that change it or are
    /// refused.
    pub(super) fn session(&mut self) {
        let mut gate = numbers::acceptable(self.random);
        match self.random.below(16) {
            0 => self.refused_making(),
            1 => {
                let spoilt = self.random.pick(&numbers::spoilt(&gate));
                self.refused_by_9(spoilt);
            }
            _ => {}
        }
        if self.random.below(4) > 0 {
            self.made(&gate);
        } else {
            self.add(call::load(gate));
        }
        for _ in 0..self.random.between(1, 8) {
            let length = signals::length(self.random);
            self.drawn(&gate, length);
            match self.random.below(6) {
                0 => self.add(Call::Reset),
                1 => self.refused(&gate),
                2 | 3 => gate = self.changed(gate),
                _ => {}
            }
        }
    }

    /// A making that is refused, and a call on what it gives.
    fn refused_making(&mut self) {
        let rate = self.random.pick(&RATES_REFUSED);
        let c = self.random.pick(&SMOOTHING_REFUSED);
        let making = match self.random.below(3) {
            0 => call::make(rate, 0.5, c),
            1 => call::make(48_000.0, 0.5, c),
            _ => call::make(48_000.0, c, 0.5),
        };
        self.add(making);
        self.add(Call::Block(vec![0.5; 3], 3));
    }

    /// A setting as another gate has it; `gate` with it taken.
    pub(super) fn changed(&mut self, gate: Gate) -> Gate {
        let other = numbers::acceptable(self.random);
        let setting = self.random.pick(&settings(&other));
        self.set(setting, setting.worked().unwrap_or(f32::INFINITY));
        self.add(Call::Read(setting.name().into()));
        setting.taken(gate)
    }

    /// A call that is refused, so nothing changes.
    pub(super) fn refused(&mut self, gate: &Gate) {
        match self.random.below(50) {
            0 => {
                let samples = signals::drawn(gate.factor, LONGEST_BLOCK + 1, self.random);
                self.add(Call::Block(samples, LONGEST_BLOCK + 1));
            }
            1..10 => {
                let name = self.random.pick(&OTHERS);
                self.add(call::named(name, 1.0, 0.5));
            }
            10..30 => {
                let setting = numbers::refused_setting(self.random);
                self.set(setting, setting.worked().unwrap_or(0.0));
            }
            30..40 => {
                let mut samples = signals::drawn(gate.factor, 20, self.random);
                samples[self.random.below(20) as usize] = refused_sample(self.random);
                self.add(Call::Block(samples, 20));
            }
            _ => {
                let samples = signals::drawn(gate.factor, 10, self.random);
                let places = self.random.below(10) as usize;
                self.add(Call::Block(samples, places));
            }
        }
    }

    /// Every call on a gate that 9 refuses, some refused by more.
    pub(super) fn refused_by_9(&mut self, gate: Gate) {
        self.add(call::load(gate));
        self.set(Setting::Hold(f32::NAN), 0.0);
        self.add(call::named(b"none", 1.0, 1.0));
        let name = self.random.pick(&NAMES);
        self.add(Call::Read(name.into()));
        self.add(Call::Read(b"none".into()));
        self.add(Call::Reset);
        self.add(Call::Block(vec![0.5, f32::NAN], 2));
        let places = self.random.below(3) as usize;
        self.add(Call::Block(vec![0.5], places));
    }

    /// A gate made and set, or handed back; records and plain blocks on it, between calls that change it or are refused.
    pub(super) fn recorded_session(&mut self) {
        let mut gate = numbers::acceptable(self.random);
        if self.random.below(16) == 0 {
            let spoilt = self.random.pick(&numbers::spoilt(&gate));
            self.add(call::load(spoilt));
            self.drawn_refused_record(&gate);
        }
        if self.random.below(4) > 0 {
            self.made(&gate);
        } else {
            self.add(call::load(gate));
        }
        for _ in 0..self.random.between(1, 8) {
            let length = signals::length(self.random);
            if self.random.below(4) == 0 {
                self.drawn(&gate, length);
            } else {
                self.drawn_record(&gate, length);
            }
            match self.random.below(6) {
                0 => self.add(Call::Reset),
                1 => self.drawn_refused_record(&gate),
                2 => gate = self.changed(gate),
                3 => gate = self.held(gate),
                _ => {}
            }
        }
    }

    /// A hold of a few samples, so that aims outlast loudness by so many.
    fn held(&mut self, gate: Gate) -> Gate {
        let samples = self.random.below(40) as f32;
        let setting = Setting::Hold(samples * 1_000.0 / gate.rate);
        self.set(setting, f32::NAN);
        setting.taken(gate)
    }

    /// A record that 7, 8 or 6 refuses, or more of them; an empty one may be done.
    pub(super) fn drawn_refused_record(&mut self, gate: &Gate) {
        let length = match self.random.below(40) {
            0 => OVER,
            _ => self.random.below(30) as usize,
        };
        let mut samples = signals::drawn(gate.factor, length, self.random);
        let other = self.random.below(30) as usize;
        let (places, aims) = match self.random.below(4) {
            0 => (other, length),
            1 => (length, other),
            2 => (other, other),
            _ => (length, length),
        };
        if length > 0 && (length == places && length == aims || self.random.coin()) {
            samples[self.random.below(length as u64) as usize] = refused_sample(self.random);
        }
        self.add(Call::Record(samples, places, aims));
    }
}
