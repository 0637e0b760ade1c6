//! Sessions: a state carried through calls drawn at random.
use super::{Call, Drawn, List};
use crate::{
    limits::LONGEST_BLOCK,
    numbers::{RATES_REFUSED, refused_sample},
    signals,
};

impl<S: Drawn> List<'_, S> {
    /// A state made and set, or handed back, and blocks on it between calls that change it or are
    /// refused.
    pub(super) fn session(&mut self) {
        let state = S::drawn(self.random);
        match self.random.below(16) {
            0 => self.refused_making(),
            1 => {
                let spoilt = state.spoilt();
                let at = self.random.below(spoilt.len() as u64) as usize;
                self.load(&spoilt[at]);
                self.calls_refused_by_9();
            }
            _ => {}
        }
        if self.random.below(4) > 0 {
            self.made(&state);
        } else {
            self.load(&state);
        }
        for _ in 0..self.random.between(1, 8) {
            let length = signals::length(self.random);
            self.drawn(length);
            match self.random.below(6) {
                0 => self.add(Call::Reset),
                1 => self.refused_call(),
                2 | 3 => self.changed(),
                _ => {}
            }
        }
        if self.random.coin() {
            self.add(Call::Tell);
        }
    }

    /// A making that is refused, and calls on what it gives.
    fn refused_making(&mut self) {
        let makings = S::makings();
        let making = match S::drawn(self.random).making() {
            Call::Make(model, _, worked) if makings.is_empty() || self.random.coin() => {
                Call::Make(model, self.random.pick(&RATES_REFUSED), worked)
            }
            _ => makings[self.random.below(makings.len() as u64) as usize].clone(),
        };
        self.add(making);
        self.add(Call::Tell);
        self.add(Call::Block(vec![0.5; 3], 3));
    }

    /// A setting as another state has it.
    fn changed(&mut self) {
        let settings = S::drawn(self.random).settings();
        let setting = &settings[self.random.below(settings.len() as u64) as usize];
        self.set(setting.clone());
        self.add(Call::Read(S::name(setting.which)));
        if self.random.below(8) == 0 {
            self.add(Call::Tell);
        }
    }

    /// A call that is refused, mostly, so nothing changes.
    fn refused_call(&mut self) {
        match self.random.below(50) {
            0 => {
                let samples = self.signal(LONGEST_BLOCK + 1);
                self.refused(Call::Block(samples, LONGEST_BLOCK + 1));
            }
            1..15 => {
                let names = S::names(self.random);
                let name = &names[self.random.below(names.len() as u64) as usize];
                let settings = S::drawn(self.random).settings();
                let setting = &settings[self.random.below(settings.len() as u64) as usize];
                self.refused(Call::SetNamed(
                    name.clone(),
                    setting.value,
                    setting.worked.clone(),
                ));
            }
            15..30 => {
                let settings = S::at_the_limits();
                let setting = &settings[self.random.below(settings.len() as u64) as usize];
                self.set(setting.clone());
                self.add(Call::Tell);
            }
            30..40 => {
                let mut samples = self.signal(20);
                samples[self.random.below(20) as usize] = refused_sample(self.random);
                self.refused(Call::Block(samples, 20));
            }
            _ => {
                let samples = self.signal(10);
                let places = self.random.below(10) as usize;
                self.refused(Call::Block(samples, places));
            }
        }
    }

    /// Three of the calls that look at a state, some refused by more than 9, and what it then holds.
    pub(super) fn calls_refused_by_9(&mut self) {
        for _ in 0..3 {
            let settings = S::at_the_limits();
            let setting = &settings[self.random.below(settings.len() as u64) as usize];
            let call = match self.random.below(6) {
                0 => Call::Reset,
                1 => Call::Read(S::name(setting.which)),
                2 => Call::Read(b"none".into()),
                3 => Call::SetNamed(b"none".into(), 1.0, setting.worked.clone()),
                4 => Call::Block(vec![0.5, f32::NAN], self.random.below(3) as usize),
                _ => {
                    self.set(setting.clone());
                    continue;
                }
            };
            self.add(call);
        }
        if self.random.below(8) == 0 {
            self.add(Call::Tell);
        }
    }
}
