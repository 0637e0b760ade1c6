//! Lists of calls: the one that is stored, and new ones.
use super::{Call, Drawn, Listed, Setting, number::kept};
use crate::{
    limits::{LARGEST_SAMPLE, LONGEST_BLOCK},
    numbers::{RATES_REFUSED, SAMPLES_REFUSED, above},
    random::Random,
    signals,
};
use std::marker::PhantomData;

/// A list that grows.
pub struct List<'a, S> {
    pub bytes: Vec<u8>,
    pub random: &'a mut Random,
    /// How many samples its done blocks have.
    samples: u64,
    stage: PhantomData<S>,
}

/// The stored list: every refusal, every length, the borders; a made state as it is; then sessions; a
/// record of each number that no call has, and one that ends too soon.
pub fn stored<S: Drawn>() -> Vec<u8> {
    let mut random = Random::new(S::SEED);
    let mut list = List::<S>::new(&mut random);
    list.unmade();
    list.makings();
    list.limits();
    list.names();
    list.lengths();
    list.refused_samples();
    S::borders(&mut list);
    list.kept_states_refused();
    list.sessions(S::STORED);
    for number in [0, 9, 10, u32::MAX] {
        list.add(Call::Unknown(number));
    }
    list.add(Call::Tell);
    list.bytes.extend([6; 127]);
    list.bytes
}

impl<'a, S: Listed> List<'a, S> {
    pub const fn new(random: &'a mut Random) -> Self {
        Self {
            bytes: Vec::new(),
            random,
            samples: 0,
            stage: PhantomData,
        }
    }

    /// Sessions, until the list's done blocks have so many samples.
    pub fn sessions(&mut self, samples: u64) {
        self.until(samples, S::session);
    }

    /// The same with sessions of one kind.
    pub fn until(&mut self, samples: u64, session: fn(&mut Self)) {
        while self.samples < samples {
            session(self);
        }
    }

    pub fn add(&mut self, call: Call) {
        self.bytes.extend(S::bytes(&call, self.random));
    }

    /// A block that is done.
    pub fn block(&mut self, samples: Vec<f32>) {
        self.samples += samples.len() as u64;
        let places = samples.len();
        self.add(Call::Block(samples, places));
    }

    /// The same with a record.
    pub fn record(&mut self, samples: Vec<f32>) {
        self.samples += samples.len() as u64;
        let places = samples.len();
        self.add(Call::Record(samples, places, places));
    }
}

impl<S: Drawn> List<'_, S> {
    /// A call that is refused, and now and then the state that it leaves.
    pub fn refused(&mut self, call: Call) {
        self.add(call);
        if self.random.below(4) == 0 {
            self.add(Call::Tell);
        }
    }

    pub fn drawn(&mut self, length: usize) {
        let samples = self.signal(length);
        self.block(samples);
    }

    pub(super) fn signal(&mut self, length: usize) -> Vec<f32> {
        let loud = self.random.pick(&signals::LOUD);
        signals::drawn(loud, length, self.random)
    }

    pub fn set(&mut self, setting: Setting) {
        let Setting {
            which,
            value,
            worked,
        } = setting;
        if self.random.coin() {
            self.add(Call::Set(which, value, worked));
        } else {
            let name = S::named(which, self.random);
            self.add(Call::SetNamed(name, value, worked));
        }
    }

    pub fn made(&mut self, state: &S) {
        self.add(state.making());
        for setting in state.settings() {
            self.set(setting);
        }
    }

    pub fn load(&mut self, state: &S) {
        self.add(Call::Load(kept(&state.numbers())));
    }

    /// A state made and set, and one block on it.
    fn ready(&mut self) -> S {
        let state = S::drawn(self.random);
        self.made(&state);
        self.drawn(50);
        state
    }

    /// Every call before any making.
    fn unmade(&mut self) {
        self.add(Call::Tell);
        self.calls_refused_by_9();
        S::before_making(self);
    }

    /// Each making, and what it gives.
    fn makings(&mut self) {
        let making = S::drawn(self.random).making();
        let Call::Make(model, _, worked) = &making else {
            unreachable!("a making");
        };
        let bad = vec![0xff; worked.len()];
        for rate in RATES_REFUSED {
            self.refused(Call::Make(*model, rate, worked.clone()));
            self.add(Call::Make(*model, rate, bad.clone()));
        }
        let rates = [8_000.0, 192_000.0, 44_100.0, 11_025.0];
        let made = rates.map(|rate| Call::Make(*model, rate, worked.clone()));
        for making in made {
            self.add(making);
            for which in 0..16 {
                self.add(Call::Read(S::name(which)));
            }
            self.add(Call::Tell);
        }
        for making in S::makings() {
            self.add(making);
            self.refused(Call::Block(vec![0.5, -0.25, 0.125], 3));
        }
    }

    fn limits(&mut self) {
        self.ready();
        for setting in S::at_the_limits() {
            let name = S::name(setting.which);
            self.set(setting);
            self.add(Call::Read(name));
            if self.random.below(4) == 0 {
                self.add(Call::Tell);
            }
            self.drawn(4);
        }
        self.add(Call::Tell);
    }

    /// Each name with a value that is accepted and with one that is not.
    fn names(&mut self) {
        let state = self.ready();
        let Some(Setting { worked, .. }) = state.settings().pop() else {
            return;
        };
        for name in S::names(self.random) {
            self.add(Call::SetNamed(name.clone(), f32::NAN, worked.clone()));
            self.add(Call::Read(name.clone()));
            let value = self.random.pick(&[1.0, 200.0, 2_000.0]);
            self.add(Call::SetNamed(name.clone(), value, worked.clone()));
            self.add(Call::Read(name));
        }
        self.add(Call::Tell);
        self.drawn(20);
    }

    /// Blocks of each length around the borders, the two lengths the same or not.
    fn lengths(&mut self) {
        self.ready();
        for length in [0, 1, 2, 3, LONGEST_BLOCK - 1, LONGEST_BLOCK] {
            self.drawn(length);
            self.add(Call::Tell);
        }
        let bad = [f32::NAN; LONGEST_BLOCK + 1];
        for length in [0, 1, 2, LONGEST_BLOCK, LONGEST_BLOCK + 1] {
            for places in [0, 1, 2, LONGEST_BLOCK, LONGEST_BLOCK + 1] {
                let refused = length != places || length > LONGEST_BLOCK;
                let few = length.min(places) <= 2 && length.max(places) <= LONGEST_BLOCK;
                if refused && (few || length > places) {
                    self.refused(Call::Block(bad[..length].to_vec(), places));
                }
            }
        }
        self.refused(Call::Block(vec![0.25; bad.len()], bad.len()));
        self.drawn(100);
    }

    /// The largest sample, and each kind of refused one at the first place, within and at the last.
    fn refused_samples(&mut self) {
        self.ready();
        for largest in [LARGEST_SAMPLE, -LARGEST_SAMPLE] {
            self.block(vec![largest; 4]);
        }
        for sample in SAMPLES_REFUSED {
            for place in [0, 1, 7, 30] {
                let mut samples = self.signal(31);
                samples[place] = sample;
                samples[30] = sample;
                self.refused(Call::Block(samples, 31));
            }
        }
        let mut samples = vec![0.5; LONGEST_BLOCK];
        samples[LONGEST_BLOCK - 1] = above(LARGEST_SAMPLE);
        self.refused(Call::Block(samples, LONGEST_BLOCK));
        self.drawn(100);
    }

    /// A kept state spoilt in each way that 9 has, with calls on it.
    fn kept_states_refused(&mut self) {
        let state = S::drawn(self.random);
        for spoilt in state.spoilt() {
            self.load(&spoilt);
            self.calls_refused_by_9();
        }
        self.load(&state);
        self.drawn(200);
        self.add(Call::Tell);
    }
}
