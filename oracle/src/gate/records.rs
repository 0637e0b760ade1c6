//! Blocks with a record: every refusal and each two that meet, three lengths that differ in each way, aims that turn at
//! each place.
use super::{call, cases::QUICK, numbers, rules::Gate};
use crate::{
    calls::{Call, List},
    limits::{LARGEST_SAMPLE, LONGEST_BLOCK},
    numbers::{RATES_REFUSED, SAMPLES_REFUSED, above, below},
    signals,
};

/// How many samples of done blocks the stored list has with its records, at least.
const STORED: u64 = 370_000;

/// One more than a block may have.
pub(super) const OVER: usize = LONGEST_BLOCK + 1;

/// A gate in the middle of its work.
const AT_WORK: Gate = Gate {
    level: 0.375,
    state: 0.5,
    counter: 3,
    ..QUICK
};

impl List<'_, Gate> {
    /// What the stored list has of records.
    pub(super) fn records(&mut self) {
        self.records_before_making();
        self.record_lengths();
        self.long_records();
        self.records_of_refused_samples();
        self.records_refused_twice();
        self.records_of_refused_states();
        self.turns();
        self.records_at_the_borders();
        self.records_again();
        self.until(STORED, List::recorded_session);
    }

    fn refused_record(&mut self, samples: Vec<f32>, places: usize, aims: usize) {
        self.add(Call::Record(samples, places, aims));
    }

    fn records_before_making(&mut self) {
        for (rate, c) in [(RATES_REFUSED[0], 0.5), (48_000.0, 1.0)] {
            self.add(call::make(rate, 0.5, c));
            for length in 0..4 {
                self.refused_record(vec![0.5; length], 3, 3);
            }
        }
    }

    /// Each three lengths up to three, of good samples and of a refused one at the end: where all are the same the block
    /// is done, or 6 answers.
    fn record_lengths(&mut self) {
        self.add(call::load(AT_WORK));
        let lengths = || 0..4_usize;
        for (length, places, aims) in lengths()
            .flat_map(|length| lengths().map(move |places| (length, places)))
            .flat_map(|(length, places)| lengths().map(move |aims| (length, places, aims)))
        {
            let mut samples = vec![0.5; length];
            self.add(Call::Record(samples.clone(), places, aims));
            if let Some(last) = samples.last_mut() {
                *last = f32::NAN;
                self.refused_record(samples, places, aims);
            }
        }
    }

    /// Lengths around the longest block, and such as one byte tells the same.
    fn long_records(&mut self) {
        self.made(&QUICK);
        for length in [255, 256, 257, LONGEST_BLOCK - 1, LONGEST_BLOCK] {
            let samples = signals::bursts(QUICK.factor, length, self.random);
            self.record(samples);
        }
        self.refused_record(vec![0.25; OVER], OVER, OVER);
        for (length, places, aims) in [
            (LONGEST_BLOCK, LONGEST_BLOCK, LONGEST_BLOCK - 1),
            (LONGEST_BLOCK, LONGEST_BLOCK, OVER),
            (LONGEST_BLOCK, LONGEST_BLOCK, 0),
            (LONGEST_BLOCK, OVER, LONGEST_BLOCK),
            (OVER, OVER, LONGEST_BLOCK),
            (OVER, LONGEST_BLOCK, OVER),
            (OVER, LONGEST_BLOCK, LONGEST_BLOCK),
            (OVER, OVER, 0),
            (OVER, 0, OVER),
            (OVER, 0, 0),
            (0, OVER, OVER),
            (0, 0, OVER),
            (1, 1, 257),
            (1, 257, 1),
            (257, 1, 1),
        ] {
            self.refused_record(vec![0.25; length], places, aims);
        }
        self.drawn_record(&QUICK, 100);
    }

    /// The largest sample, and each kind of refused one at the first place, within and at the last.
    fn records_of_refused_samples(&mut self) {
        self.made(&QUICK);
        for largest in [LARGEST_SAMPLE, -LARGEST_SAMPLE] {
            self.record(vec![largest; 4]);
        }
        for sample in SAMPLES_REFUSED {
            for place in [0, 1, 7, 30] {
                let mut samples = signals::bursts(QUICK.factor, 31, self.random);
                samples[place] = sample;
                samples[30] = sample;
                self.refused_record(samples, 31, 31);
            }
        }
        let mut samples = vec![0.5; LONGEST_BLOCK];
        samples[LONGEST_BLOCK - 1] = above(LARGEST_SAMPLE);
        self.refused_record(samples, LONGEST_BLOCK, LONGEST_BLOCK);
        self.drawn_record(&QUICK, 100);
    }

    /// Each two of 9, 7 by the output, 7 by the aims, 8 and 6, and more of them at once; each as the only one too.
    fn records_refused_twice(&mut self) {
        const SHORT: [[usize; 3]; 5] = [[3, 3, 3], [3, 2, 3], [3, 3, 4], [3, 4, 4], [3, 4, 2]];
        const LONG: [[usize; 3]; 3] = [[OVER, OVER, OVER], [OVER, 2, OVER], [OVER, OVER, 2]];
        let spoilt = Gate {
            counter: u64::MAX,
            ..AT_WORK
        };
        for gate in [AT_WORK, spoilt] {
            self.add(call::load(gate));
            for lengths in SHORT {
                self.record_ending(0.5, lengths);
                self.record_ending(f32::NAN, lengths);
            }
        }
        self.record_ending(0.5, LONG[0]);
        self.add(call::load(AT_WORK));
        for lengths in LONG {
            self.record_ending(f32::NAN, lengths);
        }
    }

    fn record_ending(&mut self, last: f32, [length, places, aims]: [usize; 3]) {
        let mut samples = vec![0.5; length];
        samples[length - 1] = last;
        self.add(Call::Record(samples, places, aims));
    }

    /// A kept state spoilt in each way that 9 has.
    fn records_of_refused_states(&mut self) {
        for gate in numbers::spoilt(&AT_WORK) {
            self.add(call::load(gate));
            self.refused_record(vec![0.5, 0.0, 0.5], 3, 3);
            let places = self.random.below(3) as usize;
            let aims = self.random.below(3) as usize;
            self.refused_record(vec![0.5, f32::NAN], places, aims);
            self.refused_record(Vec::new(), 0, 0);
        }
    }

    /// Holds of no sample, of one, of two and of more: one loud sample at each place of a block, two that the hold
    /// bridges or doesn't, then silence in which it closes. At the block's ends the aims go on in the next one.
    fn turns(&mut self) {
        for hold in [0.0, 0.124, 0.125, 0.25, 0.375, 1.0, 500.0] {
            let gate = Gate {
                hold,
                rising: 0.0,
                falling: 0.0,
                ..QUICK
            };
            self.made(&gate);
            for place in 0..12 {
                let mut samples = vec![0.0; 12];
                samples[place] = 0.5;
                samples[(place + 3) % 12] = -0.5;
                self.record(samples);
                if place % 4 == 3 {
                    self.add(Call::Reset);
                }
            }
            self.block(vec![0.5, 0.0]);
            self.record(vec![0.0; 20]);
            self.record(vec![0.5; 20]);
            self.record(vec![0.0]);
            self.record(Vec::new());
            self.record(vec![0.5]);
        }
    }

    /// Levels at the factor and next to it; counters that end; states around the full gain.
    fn records_at_the_borders(&mut self) {
        let still = Gate {
            rising: 0.0,
            falling: 0.0,
            hold: 0.0,
            ..QUICK
        };
        let factor = still.factor;
        self.made(&still);
        self.record(vec![
            factor,
            above(factor),
            factor,
            below(factor),
            -above(factor),
            -factor,
        ]);
        for counter in [0, 1, 2, 3, 96_000] {
            self.add(call::load(Gate { counter, ..still }));
            self.record(vec![0.0; 4]);
        }
        let half_way = numbers::HALF_WAY_OPEN;
        for state in [half_way, above(half_way), below(half_way), 0.0, 1.0] {
            self.add(call::load(Gate { state, ..still }));
            self.record(vec![1.0, 0.5, 0.0]);
        }
    }

    /// The same samples on the same state as a block, then with a record; and where a signal is cut, the aims go on.
    fn records_again(&mut self) {
        for _ in 0..20 {
            let gate = numbers::acceptable(self.random);
            let samples = signals::bursts(gate.factor, 60, self.random);
            self.add(call::load(gate));
            self.block(samples.clone());
            self.add(call::load(gate));
            self.record(samples.clone());
            self.add(call::load(gate));
            let cut = self.random.below(61) as usize;
            self.record(samples[..cut].to_vec());
            self.record(samples[cut..].to_vec());
        }
    }

    pub(super) fn drawn_record(&mut self, gate: &Gate, length: usize) {
        let samples = signals::drawn(gate.factor, length, self.random);
        self.record(samples);
    }
}
