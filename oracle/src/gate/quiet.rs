//! How long it has been quiet: the count after each kind of block, in each form; what begins it anew and what leaves it; where
//! it stops; gates handed back with a count, and loaded from before there was one.
use super::{
    call,
    cases::{OTHERS, QUICK, settings},
    holds::{KEPT, LOUD},
    numbers,
    records::OVER,
    rules::Gate,
    setting::Setting,
};
use crate::{
    calls::{Call, List},
    limits::{LARGEST_SAMPLE, LONGEST_BLOCK},
    numbers::{above, below},
    signals,
};

/// The forms of a block.
#[derive(Clone, Copy)]
pub(super) enum Form {
    ByValue,
    InPlace,
    WithRecord,
}

pub(super) const FORMS: [Form; 3] = [Form::ByValue, Form::InPlace, Form::WithRecord];

/// The level is the sample's size, and the hold goes on: the gate aims open where it is quiet.
const SEVEN: Gate = Gate { quiet: 7, ..KEPT };

/// Blocks on a made gate, one after the other, and the count behind each. The factor itself is not loud.
pub(super) const BY_HAND: [(&[f32], u32); 20] = [
    (&[], 0),
    (&[0.0; 3], 3),
    (&[LOUD], 0),
    (&[0.0; 5], 5),
    (&[-0.0; 2], 7),
    (&[0.0, 0.0, LOUD, 0.0, 0.0, 0.0], 3),
    (&[LOUD, 0.0], 1),
    (&[0.0, 0.0, -LOUD], 0),
    (&[], 0),
    (&[0.0], 1),
    (&[], 1),
    (&[LOUD; 4], 0),
    (&[0.0, LOUD, 0.0, 0.0, LOUD, 0.0], 1),
    (&[LOUD, 0.0, 0.0, LOUD], 0),
    (&[0.25, -0.25], 2),
    (&[above(0.25)], 0),
    (&[below(0.25), 0.25], 2),
    (&[0.0, -above(0.25), 0.25], 1),
    (&[0.0; 300], 301),
    (&[], 301),
];

/// Counts that a host hands back: where some numbers of bits end, and near the top.
pub(super) const COUNTS: [u32; 16] = [
    0,
    1,
    254,
    255,
    65_534,
    65_535,
    95_999,
    96_000,
    (1 << 24) - 1,
    1 << 24,
    (1 << 31) - 2,
    (1 << 31) - 1,
    1 << 31,
    4_294_967_290,
    4_294_967_294,
    u32::MAX,
];

/// Five samples below the top.
const NEAR: Gate = Gate {
    quiet: 4_294_967_290,
    ..KEPT
};

const AT_THE_TOP: Gate = Gate {
    quiet: u32::MAX,
    ..KEPT
};

impl List<'_, Gate> {
    pub(super) fn quiet(&mut self) {
        for form in FORMS {
            self.quiet_by_hand(form);
            self.quiet_by_the_level(form);
            self.quiet_by_the_factor_in_force(form);
            self.refused_in_the_quiet(form);
            self.loaded_in_the_quiet(form);
            self.handed_back_in_the_quiet(form);
            self.up_to_the_top(form);
            self.calls_in_the_quiet(form, SEVEN);
            self.calls_in_the_quiet(form, AT_THE_TOP);
        }
        self.settings_in_the_quiet();
        self.quiet_of_refused_states();
        self.quiet_again();
        for _ in 0..40 {
            self.quiet_session();
        }
    }

    fn call_as(&mut self, form: Form, call: &Call) {
        let in_place = matches!(form, Form::InPlace);
        self.bytes.extend(call::bytes(call, in_place));
    }

    /// A block with so many places for its output.
    fn block_into(&mut self, form: Form, samples: &[f32], places: usize) {
        let (samples, length) = (samples.to_vec(), samples.len());
        let call = match form {
            Form::WithRecord => Call::Record(samples, places, length),
            Form::ByValue | Form::InPlace => Call::Block(samples, places),
        };
        self.call_as(form, &call);
    }

    fn block_as(&mut self, form: Form, samples: &[f32]) {
        self.block_into(form, samples, samples.len());
    }

    /// Then a reset, of which there is none with a record.
    pub(super) fn quiet_by_hand(&mut self, form: Form) {
        self.made_to_count(48_000.0);
        for (samples, _) in BY_HAND {
            self.block_as(form, samples);
        }
        self.call_as(form, &Call::Reset);
        self.block_as(form, &[]);
        self.block_as(form, &[0.0; 2]);
    }

    /// A level that stays loud in silence, and one that is not yet loud where the samples are.
    fn quiet_by_the_level(&mut self, form: Form) {
        self.add(call::hand_back(QUICK));
        self.block_as(form, &[1.0]);
        for _ in 0..6 {
            self.block_as(form, &[0.0]);
        }
        self.add(call::hand_back(Gate {
            rising: 0.75,
            ..QUICK
        }));
        for _ in 0..6 {
            self.block_as(form, &[0.3]);
        }
    }

    /// One sample under three thresholds: a setting decides of the samples behind it.
    fn quiet_by_the_factor_in_force(&mut self, form: Form) {
        self.add(call::hand_back(SEVEN));
        for (decibels, factor) in [(-6.0, 0.5), (-12.0, 0.25), (-80.0, 1e-4), (0.0, 1.0)] {
            self.set(Setting::Threshold(decibels, factor), factor);
            self.block_as(form, &[0.3]);
            self.block_as(form, &[0.3, 0.0]);
        }
    }

    /// By 7, 8 and 6, with silence and with loud samples; behind each one sample, which is counted.
    fn refused_in_the_quiet(&mut self, form: Form) {
        const SHORT: [(&[f32], usize); 10] = [
            (&[], 1),
            (&[0.0], 0),
            (&[0.0; 2], 1),
            (&[0.0; 2], 3),
            (&[LOUD, 0.0], 1),
            (&[f32::NAN], 1),
            (&[0.0, 0.0, f32::INFINITY], 3),
            (&[LOUD, f32::NAN], 2),
            (&[0.0, f32::NAN, LOUD], 3),
            (&[0.0, above(LARGEST_SAMPLE)], 2),
        ];
        self.add(call::hand_back(SEVEN));
        for (samples, places) in SHORT {
            self.block_into(form, samples, places);
            self.block_as(form, &[0.0]);
        }
        for sample in [0.0, LOUD] {
            self.block_as(form, &[sample; OVER]);
            self.block_as(form, &[0.0]);
        }
        if matches!(form, Form::WithRecord) {
            for aims in [1, 3] {
                self.add(Call::Record(vec![0.0; 2], 2, aims));
                self.add(Call::Record(vec![LOUD; 2], 2, aims));
                self.block_as(form, &[0.0]);
            }
        }
    }

    /// Gates from before there was a count, in the middle of a hold and not, loud and not, such as 9 refuses: over a gate
    /// whose count runs, and what is counted from there.
    fn loaded_in_the_quiet(&mut self, form: Form) {
        let work = Gate {
            level: 0.5,
            state: 0.5,
            counter: 3,
            ..QUICK
        };
        let kept = [
            KEPT,
            Gate { counter: 0, ..KEPT },
            Gate {
                counter: 96_000,
                level: LARGEST_SAMPLE,
                ..KEPT
            },
            work,
            Gate { rate: 0.0, ..KEPT },
            Gate {
                counter: 96_001,
                ..KEPT
            },
            Gate::default(),
        ];
        for gate in kept {
            for before in [SEVEN, AT_THE_TOP] {
                self.add(call::hand_back(before));
                self.add(call::load(gate));
                self.block_as(form, &[]);
            }
            self.block_as(form, &[0.0; 3]);
            self.block_as(form, &[0.0]);
            self.block_as(form, &[1.0]);
            self.block_as(form, &[0.0; 4]);
        }
    }

    /// With no loud sample behind it, with one, and with one in the middle.
    fn handed_back_in_the_quiet(&mut self, form: Form) {
        for quiet in COUNTS {
            let gate = call::hand_back(Gate { quiet, ..KEPT });
            self.add(gate.clone());
            self.block_as(form, &[]);
            self.block_as(form, &[0.0]);
            self.block_as(form, &[0.0; 10]);
            self.add(gate.clone());
            self.block_as(form, &[LOUD]);
            self.block_as(form, &[0.0]);
            self.add(gate);
            self.block_as(form, &[0.0, LOUD, 0.0, 0.0]);
        }
    }

    /// In one block, in several, a sample at a time, and by the longest block; there it stays until a sample is loud.
    pub(super) fn up_to_the_top(&mut self, form: Form) {
        for length in [4, 5, 6, 10, LONGEST_BLOCK] {
            self.add(call::hand_back(NEAR));
            self.block_as(form, &[0.0; LONGEST_BLOCK][..length]);
        }
        for (lengths, times) in [(2, 4), (1, 8)] {
            self.add(call::hand_back(NEAR));
            for _ in 0..times {
                self.block_as(form, &[0.0; 2][..lengths]);
            }
        }
        self.block_as(form, &[0.0; 100]);
        self.block_as(form, &[]);
        self.block_as(form, &[LOUD]);
        self.block_as(form, &[0.0]);
        self.add(call::hand_back(NEAR));
        self.block_as(form, &[0.0; 7]);
        self.block_as(form, &[0.0, 0.0, LOUD, 0.0, 0.0, 0.0]);
        self.add(call::hand_back(NEAR));
        self.block_as(form, &[0.0, 0.0, 0.0, 0.0, 0.0, 0.0, 0.0, LOUD, 0.0, 0.0]);
    }

    /// Each other call over a running count, and a block that tells what it left. Of settings and resets those with a record
    /// are by value.
    fn calls_in_the_quiet(&mut self, form: Form, gate: Gate) {
        for call in [
            Call::Read(b"hold".into()),
            Call::Read(b"threshold".into()),
            Call::Read(b"none".into()),
            call::named(b"hold", 1.0, 0.0),
            call::named(b"none", 1.0, 0.0),
            Call::Unknown(12),
            Call::Unknown(u32::MAX),
            Call::Reset,
            call::make(48_000.0, 0.0, 0.0),
            call::make(0.0, 0.0, 0.0),
            call::make(48_000.0, 1.0, 0.0),
            call::load(KEPT),
            call::hand_back(Gate { quiet: 2, ..KEPT }),
        ] {
            self.add(call::hand_back(gate));
            self.call_as(form, &call);
            self.block_as(form, &[]);
            self.block_as(form, &[0.0; 2]);
        }
    }

    /// Each setting, done and refused, in each form; each name that is none. The blocks behind them count on.
    fn settings_in_the_quiet(&mut self) {
        self.add(call::hand_back(SEVEN));
        let at_the_limits = numbers::at_the_limits().into_iter();
        let all = at_the_limits.map(|(setting, _)| setting);
        for (setting, form) in all.chain(settings(&KEPT)).zip(FORMS.into_iter().cycle()) {
            self.set_in_each_form(setting);
            self.block_as(form, &[0.0]);
        }
        for (name, form) in OTHERS.into_iter().zip(FORMS.into_iter().cycle()) {
            self.call_as(form, &call::named(name, 1.0, 0.5));
            self.block_as(form, &[0.0]);
        }
    }

    /// A gate spoilt in each way that 9 has: every call leaves its count, and no block tells it. A load of it has none.
    fn quiet_of_refused_states(&mut self) {
        for (gate, form) in numbers::spoilt(&SEVEN)
            .into_iter()
            .zip(FORMS.into_iter().cycle())
        {
            self.add(call::hand_back(gate));
            self.block_as(form, &[0.0, LOUD]);
            self.block_as(form, &[0.0]);
            self.block_as(form, &[]);
            self.call_as(form, &Call::Reset);
            self.set_in_each_form(Setting::Hold(50.0));
            self.add(Call::Read(b"hold".into()));
            self.add(call::load(gate));
            self.block_as(form, &[0.0]);
        }
    }

    /// The same samples on the same gate in each form, and cut in two.
    fn quiet_again(&mut self) {
        for _ in 0..12 {
            let gate = self.counting();
            let samples = signals::bursts(gate.factor, 60, self.random);
            for form in FORMS {
                self.add(call::hand_back(gate));
                self.block_as(form, &samples);
                self.add(call::hand_back(gate));
                let cut = self.random.below(61) as usize;
                self.block_as(form, &samples[..cut]);
                self.block_as(form, &samples[cut..]);
            }
        }
    }

    /// A gate with a count, that 9 accepts; of half of them the level is the sample's size.
    fn counting(&mut self) -> Gate {
        let gate = Gate {
            quiet: numbers::quiet(self.random),
            ..numbers::acceptable(self.random)
        };
        if self.random.coin() {
            return gate;
        }
        Gate {
            rising: 0.0,
            falling: 0.0,
            ..gate
        }
    }

    /// A gate handed back with a count, loaded from before there was one, or made; short blocks on it, in any form, between
    /// calls that leave the count or begin it anew. Now and then one that 9 refuses stands before it.
    pub(super) fn quiet_session(&mut self) {
        let mut gate = self.counting();
        if self.random.below(4) == 0 {
            let spoilt = self.random.pick(&numbers::spoilt(&gate));
            self.add(call::hand_back(spoilt));
            self.quiet_block(&gate);
            self.add(Call::Reset);
            self.changed(gate);
        }
        match self.random.below(8) {
            0 => self.made(&gate),
            1 => self.add(call::load(gate)),
            _ => self.add(call::hand_back(gate)),
        }
        for _ in 0..self.random.between(4, 16) {
            self.quiet_block(&gate);
            match self.random.below(16) {
                0 => self.add(Call::Reset),
                1 => self.refused(&gate),
                2 => self.drawn_refused_record(&gate),
                3 | 4 => gate = self.changed(gate),
                5 => {
                    gate.quiet = numbers::quiet(self.random);
                    self.add(call::hand_back(gate));
                }
                6 => self.add(call::load(gate)),
                7 if self.random.below(4) == 0 => {
                    let form = self.random.pick(&FORMS);
                    self.block_as(form, &[0.0; OVER]);
                }
                8 => self.add(Call::Unknown(12)),
                _ => {}
            }
        }
    }

    /// Silence, or silence with one loud sample, or any signal.
    fn quiet_block(&mut self, gate: &Gate) {
        let length = self.random.below(24) as usize;
        let samples = match self.random.below(8) {
            0 => signals::drawn(gate.factor, length, self.random),
            1 => {
                let mut samples = vec![0.0; length + 1];
                let place = self.random.below(length as u64 + 1) as usize;
                samples[place] = LARGEST_SAMPLE;
                samples
            }
            _ => vec![0.0; length],
        };
        if self.random.below(3) == 0 {
            self.record(samples);
        } else {
            self.block(samples);
        }
    }
}
