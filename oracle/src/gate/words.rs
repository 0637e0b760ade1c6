//! What a hold that is set tells, H and exact or cut, in each form of the call; and what tells neither.
use super::{
    call,
    cases::settings,
    holds::{HEARD, KEPT, LOUD},
    numbers,
    rules::{Gate, LONGEST_HOLD},
    setting::Setting,
};
use crate::{
    calls::{Call, List},
    numbers::{NANS, SMALLEST, SMOOTHING_REFUSED, above, below},
};

/// The forms of a setting.
#[derive(Clone, Copy)]
enum Form {
    Typed,
    Named,
    InPlace,
}

const FORMS: [Form; 3] = [Form::Typed, Form::Named, Form::InPlace];

/// Holds at 48,000 Hz. 1/16 ms, 50 ms; nothing; what comes to nothing; 1 and 2 samples and the 7 of which one is lost; the
/// longest, and what comes to as many samples.
pub(super) const BY_HAND: [f32; 13] = [
    1.0 / 16.0,
    50.0,
    0.0,
    -0.0,
    SMALLEST,
    1.0 / 48.0,
    1.0 / 24.0,
    7.0 / 48.0,
    100.0,
    below(50.0),
    above(50.0),
    LONGEST_HOLD,
    below(LONGEST_HOLD),
];

/// Rates beside 48,000 Hz: usual ones, the lowest and the highest, and odd ones.
const RATES: [f32; 9] = [
    8_000.0, 8_001.0, 11_025.0, 16_000.0, 22_050.0, 44_100.0, 96_000.0, 191_999.0, 192_000.0,
];

/// At each of these rates: in milliseconds, and in samples.
const TIMES: [f32; 9] = [0.0, -0.0, 1.0 / 16.0, 0.1, 1.0, 10.0, 50.0, 250.0, 500.0];
const COUNTS: [f32; 5] = [1.0, 3.0, 7.0, 100.0, 3_000.0];

const REFUSED: [f32; 8] = [
    above(LONGEST_HOLD),
    -SMALLEST,
    -1.0,
    f32::INFINITY,
    f32::NEG_INFINITY,
    NANS[0],
    NANS[1],
    NANS[2],
];

const NO_NAMES: [&[u8]; 6] = [b"", b"Hold", b"hold ", b"hol", b"hold\0", b"holdhold"];

impl List<'_, Gate> {
    pub(super) fn words(&mut self) {
        self.words_by_hand();
        self.every_millisecond();
        self.words_at_rates();
        self.words_in_a_hold();
        self.each_setting();
        self.refused_without_a_word();
        self.calls_without_a_word();
    }

    fn set_as(&mut self, form: Form, setting: Setting) {
        let worked = setting.worked().unwrap_or(f32::NAN);
        let named = call::named(setting.name().as_bytes(), setting.value(), worked);
        self.bytes.extend(match form {
            Form::Typed => call::bytes(&call::typed(setting), false),
            Form::Named => call::bytes(&named, false),
            Form::InPlace => call::bytes(&named, true),
        });
    }

    pub(super) fn set_in_each_form(&mut self, setting: Setting) {
        for form in FORMS {
            self.set_as(form, setting);
        }
    }

    /// Each of these holds in one form, the next in the next.
    fn set_in_turn(&mut self, holds: impl IntoIterator<Item = f32>) {
        for (hold, form) in holds.into_iter().zip(FORMS.into_iter().cycle()) {
            self.set_as(form, Setting::Hold(hold));
        }
    }

    /// A gate whose counter the loud sample sets to H.
    pub(super) fn made_to_count(&mut self, rate: f32) {
        self.add(call::make(rate, 0.0, 0.0));
        self.set(HEARD, 0.25);
    }

    fn words_by_hand(&mut self) {
        self.made_to_count(48_000.0);
        for hold in BY_HAND {
            self.set_in_each_form(Setting::Hold(hold));
            self.block(vec![LOUD]);
        }
    }

    pub(super) fn every_millisecond(&mut self) {
        self.add(call::make(48_000.0, 0.0, 0.0));
        self.set_in_turn((0..=500).map(|ms| ms as f32));
    }

    fn words_at_rates(&mut self) {
        for rate in RATES {
            self.made_to_count(rate);
            self.set_in_turn(TIMES);
            self.block(vec![LOUD]);
            let holds = COUNTS.map(|samples| samples * 1_000.0 / rate);
            self.set_in_turn(holds.map(|hold| [below(hold), hold, above(hold)]).concat());
            self.block(vec![LOUD]);
        }
    }

    /// The counter goes on, and what is told is of the hold that was set.
    fn words_in_a_hold(&mut self) {
        self.add(call::load(KEPT));
        for hold in [1.0 / 16.0, 50.0] {
            self.set_in_each_form(Setting::Hold(hold));
            self.block(vec![0.0; 2]);
        }
    }

    /// Of which the hold alone tells.
    fn each_setting(&mut self) {
        for setting in settings(&KEPT) {
            self.set_in_each_form(setting);
        }
    }

    /// By 3, by 4, by 1 and by 9.
    fn refused_without_a_word(&mut self) {
        for hold in REFUSED {
            self.set_in_each_form(Setting::Hold(hold));
        }
        self.set_in_each_form(Setting::Attack(1.0, SMOOTHING_REFUSED[0]));
        for name in NO_NAMES {
            for in_place in [false, true] {
                let call = call::named(name, 50.0, 0.0);
                self.bytes.extend(call::bytes(&call, in_place));
            }
        }
        let spoilt = [
            Gate::default(),
            Gate { rate: 0.0, ..KEPT },
            Gate { hold: -1.0, ..KEPT },
            Gate {
                counter: u64::MAX,
                ..KEPT
            },
        ];
        for gate in spoilt {
            self.add(call::load(gate));
            self.set_in_each_form(Setting::Hold(50.0));
            self.set_in_each_form(Setting::Hold(f32::NAN));
        }
    }

    /// Each other call behind a hold that was set.
    fn calls_without_a_word(&mut self) {
        let made = call::make(48_000.0, 0.0, 0.0);
        let block = Call::Block(vec![LOUD, 0.0], 2);
        for (call, in_place) in [
            (Call::Read(b"hold".into()), false),
            (Call::Reset, false),
            (Call::Reset, true),
            (block.clone(), false),
            (block, true),
            (Call::Block(vec![LOUD], 2), false),
            (Call::Record(vec![LOUD, 0.0], 2, 2), false),
            (call::load(KEPT), false),
            (Call::Unknown(12), false),
            (made.clone(), false),
            (call::make(0.0, 0.0, 0.0), false),
        ] {
            self.bytes.extend(call::bytes(&made, false));
            self.set_as(Form::Named, Setting::Hold(1.0 / 16.0));
            self.bytes.extend(call::bytes(&call, in_place));
        }
    }

    /// In any form.
    fn set_hold(&mut self, hold: f32) {
        let form = self.random.pick(&FORMS);
        self.set_as(form, Setting::Hold(hold));
    }

    /// A gate whose hold is set again and again, mostly nearly to a whole number of samples, between calls that tell
    /// nothing of it; now and then a loud sample counts it. Seldom one that 9 refuses stands before it.
    pub(super) fn hold_session(&mut self) {
        let gate = numbers::acceptable(self.random);
        if self.random.below(8) == 0 {
            let spoilt = self.random.pick(&numbers::spoilt(&gate));
            self.add(call::load(spoilt));
            self.set_hold(gate.hold);
        }
        self.made_to_count(gate.rate);
        for _ in 0..self.random.between(4, 24) {
            match self.random.below(16) {
                0 => {
                    let refused = self.random.pick(&REFUSED);
                    self.set_hold(refused);
                }
                1 => {
                    self.changed(gate);
                }
                2 => self.add(Call::Reset),
                3..6 => self.block(vec![LOUD, 0.0]),
                _ => {}
            }
            let hold = numbers::counted_hold(gate.rate, self.random);
            self.set_hold(hold);
        }
        self.block(vec![LOUD, 0.0]);
    }
}
