//! The quiet count by hand and in every list; wrong counts, each of which the lists must show; and what the stored list must
//! have of it, counted.
use super::{
    NoiseGate, call, cases,
    needs::{STATE, answered},
    quiet::{BY_HAND, COUNTS, FORMS},
    rules::Gate,
    setting::NAMES,
};
use crate::{
    calls::{Call, List, Rules, number::Taker},
    random::Random,
    replay::Replay,
};
use std::collections::BTreeMap;

const TOP: u32 = u32::MAX;

/// A sample by what could be taken for loud.
#[derive(Clone, Copy)]
struct Heard {
    loud: bool,
    open: bool,
    at_the_factor: bool,
    by_its_size: bool,
    by_the_level_before: bool,
}

/// A call with the gate that it is made on, and what is answered: the number, the count that is told and the gate's.
struct Asked {
    call: Call,
    form: &'static str,
    gate: Gate,
    heard: Vec<Heard>,
    number: u32,
    figures: Figures,
}

/// The count that is told, and the gate's after the call.
type Figures = (u32, u32);

impl Asked {
    const fn is_done(&self) -> bool {
        self.number == 0
    }

    const fn is_block(&self) -> bool {
        matches!(self.call, Call::Block(..) | Call::Record(..))
    }

    const fn is_done_block(&self) -> bool {
        self.is_block() && self.is_done()
    }

    const fn is_refused_block(&self) -> bool {
        self.is_block() && !self.is_done()
    }

    const fn is_reset(&self) -> bool {
        matches!(self.call, Call::Reset)
    }

    const fn is_reading(&self) -> bool {
        matches!(self.call, Call::Read(_))
    }

    const fn is_making(&self) -> bool {
        matches!(self.call, Call::Make(..))
    }

    fn is_silent(&self) -> bool {
        !self.heard.iter().any(|heard| heard.loud)
    }

    /// The setting's name, of a call that sets.
    fn sets(&self) -> Option<&'static str> {
        let name = match &self.call {
            Call::Set(which, ..) => Gate::name(*which),
            Call::SetNamed(name, ..) => name.clone(),
            _ => return None,
        };
        let known = NAMES.into_iter().find(|known| known.as_bytes() == name);
        Some(known.unwrap_or("none"))
    }

    /// The gate from before there was a count, of a call that loads one.
    fn loads(&self) -> Option<Gate> {
        match &self.call {
            Call::LoadBefore(numbers) => Some(Gate::of_before(Taker(numbers))),
            _ => None,
        }
    }

    fn hands_back(&self) -> Option<Gate> {
        match &self.call {
            Call::Load(numbers) => Some(Gate::of(Taker(numbers))),
            _ => None,
        }
    }
}

fn heard(mut gate: Gate, input: &[f32]) -> Vec<Heard> {
    let one = |&sample: &f32| {
        let before = gate.level;
        gate.sample(sample);
        Heard {
            loud: gate.level > gate.factor,
            open: gate.seen().open,
            at_the_factor: gate.level >= gate.factor,
            by_its_size: sample.abs() > gate.factor,
            by_the_level_before: before > gate.factor,
        }
    };
    input.iter().map(one).collect()
}

/// Each call of a list on the gate that the answer before it tells.
fn asked(list: &[u8]) -> Vec<Asked> {
    let mut gate = Gate::default();
    let one = |(call, by, answer): (Call, &'static str, Vec<u8>)| {
        let after = Gate::of(Taker(&answer[STATE..]));
        let asked = Asked {
            heard: match &call {
                Call::Block(input, _) | Call::Record(input, ..) => heard(gate, input),
                _ => Vec::new(),
            },
            form: match call {
                Call::Record(..) => "with a record",
                Call::Set(..) => "typed",
                _ => by,
            },
            gate,
            number: Taker(&answer).whole(),
            figures: (Taker(&answer[STATE - 4..]).whole(), after.quiet),
            call,
        };
        gate = after;
        asked
    };
    answered(list).into_iter().map(one).collect()
}

fn stored() -> Vec<Asked> {
    asked(&cases::stored())
}

fn new() -> Vec<Asked> {
    asked(&NoiseGate::NEW.generated(&mut Random::new(1), 200_000))
}

/// The answers to a part of the stored list.
fn part(of: impl Fn(&mut List<Gate>)) -> Vec<Asked> {
    let mut random = Random::new(1);
    let mut list = List::<Gate>::new(&mut random);
    of(&mut list);
    asked(&list.bytes)
}

#[test]
fn quiet_by_hand() {
    for form in FORMS {
        let all = part(|list| list.quiet_by_hand(form));
        let told: Vec<_> = all[2..].iter().map(|asked| asked.figures).collect();
        let rows = BY_HAND.map(|(_, count)| (count, count));
        let reset = [(0, 0), (0, 0), (2, 2)];
        assert_eq!(told, [&rows[..], &reset].concat());
    }
}

/// From 4,294,967,290: blocks of 4, 5, 6, 10 and 4,096; four of two; eight of one, and what comes there; with a loud sample in
/// the second block, and in the first.
#[test]
fn to_the_top_by_hand() {
    let below = |by: u32| TOP - by;
    let rows = [
        vec![below(1)],
        vec![TOP],
        vec![TOP],
        vec![TOP],
        vec![TOP],
        vec![below(3), below(1), TOP, TOP],
        [
            vec![below(4), below(3), below(2), below(1)],
            vec![TOP; 6],
            vec![0, 1],
        ]
        .concat(),
        vec![TOP, 3],
        vec![2],
    ];
    for form in FORMS {
        let all = part(|list| list.up_to_the_top(form));
        let handed_back = |asked: &&Asked| asked.hands_back().is_some();
        assert_eq!(all.iter().filter(handed_back).count(), rows.len());
        let begins = all.split(|asked| asked.hands_back().is_some()).skip(1);
        for (blocks, row) in begins.zip(&rows) {
            let told: Vec<_> = blocks.iter().map(|asked| asked.figures).collect();
            let row: Vec<_> = row.iter().map(|&count| (count, count)).collect();
            assert_eq!(told, row);
        }
    }
}

/// The count of a block by what lies behind its latest loud sample.
fn counted(count: u32, heard: &[Heard], is_loud: fn(&Heard) -> bool) -> u32 {
    let behind = heard.iter().rev().position(is_loud);
    let all = || u64::from(count) + heard.len() as u64;
    let samples = behind.map_or_else(all, |samples| samples as u64);
    samples.min(TOP.into()) as u32
}

fn loud(heard: &Heard) -> bool {
    heard.loud
}

fn right(asked: &Asked, count: u32) -> Figures {
    match &asked.call {
        Call::Make(..) | Call::LoadBefore(_) => (0, 0),
        Call::Load(numbers) => (0, Gate::of(Taker(numbers)).quiet),
        Call::Reset if asked.is_done() => (0, 0),
        _ if asked.is_done_block() => both(counted(count, &asked.heard, loud)),
        _ => (0, count),
    }
}

/// A third reckoning of every answer.
#[test]
fn what_is_told_is_counted() {
    for asked in stored().iter().chain(&new()) {
        let figures = right(asked, asked.gate.quiet);
        assert_eq!(asked.figures, figures, "{:?}", asked.call);
    }
}

/// A wrong count: of a call and the count before it, what it tells and leaves.
type Wrong = (&'static str, fn(&Asked, u32) -> Figures);

const fn both(count: u32) -> Figures {
    (count, count)
}

/// These figures here, and elsewhere the right ones.
fn but(asked: &Asked, count: u32, here: bool, figures: Figures) -> Figures {
    if here { figures } else { right(asked, count) }
}

/// Every sample of the block counted, loud or not.
fn grown(asked: &Asked, count: u32) -> u32 {
    count.saturating_add(asked.heard.len() as u32)
}

/// Another count of silence, of so many samples after so many.
fn silent(asked: &Asked, count: u32, counted: fn(u32, u32) -> u32) -> Figures {
    let here = asked.is_done_block() && asked.is_silent();
    let samples = asked.heard.len() as u32;
    but(asked, count, here, both(counted(count, samples)))
}

/// Another figure of a block that is done.
fn block(asked: &Asked, count: u32, counted: fn(u32, &[Heard]) -> u32) -> Figures {
    let figures = both(counted(count, &asked.heard));
    but(asked, count, asked.is_done_block(), figures)
}

fn refused_by(asked: &Asked, count: u32, number: u32, figures: Figures) -> Figures {
    let here = asked.is_block() && asked.number == number;
    but(asked, count, here, figures)
}

/// Counted as it should be, and told otherwise.
fn told(asked: &Asked, count: u32, here: bool, figure: u32) -> Figures {
    let (_, after) = right(asked, count);
    but(asked, count, here && asked.is_done_block(), (figure, after))
}

fn by_setting(asked: &Asked, count: u32, name: &str, figures: Figures) -> Figures {
    let here = asked.sets() == Some(name) && asked.is_done();
    but(asked, count, here, figures)
}

fn by_refused_setting(asked: &Asked, count: u32, number: u32, figures: Figures) -> Figures {
    let here = asked.sets().is_some() && asked.number == number;
    but(asked, count, here, figures)
}

fn of_form(asked: &Asked, count: u32, form: &str, figures: Figures) -> Figures {
    let here = asked.is_done_block() && asked.form == form;
    but(asked, count, here, figures)
}

fn untold(asked: &Asked, count: u32, form: &str) -> Figures {
    told(asked, count, asked.form == form, 0)
}

fn loading(asked: &Asked, count: u32, here: fn(&Gate) -> bool, after: u32) -> Figures {
    let here = asked.loads().is_some_and(|gate| here(&gate));
    but(asked, count, here, (0, after))
}

fn handing_back(asked: &Asked, count: u32, after: fn(&Gate) -> u32) -> Figures {
    match asked.hands_back() {
        Some(gate) => (0, after(&gate)),
        None => right(asked, count),
    }
}

/// As though 9 refused such counts.
fn refusing(asked: &Asked, count: u32, here: bool) -> Figures {
    let looks = asked.is_block() || asked.is_reset();
    but(asked, count, here && looks, (0, count))
}

const BLOCKS: [Wrong; 37] = [
    ("one more after a loud sample", |a, n| {
        block(a, n, |n, heard| match heard.iter().rev().position(loud) {
            Some(behind) => behind as u32 + 1,
            None => counted(n, heard, loud),
        })
    }),
    ("loud samples counted too", |a, n| {
        but(a, n, a.is_done_block(), both(grown(a, n)))
    }),
    ("loud samples change nothing", |a, n| {
        block(a, n, |n, heard| {
            let quiet = heard.iter().filter(|heard| !heard.loud);
            n.saturating_add(quiet.count() as u32)
        })
    }),
    ("a block with a loud sample gives 0", |a, n| {
        but(a, n, a.is_done_block() && !a.is_silent(), both(0))
    }),
    ("since the first loud sample", |a, n| {
        block(a, n, |n, heard| match heard.iter().position(loud) {
            Some(first) => (heard.len() - 1 - first) as u32,
            None => counted(n, heard, loud),
        })
    }),
    ("the first sample isn't looked at", |a, n| {
        block(a, n, |n, heard| {
            let behind = heard.get(1..).unwrap_or(&[]);
            counted(n.saturating_add(u32::from(!heard.is_empty())), behind, loud)
        })
    }),
    ("the last sample isn't looked at", |a, n| {
        block(a, n, |n, heard| {
            let before = &heard[..heard.len().saturating_sub(1)];
            let last = u32::from(!heard.is_empty());
            counted(n, before, loud).saturating_add(last)
        })
    }),
    ("each block begins anew", |a, n| {
        block(a, n, |_, heard| counted(0, heard, loud))
    }),
    ("blocks instead of samples", |a, n| {
        silent(a, n, |n, _| n.saturating_add(1))
    }),
    ("one too few in each block", |a, n| {
        silent(a, n, |n, samples| {
            n.saturating_add(samples.saturating_sub(1))
        })
    }),
    ("samples that are aimed closed", |a, n| {
        block(a, n, |n, heard| counted(n, heard, |heard| heard.open))
    }),
    ("loud at the factor", |a, n| {
        block(a, n, |n, heard| {
            counted(n, heard, |heard| heard.at_the_factor)
        })
    }),
    ("loud by the sample's size", |a, n| {
        block(a, n, |n, heard| {
            counted(n, heard, |heard| heard.by_its_size)
        })
    }),
    ("loud by the level before", |a, n| {
        block(a, n, |n, heard| {
            counted(n, heard, |heard| heard.by_the_level_before)
        })
    }),
    ("wraps at the top", |a, n| silent(a, n, u32::wrapping_add)),
    ("begins anew at the top", |a, n| {
        silent(a, n, |n, samples| match n {
            TOP => samples,
            n => n.saturating_add(samples),
        })
    }),
    ("a block that would pass the top is left out", |a, n| {
        silent(a, n, |n, samples| n.checked_add(samples).unwrap_or(n))
    }),
    ("a block that would reach the top is left out", |a, n| {
        silent(a, n, |n, samples| {
            let after = n.saturating_add(samples);
            if after == TOP { n } else { after }
        })
    }),
    ("stops one early", |a, n| {
        silent(a, n, |n, samples| n.saturating_add(samples).min(TOP - 1))
    }),
    ("stops at 2^31-1", |a, n| {
        silent(a, n, |n, samples| n.saturating_add(samples).min(TOP >> 1))
    }),
    ("stops at 96,000", |a, n| {
        silent(a, n, |n, samples| n.saturating_add(samples).min(96_000))
    }),
    ("in single floats", |a, n| {
        silent(a, n, |n, samples| (n as f32 + samples as f32) as u32)
    }),
    ("in 8 bits", |a, n| {
        silent(a, n, |n, samples| n.saturating_add(samples) & 0xff)
    }),
    ("in 16 bits", |a, n| {
        silent(a, n, |n, samples| n.saturating_add(samples) & 0xffff)
    }),
    ("an empty block begins anew", |a, n| {
        but(a, n, a.is_done_block() && a.heard.is_empty(), both(0))
    }),
    ("an empty block counts one", |a, n| {
        let here = a.is_done_block() && a.heard.is_empty();
        but(a, n, here, both(n.saturating_add(1)))
    }),
    ("an empty block tells 0", |a, n| {
        told(a, n, a.heard.is_empty(), 0)
    }),
    ("nothing is told", |a, n| told(a, n, true, 0)),
    ("the count before the block is told", |a, n| {
        told(a, n, true, n)
    }),
    ("the count before the last sample is told", |a, n| {
        let before = &a.heard[..a.heard.len().saturating_sub(1)];
        told(a, n, true, counted(n, before, loud))
    }),
    ("the top is told as 0", |a, n| {
        told(a, n, right(a, n).0 == TOP, 0)
    }),
    ("not told by value", |a, n| untold(a, n, "by value")),
    ("not told in place", |a, n| untold(a, n, "in place")),
    ("not told with a record", |a, n| {
        untold(a, n, "with a record")
    }),
    ("not counted by value", |a, n| {
        of_form(a, n, "by value", both(n))
    }),
    ("not counted in place", |a, n| {
        of_form(a, n, "in place", both(n))
    }),
    ("not counted with a record", |a, n| {
        of_form(a, n, "with a record", both(n))
    }),
];

const REFUSALS: [Wrong; 17] = [
    ("a refused block is counted", |a, n| {
        but(a, n, a.is_refused_block(), (0, grown(a, n)))
    }),
    ("one refused by 9 is counted", |a, n| {
        refused_by(a, n, 9, (0, grown(a, n)))
    }),
    ("one refused by 7 is counted", |a, n| {
        refused_by(a, n, 7, (0, grown(a, n)))
    }),
    ("one refused by 8 is counted", |a, n| {
        refused_by(a, n, 8, (0, grown(a, n)))
    }),
    ("one refused by 6 is counted", |a, n| {
        refused_by(a, n, 6, (0, grown(a, n)))
    }),
    ("a refused block's loud sample is heard", |a, n| {
        but(a, n, a.is_refused_block() && !a.is_silent(), (0, 0))
    }),
    ("one refused by 9 begins anew", |a, n| {
        refused_by(a, n, 9, (0, 0))
    }),
    ("one refused by 7 begins anew", |a, n| {
        refused_by(a, n, 7, (0, 0))
    }),
    ("one refused by 8 begins anew", |a, n| {
        refused_by(a, n, 8, (0, 0))
    }),
    ("one refused by 6 begins anew", |a, n| {
        refused_by(a, n, 6, (0, 0))
    }),
    ("one refused by 9 tells the gate's", |a, n| {
        refused_by(a, n, 9, both(n))
    }),
    ("one refused by 7 tells the gate's", |a, n| {
        refused_by(a, n, 7, both(n))
    }),
    ("one refused by 8 tells the gate's", |a, n| {
        refused_by(a, n, 8, both(n))
    }),
    ("one refused by 6 tells the gate's", |a, n| {
        refused_by(a, n, 6, both(n))
    }),
    ("9 refuses the top", |a, n| refusing(a, n, n == TOP)),
    ("9 refuses counts from 2^31 on", |a, n| {
        refusing(a, n, n >= 1 << 31)
    }),
    ("9 refuses counts above 96,000", |a, n| {
        refusing(a, n, n > 96_000)
    }),
];

const CALLS: [Wrong; 42] = [
    ("a reset leaves it", |a, n| but(a, n, a.is_reset(), (0, n))),
    ("a reset by value leaves it", |a, n| {
        but(a, n, a.is_reset() && a.form == "by value", (0, n))
    }),
    ("a reset in place leaves it", |a, n| {
        but(a, n, a.is_reset() && a.form == "in place", (0, n))
    }),
    ("a refused reset begins anew", |a, n| {
        but(a, n, a.is_reset() && !a.is_done(), (0, 0))
    }),
    ("a reset tells what it was", |a, n| {
        but(a, n, a.is_reset() && a.is_done(), (n, 0))
    }),
    ("a refused reset tells the gate's", |a, n| {
        but(a, n, a.is_reset() && !a.is_done(), both(n))
    }),
    ("a reset gives 1", |a, n| {
        but(a, n, a.is_reset() && a.is_done(), (0, 1))
    }),
    ("a making leaves it", |a, n| {
        but(a, n, a.is_making() && a.is_done(), (0, n))
    }),
    ("a refused making leaves it", |a, n| {
        but(a, n, a.is_making() && !a.is_done(), (0, n))
    }),
    ("a making gives 1", |a, n| {
        but(a, n, a.is_making() && a.is_done(), (0, 1))
    }),
    ("a making tells what it was", |a, n| {
        but(a, n, a.is_making(), (n, 0))
    }),
    ("the threshold begins anew", |a, n| {
        by_setting(a, n, "threshold", (0, 0))
    }),
    ("the ratio begins anew", |a, n| {
        by_setting(a, n, "ratio", (0, 0))
    }),
    ("the attack begins anew", |a, n| {
        by_setting(a, n, "attack", (0, 0))
    }),
    ("the release begins anew", |a, n| {
        by_setting(a, n, "release", (0, 0))
    }),
    ("the hold begins anew", |a, n| {
        by_setting(a, n, "hold", (0, 0))
    }),
    ("a typed setting begins anew", |a, n| {
        but(a, n, a.sets().is_some() && a.form == "typed", (0, 0))
    }),
    ("a setting by name begins anew", |a, n| {
        but(a, n, a.sets().is_some() && a.form == "by value", (0, 0))
    }),
    ("a setting in place begins anew", |a, n| {
        but(a, n, a.sets().is_some() && a.form == "in place", (0, 0))
    }),
    ("a setting refused by 1 begins anew", |a, n| {
        by_refused_setting(a, n, 1, (0, 0))
    }),
    ("a setting refused by 3 begins anew", |a, n| {
        by_refused_setting(a, n, 3, (0, 0))
    }),
    ("a setting refused by 4 begins anew", |a, n| {
        by_refused_setting(a, n, 4, (0, 0))
    }),
    ("a setting refused by 9 begins anew", |a, n| {
        by_refused_setting(a, n, 9, (0, 0))
    }),
    ("a setting tells the gate's", |a, n| {
        but(a, n, a.sets().is_some() && a.is_done(), both(n))
    }),
    ("a refused setting tells the gate's", |a, n| {
        but(a, n, a.sets().is_some() && !a.is_done(), both(n))
    }),
    ("a reading begins anew", |a, n| {
        but(a, n, a.is_reading(), (0, 0))
    }),
    ("a reading tells the gate's", |a, n| {
        but(a, n, a.is_reading() && a.is_done(), both(n))
    }),
    ("a refused reading tells the gate's", |a, n| {
        but(a, n, a.is_reading() && !a.is_done(), both(n))
    }),
    ("no call tells the gate's", |a, n| {
        but(a, n, matches!(a.call, Call::Unknown(_)), both(n))
    }),
    ("a load gives 1", |a, n| loading(a, n, |_| true, 1)),
    ("a load gives the top", |a, n| loading(a, n, |_| true, TOP)),
    ("a load keeps the count there was", |a, n| {
        loading(a, n, |_| true, n)
    }),
    ("a load in a hold keeps it", |a, n| {
        loading(a, n, |gate| gate.counter > 0, n)
    }),
    ("a load in no hold keeps it", |a, n| {
        loading(a, n, |gate| gate.counter == 0, n)
    }),
    ("a load of what 9 refuses keeps it", |a, n| {
        loading(a, n, |gate| !gate.is_acceptable(), n)
    }),
    ("a load tells what it was", |a, n| {
        but(a, n, a.loads().is_some(), (n, 0))
    }),
    ("handing back begins anew", |a, n| handing_back(a, n, |_| 0)),
    ("handing back keeps the count there was", |a, n| {
        but(a, n, a.hands_back().is_some(), (0, n))
    }),
    ("handed back in 16 bits", |a, n| {
        handing_back(a, n, |gate| gate.quiet & 0xffff)
    }),
    ("handed back as far as 2^31-1", |a, n| {
        handing_back(a, n, |gate| gate.quiet.min(TOP >> 1))
    }),
    ("handed back what 9 refuses begins anew", |a, n| {
        handing_back(
            a,
            n,
            |gate| {
                if gate.is_acceptable() { gate.quiet } else { 0 }
            },
        )
    }),
    ("handing back tells it", |a, n| {
        let (_, after) = right(a, n);
        but(a, n, a.hands_back().is_some(), both(after))
    }),
];

/// How many answers a wrong count changes, carried from call to call.
fn changed(all: &[Asked], wrong: fn(&Asked, u32) -> Figures) -> usize {
    let mut count = 0;
    let differs = |asked: &&Asked| {
        let figures = wrong(asked, count);
        count = figures.1;
        figures != asked.figures
    };
    all.iter().filter(differs).count()
}

/// Said where it is run with --nocapture.
#[test]
fn each_list_tells_wrong_counts_apart() {
    for (list, all) in [("the stored list", stored()), ("a new list", new())] {
        assert_eq!(changed(&all, right), 0, "{list}");
        for (name, wrong) in BLOCKS.iter().chain(&REFUSALS).chain(&CALLS) {
            let count = changed(&all, *wrong);
            println!("{list}, {name}: {count}");
            assert!(count > 0, "{list} doesn't tell apart: {name}");
        }
    }
}

/// What a done block is to the count.
fn kinds(asked: &Asked) -> Vec<&'static str> {
    let (before, (after, _)) = (asked.gate.quiet, asked.figures);
    let heard = &asked.heard;
    let is_loud = |at: usize| heard.get(at).is_some_and(loud);
    let [first, last] = [0, heard.len().wrapping_sub(1)].map(is_loud);
    let some = !asked.is_silent();
    let length = heard.len();
    let mut all = vec![
        ("empty, at 0", length == 0 && before == 0),
        ("empty, not at 0", length == 0 && before > 0),
        ("empty, at the top", length == 0 && before == TOP),
        ("silent, from 0", length > 0 && !some && before == 0),
        ("silent, goes on", length > 0 && !some && before > 0),
        ("all loud", length > 0 && heard.iter().all(loud)),
        ("loud first", first && !last),
        ("loud last", last && !first),
        ("loud in the middle", some && !first && !last),
        (
            "open and quiet",
            heard.last().is_some_and(|last| last.open && !last.loud),
        ),
        ("reaches the top", before < TOP && after == TOP),
        (
            "just reaches the top",
            before < TOP && u64::from(before) + length as u64 == TOP.into() && !some,
        ),
        (
            "the top's last sample",
            before == TOP - 1 && length == 1 && !some,
        ),
        (
            "stays at the top",
            length > 0 && before == TOP && after == TOP,
        ),
        ("loud at the top", before == TOP && some),
    ];
    all.retain(|&(_, holds)| holds);
    all.into_iter().map(|(name, _)| name).collect()
}

const KINDS: [&str; 15] = [
    "empty, at 0",
    "empty, not at 0",
    "empty, at the top",
    "silent, from 0",
    "silent, goes on",
    "all loud",
    "loud first",
    "loud last",
    "loud in the middle",
    "open and quiet",
    "reaches the top",
    "just reaches the top",
    "the top's last sample",
    "stays at the top",
    "loud at the top",
];

const OF_BLOCKS: [&str; 3] = ["by value", "in place", "with a record"];

/// In the stored list, in each form. Said where it is run with --nocapture.
#[test]
fn blocks_of_each_kind_are_there() {
    let mut counts = BTreeMap::<_, usize>::new();
    for asked in stored() {
        if asked.is_done_block() {
            for kind in kinds(&asked) {
                *counts.entry((asked.form, kind)).or_default() += 1;
            }
        } else if asked.is_block() && asked.gate.quiet > 0 {
            let kind = match asked.number {
                6 => "refused by 6",
                7 => "refused by 7",
                8 => "refused by 8",
                _ => "refused by 9",
            };
            *counts.entry((asked.form, kind)).or_default() += 1;
        }
    }
    println!("{counts:?}");
    for form in OF_BLOCKS {
        let refused = [
            "refused by 9",
            "refused by 7",
            "refused by 8",
            "refused by 6",
        ];
        for kind in KINDS.into_iter().chain(refused) {
            let count = counts.get(&(form, kind)).copied().unwrap_or(0);
            assert!(count >= 2, "{form}, {kind}: {count}");
        }
    }
}

/// In the stored list, over a count that runs. Said where it is run with --nocapture.
#[test]
fn other_calls_over_a_count_are_there() {
    let mut counts = BTreeMap::<_, usize>::new();
    for asked in stored().into_iter().filter(|asked| asked.gate.quiet > 0) {
        let name = match &asked.call {
            Call::Make(..) => "make",
            Call::Reset => "reset",
            Call::Read(_) => "read",
            Call::Unknown(_) => "no call",
            _ => asked.sets().unwrap_or(""),
        };
        let kind = (name, asked.form, asked.number);
        *counts.entry(kind).or_default() += 1;
    }
    println!("{counts:?}");
    let has = |name, form, number| {
        let count = counts.get(&(name, form, number)).copied().unwrap_or(0);
        assert!(count >= 2, "{name}, {form}, {number}: {count}");
    };
    for form in ["typed", "by value", "in place"] {
        for name in NAMES {
            has(name, form, 0);
            has(name, form, 3);
        }
        for name in ["threshold", "attack", "release"] {
            has(name, form, 4);
        }
        has("hold", form, 9);
    }
    for form in ["by value", "in place"] {
        has("none", form, 1);
        has("reset", form, 0);
        has("reset", form, 9);
    }
    for number in [0, 1, 9] {
        has("read", "by value", number);
    }
    for number in [0, 4, 5] {
        has("make", "by value", number);
    }
    has("no call", "by value", TOP);
}

/// In the stored list: gates from before over a count that runs, and each count that is handed back.
#[test]
fn kept_gates_of_each_kind_are_there() {
    let (mut loads, mut counts) = (BTreeMap::<_, usize>::new(), BTreeMap::<_, usize>::new());
    for asked in stored() {
        if let Some(gate) = asked.loads().filter(|_| asked.gate.quiet > 0) {
            let kind = (gate.is_acceptable(), gate.counter > 0);
            *loads.entry(kind).or_default() += 1;
        }
        if let Some(gate) = asked.hands_back().filter(Gate::is_acceptable) {
            *counts.entry(gate.quiet).or_default() += 1;
        }
    }
    println!("{loads:?}, {} counts", counts.len());
    for kind in [(true, true), (true, false), (false, true), (false, false)] {
        assert!(loads[&kind] >= 3, "{kind:?}");
    }
    for count in COUNTS {
        assert!(counts[&count] >= 3 * FORMS.len(), "{count}");
    }
}

/// The bytes of a gate handed back: the 64 of a load from before but for the number, and the count behind them. Without its
/// last byte it is none.
#[test]
fn bytes_of_a_gate_handed_back() {
    let gate = Gate {
        rate: 48_000.0,
        counter: 3,
        quiet: 0x0403_0201,
        ..Gate::default()
    };
    let [before, today] =
        [call::load(gate), call::hand_back(gate)].map(|call| call::bytes(&call, false));
    assert_eq!([before.len(), today.len()], [64, 68]);
    assert_eq!([before[0], today[0]], [7, 13]);
    assert_eq!(before[1..], today[1..64]);
    assert_eq!(today[64..], [1, 2, 3, 4]);
    assert_eq!(call::list(&today).count(), 1);
    assert_eq!(call::list(&today[..67]).count(), 0);
    let answers = NoiseGate::NEW.answers(&[today, before].concat()).unwrap();
    let (today, before) = answers.split_at(104);
    assert_eq!(today[..40], [0; 40]);
    assert_eq!(today[100..], [1, 2, 3, 4]);
    assert_eq!(before[..100], today[..100]);
    assert_eq!(before[100..], [0; 4]);
}
