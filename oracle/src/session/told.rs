//! What the tool's JSON tells, field by field: each must be there, in its order, and nothing else.
use super::json::{self, Json};
use crate::gate::Gate;
use std::str::FromStr;

/// The first sample aimed open, or quiet, and the first one after.
pub type Span = (u64, u64);

/// A sample, and the ms that it is said to be at.
pub type Time = (u64, f64);

/// What the tool says of one run over the recording.
pub enum Heard {
    /// Every span, and with them the times that it says.
    Spans {
        spans: Vec<Span>,
        times: Vec<Time>,
        open: u64,
        quiet: Quiet,
    },
    Runs(Vec<Run>),
}

/// The longest quiet stretch, how many samples were quiet at the end, and the times that are said of both.
pub struct Quiet {
    pub longest: Option<Span>,
    pub at_end: u64,
    pub times: Vec<Time>,
}

/// A hold in samples, and its word.
pub struct Hold {
    pub samples: u64,
    pub word: String,
}

/// A run of --compare: its settings, how many samples and spans, the first sample aimed open and the end of the last span,
/// and how long it was quiet.
pub struct Run {
    pub gate: Gate,
    pub hold: Hold,
    pub open: u64,
    pub spans: u64,
    pub ends: Option<Span>,
    pub quiet: Quiet,
}

/// A band's number, its dB and its worked numbers.
pub type Band = (u32, f32, [f64; 5]);

pub struct Told {
    pub rate: u32,
    pub samples: u64,
    pub ms: f64,
    pub gate: Gate,
    pub hold: Hold,
    pub bands: Vec<Band>,
    pub heard: Heard,
}

type Or<T> = Result<T, String>;

pub fn read(text: &str) -> Or<Told> {
    if text.trim_end_matches('\n').contains('\n') {
        return Err("the JSON stands on more than one line".into());
    }
    let json = json::read(text)?;
    let values = if matches!(&json, Json::Object(pairs) if pairs.iter().any(|(name, _)| name == "runs"))
    {
        fields(&json, WITH_RUNS)?.to_vec()
    } else {
        fields(&json, WITH_SPANS)?.to_vec()
    };
    let [file, rate, samples, ms, settings, bands, ref last @ ..] = values[..] else {
        unreachable!("both have these")
    };
    string("file", file)?;
    let rate = parsed("rate", rate)?;
    let (gate, hold) = gate(settings, rate)?;
    Ok(Told {
        rate,
        samples: parsed("samples", samples)?,
        ms: parsed("ms", ms)?,
        gate,
        hold,
        bands: list("eq", bands)?.iter().map(band).collect::<Or<_>>()?,
        heard: match *last {
            [spans, open, quiet] => heard(list("spans", spans)?, open, quiet)?,
            _ => Heard::Runs(runs(list("runs", last[0])?, gate)?),
        },
    })
}

const WITH_SPANS: [&str; 9] = [
    "file", "rate", "samples", "ms", "settings", "eq", "spans", "open", "quiet",
];
const WITH_RUNS: [&str; 7] = ["file", "rate", "samples", "ms", "settings", "eq", "runs"];

/// The values of an object that has these names in this order, and no other.
fn fields<'a, const N: usize>(json: &'a Json, names: [&str; N]) -> Or<[&'a Json; N]> {
    let Json::Object(pairs) = json else {
        return Err(format!("no object with {names:?}"));
    };
    let has: Vec<&str> = pairs.iter().map(|(name, _)| name.as_str()).collect();
    if has != names {
        return Err(format!("an object has {has:?}, and should have {names:?}"));
    }
    Ok(std::array::from_fn(|at| &pairs[at].1))
}

fn list<'a>(name: &str, json: &'a Json) -> Or<&'a [Json]> {
    match json {
        Json::List(list) => Ok(list),
        _ => Err(format!("{name} is no list")),
    }
}

fn string<'a>(name: &str, json: &'a Json) -> Or<&'a str> {
    match json {
        Json::Text(text) => Ok(text),
        _ => Err(format!("{name} is no string")),
    }
}

fn parsed<T: FromStr>(name: &str, json: &Json) -> Or<T> {
    match json {
        Json::Number(text) => text.parse().map_err(|_| format!("{name} is {text}")),
        _ => Err(format!("{name} is no number")),
    }
}

fn held(samples: &Json, word: &Json) -> Or<Hold> {
    Ok(Hold {
        samples: parsed("hold_samples", samples)?,
        word: string("hold_word", word)?.into(),
    })
}

fn gate(json: &Json, rate: u32) -> Or<(Gate, Hold)> {
    const NAMES: [&str; 12] = [
        "threshold_db",
        "factor",
        "ratio",
        "attack_ms",
        "opening",
        "release_ms",
        "closing",
        "hold_ms",
        "hold_samples",
        "hold_word",
        "rising",
        "falling",
    ];
    let values = fields(json, NAMES)?;
    let single = |at: usize| parsed::<f32>(NAMES[at], values[at]);
    let gate = Gate {
        rate: rate as f32,
        threshold: single(0)?,
        factor: single(1)?,
        ratio: single(2)?,
        attack: single(3)?,
        opening: single(4)?,
        release: single(5)?,
        closing: single(6)?,
        hold: single(7)?,
        rising: single(10)?,
        falling: single(11)?,
        ..Gate::default()
    };
    Ok((gate, held(values[8], values[9])?))
}

fn band(json: &Json) -> Or<Band> {
    const NAMES: [&str; 7] = ["band", "db", "b0", "b1", "b2", "a1", "a2"];
    let values = fields(json, NAMES)?;
    let mut worked = [0.0; 5];
    for (at, number) in worked.iter_mut().enumerate() {
        *number = parsed(NAMES[at + 2], values[at + 2])?;
    }
    Ok((parsed("band", values[0])?, parsed("db", values[1])?, worked))
}

/// A span, and the times of its ends.
fn span(json: &Json) -> Or<(Span, [Time; 2])> {
    let [from, to, from_ms, to_ms] = fields(json, ["from", "to", "from_ms", "to_ms"])?;
    let span = (parsed("from", from)?, parsed("to", to)?);
    let from = (span.0, parsed("from_ms", from_ms)?);
    let to = (span.1, parsed("to_ms", to_ms)?);
    Ok((span, [from, to]))
}

fn heard(list: &[Json], open: &Json, quiet: &Json) -> Or<Heard> {
    let (mut spans, mut times) = (Vec::new(), Vec::new());
    for json in list {
        let (span, ends) = span(json)?;
        spans.push(span);
        times.extend(ends);
    }
    Ok(Heard::Spans {
        spans,
        times,
        open: parsed("open", open)?,
        quiet: quieted(quiet)?,
    })
}

fn quieted(json: &Json) -> Or<Quiet> {
    let [longest, at_end, at_end_ms] = fields(json, ["longest", "at_end", "at_end_ms"])?;
    let at_end = parsed("at_end", at_end)?;
    let mut times = vec![(at_end, parsed("at_end_ms", at_end_ms)?)];
    let longest = match longest {
        Json::Null => None,
        json => {
            let (span, ends) = span(json)?;
            times.extend(ends);
            Some(span)
        }
    };
    Ok(Quiet {
        longest,
        at_end,
        times,
    })
}

fn runs(list: &[Json], gate: Gate) -> Or<Vec<Run>> {
    list.iter().map(|json| run(json, gate)).collect()
}

/// The gate's other settings are those of the whole.
fn run(json: &Json, gate: Gate) -> Or<Run> {
    let [
        threshold,
        factor,
        hold,
        hold_samples,
        hold_word,
        open,
        spans,
        first,
        end,
        quiet,
    ] = fields(
        json,
        [
            "threshold_db",
            "factor",
            "hold_ms",
            "hold_samples",
            "hold_word",
            "open",
            "spans",
            "first",
            "end",
            "quiet",
        ],
    )?;
    let ends = match (first, end) {
        (Json::Null, Json::Null) => None,
        _ => Some((parsed("first", first)?, parsed("end", end)?)),
    };
    Ok(Run {
        gate: Gate {
            threshold: parsed("threshold_db", threshold)?,
            factor: parsed("factor", factor)?,
            hold: parsed("hold_ms", hold)?,
            ..gate
        },
        hold: held(hold_samples, hold_word)?,
        open: parsed("open", open)?,
        spans: parsed("spans", spans)?,
        ends,
        quiet: quieted(quiet)?,
    })
}
