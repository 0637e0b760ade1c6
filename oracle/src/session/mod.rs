//! Judges what the session tool says of a recording: its JSON, and the file that it wrote, against the Rust's gate and
//! equaliser with the tool's worked numbers lent, and the documents' models, sample by sample.
//! `oracle/README.md` says what is compared.
mod json;
mod passage;
#[cfg(test)]
mod rows;
mod told;
mod worked;

use crate::{exact::EXACT, gate::Gate, wave::rules::read, wave_write::rules::head};
use passage::{Passage, Then};
use told::{Heard, Hold, Quiet, Run, Span, Time, Told};

/// How far a time may be from its sample's: three decimals are said.
const MS: f64 = 0.000_6;

/// A recording's rate, and its samples as bytes.
fn recording(file: &[u8]) -> Result<(u32, &[u8]), String> {
    let told = read(file);
    let [from, length] = [told.place, told.length].map(|n| n as usize);
    match told.number {
        0 => Ok((told.rate, &file[from..from + length])),
        number => Err(format!("the recording is refused by {number}")),
    }
}

/// One line where the tool says what the Rust does; else the first difference.
pub fn judged(file: &[u8], json: &str, gated: Option<&[u8]>) -> Result<String, String> {
    let (rate, samples) = recording(file)?;
    let said = told::read(json)?;
    let count = samples.len() as u64 / 2;
    same("rate", said.rate, rate)?;
    same("samples", said.samples, count)?;
    near("ms", said.ms, count, rate)?;
    settings_agree(&said.gate, &said.hold)?;
    match &said.heard {
        Heard::Runs(_) if gated.is_some() => Err("several runs write no file".into()),
        Heard::Runs(runs) => {
            runs.iter().try_for_each(|run| agrees(run, rate, samples))?;
            Ok(format!(
                "{count} samples, {} runs: as the Rust aims",
                runs.len()
            ))
        }
        Heard::Spans {
            spans,
            times,
            open,
            quiet,
        } => {
            let then = behind(&said, gated.is_some())?;
            let passage = passage::of(said.gate, samples, then)?;
            spans_agree(spans, *open, &passage)?;
            times_agree("a span's time", times, rate)?;
            quiet_agrees(quiet, rate, &passage)?;
            gated.map_or(Ok(()), |gated| file_agrees(gated, rate, &passage.written))?;
            Ok(format!(
                "{count} samples, {} spans: as the Rust aims",
                spans.len()
            ))
        }
    }
}

/// A gate with worked numbers by the header's formulas, of threshold, ratio, attack, release and hold.
fn worked_gate(settings: [f32; 5], rate: u32) -> Result<Gate, String> {
    let gate = worked::gate(settings, rate);
    worked::judged(&gate).map(|()| gate)
}

/// The spans that the Rust aims open at: a line for each, then their sum.
pub fn spans(file: &[u8], settings: [f32; 5]) -> Result<String, String> {
    let (rate, samples) = recording(file)?;
    let passage = passage::of(worked_gate(settings, rate)?, samples, Then::Nothing)?;
    let lines = passage.spans.iter();
    let lines = lines.map(|(from, to)| format!("{from} {to}\n"));
    let sum = format!("{} of {}\n", passage.open, samples.len() / 2);
    Ok(lines.collect::<String>() + &sum)
}

/// The file that such a gate alone makes of the recording.
pub fn gated(file: &[u8], settings: [f32; 5]) -> Result<Vec<u8>, String> {
    let (rate, samples) = recording(file)?;
    let passage = passage::of(worked_gate(settings, rate)?, samples, Then::Written(None))?;
    Ok(written(rate, &passage.written))
}

fn same<T: PartialEq + std::fmt::Debug>(name: &str, said: T, is: T) -> Result<(), String> {
    if said == is {
        Ok(())
    } else {
        Err(format!("{name}: the tool says {said:?}, and it is {is:?}"))
    }
}

fn near(name: &str, ms: f64, sample: u64, rate: u32) -> Result<(), String> {
    let is = sample as f64 * 1000.0 / f64::from(rate);
    if (ms - is).abs() < MS {
        Ok(())
    } else {
        Err(format!(
            "{name}: the tool says {ms} ms, and sample {sample} is at {is}"
        ))
    }
}

fn times_agree(name: &str, said: &[Time], rate: u32) -> Result<(), String> {
    let mut said = said.iter();
    said.try_for_each(|&(sample, ms)| near(name, ms, sample, rate))
}

/// Whether the worked numbers and the hold are the gate's.
fn settings_agree(gate: &Gate, said: &Hold) -> Result<(), String> {
    worked::judged(gate)?;
    let hold = worked::hold(gate)?;
    same("hold_samples", said.samples, hold.samples)?;
    same("hold_word", &said.word[..], word(hold.word))
}

/// A truncation's word as the tool writes it.
const fn word(word: u32) -> &'static str {
    match word {
        EXACT => "exact",
        _ => "cut",
    }
}

/// The bands' numbers are judged also where nothing is written.
fn behind(said: &Told, written: bool) -> Result<Then, String> {
    let equaliser = worked::equaliser(&said.bands, said.rate)?;
    Ok(if written {
        Then::Written((!said.bands.is_empty()).then(|| equaliser.into()))
    } else {
        Then::Nothing
    })
}

fn spans_agree(said: &[Span], open: u64, passage: &Passage) -> Result<(), String> {
    for (at, (said, is)) in said.iter().zip(&passage.spans).enumerate() {
        same(&format!("span {at}"), said, is)?;
    }
    same("spans", said.len(), passage.spans.len())?;
    same("open", open, passage.open)
}

fn quiet_agrees(said: &Quiet, rate: u32, passage: &Passage) -> Result<(), String> {
    same("longest quiet", said.longest, passage.longest_quiet)?;
    same("quiet at the end", said.at_end, passage.quiet_at_end)?;
    times_agree("a quiet time", &said.times, rate)
}

fn agrees(run: &Run, rate: u32, samples: &[u8]) -> Result<(), String> {
    settings_agree(&run.gate, &run.hold)?;
    let passage = passage::of(run.gate, samples, Then::Nothing)?;
    let name = |of: &str| {
        format!(
            "{of} at {} dB, hold {} ms",
            run.gate.threshold, run.gate.hold
        )
    };
    let ends = passage.spans.first().zip(passage.spans.last());
    same(&name("open"), run.open, passage.open)?;
    same(&name("spans"), run.spans, passage.spans.len() as u64)?;
    same(
        &name("first and end"),
        run.ends,
        ends.map(|(first, last)| (first.0, last.1)),
    )?;
    quiet_agrees(&run.quiet, rate, &passage).map_err(|reason| name(&reason))
}

/// The writer's head, whatever the length, and the samples behind it.
fn written(rate: u32, samples: &[u8]) -> Vec<u8> {
    let mut file = head(rate, samples.len() as u32);
    file.extend(samples);
    file
}

fn file_agrees(gated: &[u8], rate: u32, samples: &[u8]) -> Result<(), String> {
    let is = written(rate, samples);
    let place = gated.iter().zip(&is).position(|(said, is)| said != is);
    if let Some(at) = place {
        let sample = at.checked_sub(44).map(|at| at / 2);
        return Err(format!(
            "byte {at} of the written file, sample {sample:?}: {}, and it should be {}",
            gated[at], is[at]
        ));
    }
    same("bytes of the written file", gated.len(), is.len())
}
