//! The oracle's commands. Lists and answers are the bytes that a replay reads and writes.
use oracle::{
    compare::{compare, hold},
    gap, power,
    random::Random,
    replay::Replay,
    session, stages,
};
use std::{
    io::{self, Read, Write},
    process::ExitCode,
    time::Instant,
};

const USAGE: &str = "\
oracle make STAGE                          writes the list that is stored
oracle answer STAGE                        reads a list and writes the answers
oracle generate STAGE SEED CASES           writes a new list, of CASES of each kind
oracle hold STAGE PROGRAM..                reads a list and compares a program on it
oracle compare STAGE SEED CASES PROGRAM..  compares a program on new lists
oracle session FILE.wav FILE.json [GATED.wav]
                                           judges what the session tool says of a recording, and what it wrote
oracle spans FILE.wav DB RATIO MS MS MS    the spans aimed open: threshold, ratio, attack, release, hold
oracle gated FILE.wav DB RATIO MS MS MS    writes the file that such a gate makes of it
oracle gap                                 measures a leveller's gain against the C library's power";

fn main() -> ExitCode {
    let words: Vec<String> = std::env::args().skip(1).collect();
    match run(&words) {
        Ok(()) => ExitCode::SUCCESS,
        Err(reason) => {
            eprintln!("oracle: {reason}");
            ExitCode::FAILURE
        }
    }
}

fn run(words: &[String]) -> Result<(), String> {
    let words: Vec<&str> = words.iter().map(String::as_str).collect();
    match words[..] {
        ["make", stage] => write(&named(stage)?.stored()),
        ["answer", stage] => write(&named(stage)?.answers(&list()?)?),
        ["generate", stage, seed, cases] => {
            let mut random = Random::new(number(seed)?);
            write(&named(stage)?.generated(&mut random, number(cases)?))
        }
        ["hold", stage, ref program @ ..] if !program.is_empty() => {
            hold(named(stage)?, &list()?, &owned(program))
        }
        ["compare", stage, seed, cases, ref program @ ..] if !program.is_empty() => {
            report(stage, number(seed)?, number(cases)?, program)
        }
        ["session", wave, json] => session(wave, json, None),
        ["session", wave, json, gated] => session(wave, json, Some(gated)),
        ["spans", wave, ref settings @ ..] if settings.len() == 5 => {
            write(session::spans(&file(wave)?, settings_of(settings)?)?.as_bytes())
        }
        ["gated", wave, ref settings @ ..] if settings.len() == 5 => {
            write(&session::gated(&file(wave)?, settings_of(settings)?)?)
        }
        ["gap"] => {
            println!("powf of {}", power::c_library());
            for ratio in [2.0, 4.0] {
                println!("{}", gap::measured(ratio));
            }
            Ok(())
        }
        _ => Err(format!("it is called so:\n{USAGE}")),
    }
}

fn report(stage: &str, seed: u64, cases: u64, program: &[&str]) -> Result<(), String> {
    let began = Instant::now();
    println!("{stage}: seed {seed}");
    let counts = compare(named(stage)?, seed, cases, &owned(program))?;
    for (kind, count) in &counts {
        println!("{count:>12} {kind}");
    }
    let seconds = began.elapsed().as_secs();
    println!("{stage}: none differs ({seconds} s)");
    Ok(())
}

fn session(wave: &str, json: &str, gated: Option<&str>) -> Result<(), String> {
    let json = String::from_utf8(file(json)?).map_err(|error| format!("{json}: {error}"))?;
    let gated = gated.map(file).transpose()?;
    println!(
        "{}",
        session::judged(&file(wave)?, &json, gated.as_deref())?
    );
    Ok(())
}

fn settings_of(words: &[&str]) -> Result<[f32; 5], String> {
    let mut numbers = [0.0; 5];
    for (number, word) in numbers.iter_mut().zip(words) {
        *number = word.parse().map_err(|_| format!("not a number: {word}"))?;
    }
    Ok(numbers)
}

fn file(name: &str) -> Result<Vec<u8>, String> {
    std::fs::read(name).map_err(|error| format!("{name}: {error}"))
}

fn owned(words: &[&str]) -> Vec<String> {
    words.iter().map(|&word| word.into()).collect()
}

fn named(stage: &str) -> Result<&'static dyn Replay, String> {
    stages::named(stage).ok_or(format!("no stage {stage}"))
}

fn number(word: &str) -> Result<u64, String> {
    word.parse().map_err(|_| format!("not a number: {word}"))
}

fn list() -> Result<Vec<u8>, String> {
    let mut bytes = Vec::new();
    let read = io::stdin().read_to_end(&mut bytes);
    read.map(|_| bytes).map_err(|error| error.to_string())
}

fn write(bytes: &[u8]) -> Result<(), String> {
    let written = io::stdout().write_all(bytes);
    written.map_err(|error| error.to_string())
}
