//! Compares a replay with the oracle on new lists.
use crate::{
    random::Random,
    replay::{Counts, Replay},
};
use std::{
    io::{ErrorKind, Read, Write},
    process::{Command, Stdio},
    thread,
};

/// How many cases of each kind go to the program at a time, so that a long comparison needs little
/// memory.
const PART: u64 = 20_000;

/// Hands `program` new lists, in all `cases` of each kind, and answers how many calls of each kind
/// were compared, or what differs first.
pub fn compare(
    stage: &dyn Replay,
    seed: u64,
    cases: u64,
    program: &[String],
) -> Result<Counts, String> {
    let mut random = Random::new(seed);
    let mut counts = Counts::new();
    let mut left = cases;
    while left > 0 {
        let part = left.min(PART);
        let calls = stage.generated(&mut random, part);
        hold(stage, &calls, program)?;
        for (kind, count) in stage.counts(&calls) {
            *counts.entry(kind).or_default() += count;
        }
        left -= part;
    }
    Ok(counts)
}

/// Hands `program` a list, and says what differs first: of its answers, or of what it says on standard
/// error.
pub fn hold(stage: &dyn Replay, calls: &[u8], program: &[String]) -> Result<(), String> {
    let (port, rust) = thread::scope(|scope| {
        let port = scope.spawn(|| run(program, calls));
        let rust = stage.answers(calls);
        (port.join().expect("the thread ends"), rust)
    });
    let (Ran { output: port, said }, rust) = (port.map_err(|error| error.to_string())?, rust?);
    let differs = port.iter().zip(&rust).position(|(a, b)| a != b);
    match differs {
        Some(at) => Err(told(stage, calls, at, &port, &rust)),
        None if port.len() != rust.len() => Err(format!(
            "the program wrote {} bytes, the oracle {}",
            port.len(),
            rust.len()
        )),
        None => match stage.said(calls) {
            Some(rust) if rust != said => {
                Err(format!("the program says {said:?}, the oracle {rust:?}"))
            }
            _ => Ok(()),
        },
    }
}

fn told(stage: &dyn Replay, calls: &[u8], at: usize, port: &[u8], rust: &[u8]) -> String {
    let around = |bytes: &[u8]| bytes[at / 8 * 8..bytes.len().min(at / 8 * 8 + 8)].to_vec();
    format!(
        "byte {at} of the answers differs: the program {:02x?}, the oracle {:02x?}\n{}",
        around(port),
        around(rust),
        stage.told(calls, at)
    )
}

/// What a program writes to standard output and says on standard error.
struct Ran {
    output: Vec<u8>,
    said: String,
}

/// What the program writes and says when it reads `input`.
fn run(program: &[String], input: &[u8]) -> std::io::Result<Ran> {
    let mut child = Command::new(&program[0])
        .args(&program[1..])
        .stdin(Stdio::piped())
        .stdout(Stdio::piped())
        .stderr(Stdio::piped())
        .spawn()?;
    let mut stdin = child.stdin.take().expect("a pipe");
    let mut stdout = child.stdout.take().expect("a pipe");
    let mut stderr = child.stderr.take().expect("a pipe");
    let (mut output, mut said) = (Vec::new(), String::new());
    thread::scope(|scope| {
        let writer = scope.spawn(move || stdin.write_all(input));
        let listener = scope.spawn(|| stderr.read_to_string(&mut said));
        stdout.read_to_end(&mut output)?;
        listener.join().expect("the thread ends")?;
        match writer.join().expect("the thread ends") {
            // A program that stops reading has written too little.
            Err(error) if error.kind() == ErrorKind::BrokenPipe => Ok(()),
            written => written,
        }
    })?;
    let status = child.wait()?;
    if status.success() {
        Ok(Ran { output, said })
    } else {
        Err(std::io::Error::other(format!(
            "the program ended with {status}: {said}"
        )))
    }
}
