//! Published vectors of fused multiply-add: facts from the GNU C library 2.36,
//! math/auto-libm-test-out-fma, rounding to nearest. A line has three operands and the result, as bits.
use super::{Case, Operation};
use std::{collections::HashMap, sync::LazyLock};

const FMA32: &str = include_str!("../../vectors/fma32.txt");
const FMA64: &str = include_str!("../../vectors/fma64.txt");

static ANSWERS: LazyLock<HashMap<Case, u64>> = LazyLock::new(|| vectors().collect());

/// Every vector, with its answer.
pub fn vectors() -> impl Iterator<Item = (Case, u64)> {
    let files = [(Operation::Fma32, FMA32), (Operation::Fma64, FMA64)];
    files.into_iter().flat_map(|(operation, text)| {
        let rows = text.lines().filter(|line| !line.starts_with('#'));
        rows.map(move |row| vector(operation, row))
    })
}

fn vector(operation: Operation, row: &str) -> (Case, u64) {
    let bits = |word| u64::from_str_radix(word, 16).expect("bits in hexadecimal");
    let words: Vec<u64> = row.split_whitespace().map(bits).collect();
    let [a, b, c, answer] = words[..] else {
        panic!("not a vector: {row}");
    };
    let operands = [a, b, c];
    (
        Case {
            operation,
            operands,
        },
        answer,
    )
}

pub fn answer(case: Case) -> Option<u64> {
    ANSWERS.get(&case).copied()
}
