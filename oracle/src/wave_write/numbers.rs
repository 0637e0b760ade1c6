//! Calls by their three numbers: rates, lengths and rooms at their limits and around powers of two.
use super::{
    call::{Call, LONGEST},
    cases::at,
    rules::HEAD,
};
use crate::wave::file::counted;

const RATES: [u32; 27] = [
    0,
    1,
    4_000,
    7_998,
    7_999,
    8_000,
    8_001,
    11_025,
    12_000,
    16_000,
    22_050,
    24_000,
    32_000,
    44_100,
    48_000,
    64_000,
    88_200,
    96_000,
    128_000,
    176_400,
    191_999,
    192_000,
    192_001,
    192_002,
    384_000,
    16_777_216,
    u32::MAX,
];

/// Rates of the table, around every power of two, and accepted ones with a higher bit set or their bytes in reverse.
pub fn tried_rates() -> Vec<u32> {
    let mut rates = RATES.to_vec();
    for power in 0..32 {
        let power = 1 << power;
        rates.extend([power - 1, power, power + 1]);
    }
    for accepted in [8_000_u32, 44_100, 48_000, 192_000] {
        rates.push(accepted.swap_bytes());
        rates.extend((18..32).map(|bit| accepted | 1 << bit));
    }
    rates.sort_unstable();
    rates.dedup();
    rates
}

/// Each rate with no samples and just enough room, and with some samples and more room.
pub fn rates() -> Vec<Call> {
    let calls = |rate| [at(rate, 0, HEAD), at(rate, 4, HEAD + 6)];
    tried_rates().into_iter().flat_map(calls).collect()
}

/// Each length with room for the samples alone, and around the file's.
pub fn lengths() -> Vec<Call> {
    let mut lengths: Vec<usize> = (0..36).collect();
    for power in [
        64, 128, 256, 512, 1_024, 4_096, 65_536, 131_072, 262_144, 524_288,
    ] {
        lengths.extend([power - HEAD - 2, power - HEAD, power - HEAD + 2]);
        lengths.extend(power - 2..=power + 2);
    }
    let rooms = |length: usize| {
        let file = HEAD + length;
        [length, file - 1, file, file + 1, file + 100]
    };
    let calls =
        |length: usize| rooms(length).map(|room| at(44_100 + length as u32 % 100, length, room));
    lengths.into_iter().flat_map(calls).collect()
}

/// No samples, and 24 of them, with every room up to a hundred bytes.
pub fn rooms() -> Vec<Call> {
    let calls = |length: usize| (0..=100).map(move |room| at(22_050, length, room));
    [0, 48].into_iter().flat_map(calls).collect()
}

/// Lengths around the limit, then lengths whose file is as long as the limit, then as many as a replay takes.
pub fn at_the_limit() -> Vec<Call> {
    let mut calls = Vec::new();
    for length in 1_048_574..=1_048_579 {
        let file = HEAD + length;
        for room in [0, 43, 44, file - 1, file, file + 1, LONGEST] {
            calls.push(at(48_000, length, room));
        }
        calls.push(at(7_999, length, file));
    }
    for length in [1_048_530, 1_048_532, 1_048_534] {
        for room in [1_048_575, 1_048_576, 1_048_577] {
            calls.push(at(16_000, length, room));
        }
    }
    for length in [LONGEST - 1, LONGEST] {
        for room in [0, 44, LONGEST] {
            calls.push(at(192_000, length, room));
        }
    }
    for call in &mut calls {
        call.samples = counted(61);
    }
    calls
}
