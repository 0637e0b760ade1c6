//! Calls by their three numbers: rates, sizes and rooms at their limits and around powers of two.
use super::{call::Call, rules::MOST};
use crate::wave_write::numbers::tried_rates;

/// Over bytes that no head has so.
pub fn at(rate: u32, samples: u64, room: usize) -> Call {
    Call {
        rate,
        samples,
        room,
        before: b"\xa5\x5a\xc3".to_vec(),
    }
}

/// Each rate with no samples and just enough room, and with the most and more room.
pub fn rates() -> Vec<Call> {
    let calls = |rate| [at(rate, 0, 44), at(rate, MOST, 47)];
    tried_rates().into_iter().flat_map(calls).collect()
}

/// Sizes from 0 on, and around each power of two that 64 bits hold: the samples', the RIFF size's and the file's.
pub fn sizes() -> Vec<Call> {
    let mut sizes: Vec<u64> = (0..60).collect();
    for power in 6..64 {
        let power = 1_u64 << power;
        for less in [0, 8, 36, 44] {
            sizes.extend(power - less - 2..=power - less + 2);
        }
    }
    sizes.extend((0..50).map(|less| u64::MAX - less));
    let call = |samples: u64| at(44_100 + (samples % 100) as u32, samples, 44);
    sizes.into_iter().map(call).collect()
}

/// Every size around the most, with a room too small, just enough and one more; and those that come to a small one in 32
/// bits.
pub fn at_the_limit() -> Vec<Call> {
    let mut calls = Vec::new();
    for samples in MOST - 8..MOST + 50 {
        calls.extend([43, 44, 45].map(|room| at(48_000, samples, room)));
        calls.push(at(7_999, samples, 44));
    }
    for high in 32..64 {
        for low in [0, 1, 2, 1_000, 0x8000_0000, MOST] {
            calls.push(at(16_000, (1 << high) + low, 44));
        }
    }
    calls
}

/// Every room up to a hundred bytes, and the longest, with sizes that such room would hold and that none does.
pub fn rooms() -> Vec<Call> {
    let calls = |samples: u64| (0..=100).map(move |room| at(22_050, samples, room));
    let mut all: Vec<Call> = [0, 24, MOST].into_iter().flat_map(calls).collect();
    for room in [255, 256, 257, 299, 300, 301, 4_096] {
        all.push(at(22_050, 256, room));
        all.push(at(22_050, MOST, room));
    }
    all
}
