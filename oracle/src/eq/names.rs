//! Names that say a band, or nearly one.
use crate::random::Random;

/// Names that are no band: near ones, other stages' ones, signs, spaces, other digits, bytes that are no
/// text; numbers around 15 and around 2^64; leading zeros, and names of the longest length and beyond.
const FIXED: [&[u8]; 44] = [
    b"",
    b"band",
    b"band_",
    b"band_+",
    b"band_-",
    b"band_-0",
    b"band_-3",
    b"band_++3",
    b"band_+-3",
    b"band_3+",
    b"band_ 3",
    b"band_3 ",
    b"band_+ 3",
    b"band_3\0",
    b"band_\x003",
    b"band_0x3",
    b"band_3.0",
    b"band_1_0",
    b"band_1e1",
    b"band__3",
    b"Band_3",
    b"bang_3",
    b"banc_3",
    b"_band_3",
    b"band-3",
    b"3",
    b"+3",
    b"bass",
    b"band_\xff",
    b"band_3\xff",
    b"band_\xd9\xa3",
    b"band_\xef\xbc\x93",
    b"band_/",
    b"band_:",
    b"band_+3",
    b"band_0003",
    b"band_16",
    b"band_+16",
    b"band_18446744073709551615",
    b"band_18446744073709551616",
    b"band_18446744073709551619",
    b"band_99999999999999999999",
    b"band_00000000000000000000000000000000000000000000000000000000007",
    b"band_000000000000000000000000000000000000000000018446744073709551616",
];

/// The fixed names, and as many again drawn at random.
pub fn names(random: &mut Random) -> Vec<Vec<u8>> {
    let mut names: Vec<Vec<u8>> = FIXED.map(Vec::from).into();
    names.extend((0..FIXED.len()).map(|_| drawn(random)));
    names
}

/// A band's index with a `+`, with leading zeros, or as it is.
pub fn of(index: u32, random: &mut Random) -> Vec<u8> {
    let sign = random.pick(&["", "", "+"]);
    let zeros = random.pick(&[0, 0, 0, 1, 7, 40]);
    format!("band_{sign}{}{index}", "0".repeat(zeros)).into()
}

fn drawn(random: &mut Random) -> Vec<u8> {
    let front = random.pick(&["band_", "band_", "band_", "band_", "band", "bandb_"]);
    let sign = random.pick(&["", "", "", "+", "+", "-", "++", " "]);
    let zeros = "0".repeat(random.pick(&[0, 0, 0, 1, 5, 19, 38]));
    let number = match random.below(8) {
        0 => String::new(),
        1 => random.bits().to_string(),
        2 => (u128::from(u64::MAX) + u128::from(random.below(40)) - 20).to_string(),
        3 => format!("{}{}", random.bits(), random.below(10)),
        4 => random.between(14, 18).to_string(),
        _ => random.below(16).to_string(),
    };
    let mut name: Vec<u8> = format!("{front}{sign}{zeros}{number}").into();
    if random.below(4) == 0 {
        let end = name.len() as u64;
        let at = random.below(end) as usize;
        name[at] = random.bits() as u8;
    }
    name
}

#[cfg(test)]
mod tests {
    use super::*;
    use crate::eq::rules::index;
    use rustortion_core::amp::stages::eq::EqStage;

    #[test]
    fn names_are_read_as_the_rust_reads_them() {
        let mut random = Random::new(1);
        for name in (0..200).flat_map(|_| names(&mut random)) {
            let text = std::str::from_utf8(&name).ok();
            let read = text.and_then(EqStage::index_of);
            assert_eq!(index(&name), read.map(|index| index as u64), "{name:?}");
        }
    }

    /// Document 01's row P8.
    #[test]
    fn names_of_the_table() {
        assert_eq!(index(b"band_+3"), Some(3));
        assert_eq!(index(b"band_16"), Some(16));
        assert_eq!(index(b"band_"), None);
    }
}
