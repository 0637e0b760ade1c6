//! The recordings that other programs made, `oracle/recordings`: its `make` says how.

macro_rules! recordings {
    ($($name:literal)*) => {
        &[$(($name, include_bytes!(concat!("../../recordings/", $name, ".wav")))),*]
    };
}

/// Each with its name: the program, and what it was to write.
pub const RECORDINGS: &[(&str, &[u8])] = recordings![
    "sox-8000"
    "sox-11025"
    "sox-16000"
    "sox-44100"
    "sox-48000"
    "sox-192000"
    "sox-rate-4000"
    "sox-rate-7999"
    "sox-rate-192001"
    "sox-rate-384000"
    "sox-silence"
    "sox-empty"
    "sox-comment"
    "sox-stereo"
    "sox-stereo-rate-4000"
    "sox-8bit"
    "sox-8bit-odd"
    "sox-24bit"
    "sox-24bit-wavpcm"
    "sox-float"
    "sox-ulaw"
    "sox-alaw"
    "sox-ima-adpcm"
    "sox-ms-adpcm"
    "sox-gsm"
    "sox-rifx"
    "sox-pipe"
    "sox-cut"
    "sox-two-in-a-row"
    "ffmpeg-8000"
    "ffmpeg-22050"
    "ffmpeg-44100"
    "ffmpeg-48000"
    "ffmpeg-192000"
    "ffmpeg-bitexact"
    "ffmpeg-tags"
    "ffmpeg-empty"
    "ffmpeg-bext"
    "ffmpeg-peak"
    "ffmpeg-peak-alone"
    "ffmpeg-rf64"
    "ffmpeg-rf64-auto"
    "ffmpeg-pipe"
    "ffmpeg-rate-4000"
    "ffmpeg-rate-384000"
    "ffmpeg-stereo"
    "ffmpeg-six-channels"
    "ffmpeg-8bit-odd"
    "ffmpeg-24bit"
    "ffmpeg-32bit"
    "ffmpeg-float"
    "ffmpeg-double"
    "ffmpeg-ulaw"
    "ffmpeg-ima-adpcm"
    "espeak-nothing"
    "espeak-pipe"
    "espeak-cut"
    "python-8000"
    "python-44100"
    "python-192000"
    "python-rate-192001"
    "python-empty"
    "python-stereo"
    "python-8bit-odd"
    "python-24bit"
    "python-pulled-plug"
    "python-half-a-sample"
];

#[cfg(test)]
mod tests {
    use super::{super::rules::read, RECORDINGS};
    use std::{collections::BTreeSet, fs};

    const KINDS: &str = include_str!("../../recordings/kinds.txt");
    const SAID: &str = include_str!("../../recordings/said.txt");

    /// What a program says of a recording.
    struct Said {
        name: &'static str,
        program: &'static str,
        rate: u32,
        channels: u32,
        bits: u32,
        sum: u32,
        length: u64,
        encoding: &'static str,
    }

    fn rows(text: &'static str) -> impl Iterator<Item = &'static str> {
        text.lines().filter(|line| !line.starts_with('#'))
    }

    fn said() -> impl Iterator<Item = Said> {
        rows(SAID).map(|row| {
            let words: Vec<&str> = row.split_whitespace().collect();
            let number = |at: usize| words[at].parse().expect("a number");
            Said {
                name: words[0],
                program: words[1],
                rate: number(2),
                channels: number(3),
                bits: number(4),
                sum: number(6),
                length: number(7).into(),
                encoding: words[8],
            }
        })
    }

    fn recording(name: &str) -> &'static [u8] {
        let found = RECORDINGS.iter().find(|(other, _)| *other == name);
        found.unwrap_or_else(|| panic!("no recording {name}")).1
    }

    /// POSIX's cksum: a CRC of the bytes and of their length.
    fn cksum(bytes: &[u8]) -> u32 {
        let length = (bytes.len() as u64).to_le_bytes();
        let used = length
            .iter()
            .rposition(|&byte| byte > 0)
            .map_or(0, |at| at + 1);
        let all = bytes.iter().chain(&length[..used]);
        !all.fold(0, |sum: u32, &byte| {
            (0..8).fold(sum ^ u32::from(byte) << 24, |sum, _| {
                sum << 1 ^ if sum >> 31 == 1 { 0x04c1_1db7 } else { 0 }
            })
        })
    }

    #[test]
    fn every_kind_and_every_file_is_a_recording() {
        let names: BTreeSet<String> = RECORDINGS
            .iter()
            .map(|(name, _)| name.to_string())
            .collect();
        let kinds = rows(KINDS).filter_map(|row| row.split_whitespace().next());
        assert_eq!(names, kinds.map(String::from).collect());
        let folder = concat!(env!("CARGO_MANIFEST_DIR"), "/recordings");
        let entries = fs::read_dir(folder).expect("a folder");
        let files = entries.map(|entry| {
            entry
                .expect("an entry")
                .file_name()
                .into_string()
                .expect("a name")
        });
        let files = files.filter_map(|name| name.strip_suffix(".wav").map(String::from));
        assert_eq!(names, files.collect());
    }

    /// The samples that are found are those that every program reads. ffmpeg alone takes an empty `data` to go on to the
    /// file's end.
    #[test]
    fn other_programs_read_what_is_accepted() {
        let mut compared = BTreeSet::new();
        for said in said() {
            let file = recording(said.name);
            let told = read(file);
            if told.number != 0 || (said.name, said.program) == ("python-pulled-plug", "ffmpeg") {
                continue;
            }
            let samples = &file[told.place as usize..][..told.length as usize];
            assert_eq!(
                (told.rate, 1, 16, cksum(samples), told.length),
                (said.rate, said.channels, said.bits, said.sum, said.length),
                "{} by {}",
                said.name,
                said.program
            );
            compared.insert((said.name, said.program));
        }
        let accepted = RECORDINGS.iter().filter(|(_, file)| read(file).number == 0);
        assert_eq!(accepted.count(), 26);
        assert_eq!(compared.len(), 3 * 26 - 1);
    }

    /// The first `fmt `: how many bytes it has, and its tag.
    fn format(file: &[u8]) -> (u32, u16) {
        let size = |at: usize| u32::from_le_bytes(file[at + 4..at + 8].try_into().expect("4"));
        let mut at = 12;
        while file[at..at + 4] != *b"fmt " {
            at += 8 + size(at).next_multiple_of(2) as usize;
        }
        (size(at), u16::from_le_bytes([file[at + 8], file[at + 9]]))
    }

    /// What is refused by 5 or 13 is said to have another rate or another format, but for a format that is the right one and
    /// is said in 40 bytes with the tag FFFE. `python` reads PCM alone.
    #[test]
    fn other_programs_see_why_it_is_refused() {
        let [mut other_rate, mut other_format, mut in_40_bytes] = [0; 3];
        for said in said() {
            let file = recording(said.name);
            let accepts_rate = (8_000..=192_000).contains(&said.rate);
            let accepts = said.channels == 1
                && said.bits == 16
                && ["Signed-Integer-PCM", "pcm_s16le", "PCM"].contains(&said.encoding);
            match read(file).number {
                5 => {
                    assert!(accepts && !accepts_rate, "{}", said.name);
                    other_rate += 1;
                }
                13 if accepts => {
                    assert_eq!(format(file), (40, 0xfffe), "{}", said.name);
                    in_40_bytes += 1;
                }
                13 => other_format += 1,
                _ => {}
            }
        }
        assert_eq!([other_rate, other_format, in_40_bytes], [18, 58, 4]);
    }

    /// No line of `said.txt` is lost: the other tests pass over what is refused by another number.
    #[test]
    fn each_program_says_so_many_lines() {
        let count = |program| said().filter(|said| said.program == program).count();
        assert_eq!(["sox", "ffmpeg", "python"].map(count), [66, 66, 48]);
    }
}
