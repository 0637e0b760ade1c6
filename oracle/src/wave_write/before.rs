//! What lies in the output before a call, as tiles: plain bytes, earlier files that a reader takes or refuses, and chunks.
use crate::wave::file::{Chunk, File, Format, counted};

pub fn tiles() -> Vec<Vec<u8>> {
    let earlier = [
        File::plain(22_050, 0),
        File::plain(11_025, 8),
        File::plain(192_000, 300),
        among_chunks(),
        several_data(),
        endless(),
        stereo(),
        File::of([Chunk::format(Format::at(16_000))]),
    ];
    let mut tiles = vec![Vec::new(), vec![0xff], counted(29), b"RIFF".to_vec()];
    tiles.extend(earlier.iter().map(File::bytes));
    tiles.push(Chunk::data(4).bytes());
    tiles.push(File::plain(48_000, 20).bytes()[..50].to_vec());
    tiles
}

/// Chunks before the samples, and behind them.
fn among_chunks() -> File {
    let list = Chunk::new(b"LIST", *b"INFO");
    let odd = Chunk::new(b"note", *b"odd").padded(Some(0xff));
    let format = Chunk::format(Format::at(44_100));
    File::of([list.clone(), format, odd, Chunk::data(40), list])
}

fn several_data() -> File {
    let format = Chunk::format(Format::at(8_000));
    File::of([format, Chunk::data(4), Chunk::data(6), Chunk::data(3)])
}

/// A RIFF size past every end.
fn endless() -> File {
    let mut file = File::plain(96_000, 30);
    file.size = Some(u32::MAX);
    file
}

fn stereo() -> File {
    let mut format = Format::at(48_000);
    format.channels = 2;
    File::of([Chunk::format(format), Chunk::data(8)])
}
