//! JPEG 2000 packet headers, layer by layer: a safe face for the engine, whose functions are proved to meet equations with definitions
//! written from ITU-T T.800. A [`Writer`] or [`Reader`] has one precinct; a [`Layer`] writes the packets of several, all or none of them.
//! [`gather`] moves a tile-part's packet headers to the front, and [`spread`] moves them back.
//!
//! ```
//! use tonkelvi::{Band, Contribution, Markers, Reader, Writer};
//!
//! let bands = [Band { across: 2, down: 1, planes: 5 }];
//! let mut writer = Writer::new(&bands, 0, &[5, 4])?;
//! let layer = Contribution { counts: &[1, 1], lengths: &[5, 6], marks: &[0, 0] };
//! let packet = writer.write(layer, b"hello world", Markers::NONE, 0)?;
//! assert_eq!(packet, b"\xf9\x69\x80hello world");
//!
//! let mut reader = Reader::new(&bands, 0)?;
//! let read = reader.read(&packet, Markers::NONE)?;
//! assert_eq!(read.taken, 3);
//! let second = read.segments[1];
//! assert_eq!((second.block, second.start, second.bytes), (1, 5, 6));
//! assert_eq!(packet[read.taken..][second.start as usize..], *b" world");
//! # Ok::<(), tonkelvi::Refusal>(())
//! ```
//!
//! The static library is linked by build.rs: from the folder that the environment variable `TONKELVI_LIB` names, or else it is built by
//! tools/library.sh, which proves it.

mod layer;
mod moves;
mod reader;
mod refusal;
pub mod words;
mod writer;

pub use layer::{Layer, LayerRefused, Packets, Part};
pub use moves::{gather, spread, HeadersInFront};
pub use reader::{most_segments, Block, Gathered, Mark, Packet, Reader, Segment};
pub use refusal::Refusal;
pub use writer::{Contribution, Measured, Writer};

/// One band of the precinct: code-blocks across and down (0 to 64 each), and bit-planes (0 to 998).
#[derive(Clone, Copy, PartialEq, Eq, Debug, Default)]
pub struct Band {
    pub across: u32,
    pub down: u32,
    pub planes: u32,
}

/// Whether SOP and EPH are used.
#[derive(Clone, Copy, PartialEq, Eq, Debug, Default)]
pub struct Markers {
    pub sop: bool,
    pub eph: bool,
}

impl Markers {
    pub const NONE: Markers = Markers { sop: false, eph: false };
    pub const BOTH: Markers = Markers { sop: true, eph: true };
}

/// Count and words of the bands as the calls on words take them. More than three give a count that every start refuses.
fn band_words(bands: &[Band]) -> (u32, [u32; 9]) {
    let mut words = [0; 9];
    for (row, band) in words.chunks_exact_mut(3).zip(bands) {
        row.copy_from_slice(&[band.across, band.down, band.planes]);
    }
    (bands.len().min(4) as u32, words)
}

/// The roles of a state.
const WRITER: u64 = 1;
const READER: u64 = 2;

/// The next layer and the blocks of a state of this role; refused where it is another's or out of range.
fn described(state: &[u32], role: u64) -> Result<(u32, usize), Refusal> {
    let mut answer = [0; 3];
    refusal::checked(words::describe(state, &mut answer))?;
    let [is, layer, blocks] = answer;
    if is != role {
        return Err(Refusal::State);
    }
    Ok((layer as u32, blocks as usize))
}
