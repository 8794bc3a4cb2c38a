//! Codestreams of one tile and one precinct, put together from packets.
use tonkelvi::Markers;

/// A marker segment.
fn segment(marker: u8, content: &[u8]) -> Vec<u8> {
    [&[0xff, marker, 0, content.len() as u8 + 2], content].concat()
}

/// The main header of one component without decomposition, `across` by `down` blocks of 4 × 4, with 9 bit-planes; with or without markers.
fn main_header(across: u32, down: u32, layers: u16, markers: Markers) -> Vec<u8> {
    let (width, height) = (4 * across, 4 * down);
    let size = [width, height, 0, 0, width, height, 0, 0].map(u32::to_be_bytes).concat();
    let [high, low] = layers.to_be_bytes();
    let style = if markers.sop { 2 } else { 0 } | if markers.eph { 4 } else { 0 };
    let coding = segment(0x52, &[style, 0, high, low, 0, 0, 0, 0, 0, 1]);
    [&[0xff, 0x4f][..], &segment(0x51, &[&[0, 0][..], &size, &[0, 1, 7, 1, 1]].concat()), &coding, &segment(0x5c, &[0x40, 8 << 3])].concat()
}

/// A codestream of these packets.
pub fn codestream(across: u32, down: u32, packets: &[Vec<u8>], markers: Markers) -> Vec<u8> {
    let data = packets.concat();
    let length = (12 + 2 + data.len() as u32).to_be_bytes();
    let part = segment(0x90, &[&[0, 0][..], &length, &[0, 1]].concat());
    [&main_header(across, down, packets.len() as u16, markers)[..], &part, &[0xff, 0x93], &data, &[0xff, 0xd9]].concat()
}
