//! Moving a tile-part's packet headers to the front, and back (T.800, A.7.5).
use crate::refusal::checked;
use crate::{words, Markers, Reader, Refusal};

/// The header bytes that a PPT marker segment has room for.
const SEGMENT_BYTES: usize = 65_532;
/// The bytes of a segment before these: marker, length field and index.
const SEGMENT_FRONT: usize = 5;

/// A row of packets with the headers in front.
#[derive(Clone, PartialEq, Eq, Debug, Default)]
pub struct HeadersInFront {
    /// PPT marker segments, with indexes from 0 on, that hold the header of each packet, with EPH: 65,532 bytes each but the last. Empty
    /// where there is no packet.
    pub headers: Vec<u8>,
    /// What is left of each packet: SOP, where it is used and found, and the body.
    pub bodies: Vec<u8>,
}

/// Moves the headers of a row of packets to the front. `places` has for each packet its precinct's place among the readers, from 0. The
/// precincts may be of any shapes, their packets in any order, and a reader need not have a packet. With success each reader has read its
/// packets; refused, none moves.
///
/// [`spread`], with the readers as they were before, restores the row if each packet has the markers that are used. A marker that is not
/// found is no refusal, nor is a header that goes past the row's end, as in [`Reader::read`].
///
/// Refused with `State` for a place without a reader; for the first packet that a reader refuses, with its number; with `Body` where a body
/// goes past the row or bytes are left after the last packet; with `Segments` where more than 256 segments are needed.
///
/// ```
/// use tonkelvi::{gather, spread, Band, Markers, Reader, Refusal};
///
/// let mut readers = [
///     Reader::new(&[Band { across: 1, down: 1, planes: 5 }], 0)?,
///     Reader::new(&[Band { across: 2, down: 1, planes: 5 }], 0)?,
/// ];
/// let fresh = readers.clone();
/// // A packet of the second precinct, one of the first, and an absent one of the second.
/// let row = b"\xf9\x69\x80hello world\xe5hello\x00";
/// let moved = gather(row, &mut readers, &[1, 0, 1], Markers::NONE)?;
/// assert_eq!(moved.headers, b"\xff\x61\x00\x08\x00\xf9\x69\x80\xe5\x00");
/// assert_eq!(moved.bodies, b"hello worldhello");
/// assert_eq!(readers.each_ref().map(Reader::next_layer), [1, 2]);
///
/// readers = fresh;
/// assert_eq!(spread(&moved.headers, &moved.bodies, &mut readers, &[1, 0, 1], Markers::NONE)?, row);
/// assert_eq!(gather(row, &mut readers, &[1, 0, 2], Markers::NONE), Err(Refusal::State));
/// # Ok::<(), Refusal>(())
/// ```
pub fn gather(row: &[u8], readers: &mut [Reader], places: &[usize], markers: Markers) -> Result<HeadersInFront, Refusal> {
    let mut headers = vec![0; row.len() + SEGMENT_FRONT * row.len().div_ceil(SEGMENT_BYTES)];
    let mut bodies = vec![0; row.len()];
    let mut answer = [0; 2];
    moving(readers, places, |states, scratch, places| {
        words::gather_headers(row, states, scratch, places, markers.sop, markers.eph, &mut headers, &mut bodies, &mut answer)
    })?;
    headers.truncate(answer[0] as usize);
    bodies.truncate(answer[1] as usize);
    Ok(HeadersInFront { headers, bodies })
}

/// The move back: the row of packets, from PPT marker segments and what [`gather`] leaves of the packets. Readers and places are as there.
/// The segments may be cut otherwise, into parts of at least one byte.
///
/// Refused with `Packed` where a segment is cut short, too short or without its marker, or indexes do not run 0, 1, 2; with `State` and for a
/// packet that a reader refuses as in [`gather`]; with `Body` where SOP and body of a packet go past the bodies, or bytes of headers or
/// bodies are left.
pub fn spread(headers: &[u8], bodies: &[u8], readers: &mut [Reader], places: &[usize], markers: Markers) -> Result<Vec<u8>, Refusal> {
    let mut row = vec![0; headers.len() + bodies.len()];
    let mut answer = [0; 1];
    moving(readers, places, |states, scratch, places| {
        words::spread_headers(headers, bodies, states, scratch, places, markers.sop, markers.eph, &mut row, &mut answer)
    })?;
    row.truncate(answer[0] as usize);
    Ok(row)
}

/// A call with the readers' states behind one another, as many words of scratch, and the places; with success the readers go on from what
/// it leaves in the scratch.
fn moving(readers: &mut [Reader], places: &[usize], call: impl FnOnce(&[u32], &mut [u32], &[u32]) -> u32) -> Result<(), Refusal> {
    let states: Vec<u32> = readers.iter().flat_map(Reader::state).copied().collect();
    let mut scratch = vec![0; states.len()];
    // A place that has no 32-bit number has no reader either.
    let places: Vec<u32> = places.iter().map(|place| u32::try_from(*place).unwrap_or(u32::MAX)).collect();
    checked(call(&states, &mut scratch, &places))?;
    let mut left = &scratch[..];
    for reader in readers {
        let (state, behind) = left.split_at(reader.state().len());
        reader.go_on_from(state);
        left = behind;
    }
    Ok(())
}
