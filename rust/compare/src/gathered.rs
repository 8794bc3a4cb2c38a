//! Headers gathered in front, as plain Rust written from the request's words: the headers of a row of packets moved into PPT marker
//! segments (T.800, A.7.5), and moved back. Packets are read by model.rs.
use crate::model::{self, Record};

pub const SEGMENT_BYTES: usize = 65_532;
pub const MOST_SEGMENTS: usize = 256;
/// Marker, length field and index of a segment.
pub const SEGMENT_FRONT: usize = 5;
const FIRST_WORDS: usize = 13;
const READER: u64 = 2;

// ---- segments

/// Header bytes in segments that are full but for the last.
pub fn in_segments(headers: &[u8]) -> Vec<u8> {
    headers.chunks(SEGMENT_BYTES).enumerate().flat_map(|(index, part)| segment(index as u8, part)).collect()
}

pub fn segment(index: u8, part: &[u8]) -> Vec<u8> {
    let [high, low] = (part.len() as u16 + 3).to_be_bytes();
    [&[0xff, 0x61, high, low, index], part].concat()
}

/// The header bytes of segments, or nothing where a segment is not in order.
pub fn out_of_segments(mut segments: &[u8]) -> Option<Vec<u8>> {
    let (mut headers, mut index) = (Vec::new(), 0u32);
    while !segments.is_empty() {
        let [0xff, 0x61, high, low, own, ..] = *segments else { return None };
        let length = usize::from(u16::from_be_bytes([high, low]));
        if length < 4 || segments.len() < 2 + length || u32::from(own) != index {
            return None;
        }
        headers.extend(&segments[SEGMENT_FRONT..2 + length]);
        segments = &segments[2 + length..];
        index += 1;
    }
    Some(headers)
}

// ---- states

/// The readers' states that lie behind one another, unless one is bad or cut, words are left over, or a place has none.
pub fn each_state(states: &[u32], scratch: usize, places: &[u32]) -> Option<Vec<Vec<u32>>> {
    let (mut each, mut left) = (Vec::new(), states);
    while !left.is_empty() {
        let size = if left.len() < FIRST_WORDS { 0 } else { model::state_length(left[1], &left[4..FIRST_WORDS]) };
        let (state, behind) = (left.get(..size)?, &left[size.min(left.len())..]);
        let mut told = [0; 3];
        if size == 0 || model::describe(state, &mut told) != 0 || told[0] != READER {
            return None;
        }
        each.push(state.to_vec());
        left = behind;
    }
    (scratch == states.len() && places.iter().all(|place| (*place as usize) < each.len())).then_some(each)
}

// ---- packets

/// How many bytes of a packet SOP has, and its header with EPH; and how many its body has.
pub struct Parts {
    pub sop: usize,
    pub header: usize,
    pub body: u64,
}

/// Reads the packet in front of the input, and moves its state on.
pub fn next_packet(state: &mut [u32], src: &[u8], sop: bool, eph: bool) -> Result<Parts, u32> {
    let blocks = model::layout(&model::bands_of(state)).2;
    let (mut scratch, mut reports) = (vec![0; state.len()], vec![0; 4 * blocks]);
    let mut records = vec![Record::default(); 164 * blocks];
    let (mut work, mut answer) = (vec![0; 4 * records.len()], [0; 6]);
    match model::read(state, &mut scratch, src, sop, eph, &mut reports, &mut work, &mut records, &mut answer) {
        0 => {
            let [_, taken, segments, sop_mark, ..] = answer;
            let sop = if sop && sop_mark == 0 { 6 } else { 0 };
            let body = records[..segments as usize].iter().map(|record| u64::from(record.numbers[3])).sum();
            Ok(Parts { sop, header: taken as usize - sop, body })
        }
        number => Err(number),
    }
}

struct Gathered {
    states: Vec<u32>,
    headers: Vec<u8>,
    bodies: Vec<u8>,
}

#[allow(clippy::too_many_arguments)]
fn gathered(
    row: &[u8],
    states: &[u32],
    scratch: usize,
    places: &[u32],
    sop: bool,
    eph: bool,
    headers_room: usize,
    bodies_room: usize,
) -> Result<Gathered, u32> {
    let mut each = each_state(states, scratch, places).ok_or(5u32)?;
    let (mut left, mut headers, mut bodies) = (row, Vec::new(), Vec::new());
    for place in places {
        let parts = next_packet(&mut each[*place as usize], left, sop, eph)?;
        let (front, behind) = left.split_at(parts.sop + parts.header);
        if parts.body > behind.len() as u64 {
            return Err(10);
        }
        let (body, behind) = behind.split_at(parts.body as usize);
        headers.extend(&front[parts.sop..]);
        bodies.extend(&front[..parts.sop]);
        bodies.extend(body);
        left = behind;
        let segments = headers.len().div_ceil(SEGMENT_BYTES);
        if segments > MOST_SEGMENTS {
            return Err(15);
        }
        if headers.len() + SEGMENT_FRONT * segments > headers_room || bodies.len() > bodies_room {
            return Err(11);
        }
    }
    match left.is_empty() {
        true => Ok(Gathered { states: each.concat(), headers: in_segments(&headers), bodies }),
        false => Err(10),
    }
}

#[allow(clippy::too_many_arguments)]
fn spread(
    headers: &[u8],
    bodies: &[u8],
    states: &[u32],
    scratch: usize,
    places: &[u32],
    sop: bool,
    eph: bool,
    room: usize,
) -> Result<(Vec<u32>, Vec<u8>), u32> {
    let headers = out_of_segments(headers).ok_or(16u32)?;
    let mut each = each_state(states, scratch, places).ok_or(5u32)?;
    let (mut headers, mut bodies, mut row) = (&headers[..], bodies, Vec::new());
    for place in places {
        let parts = next_packet(&mut each[*place as usize], headers, false, eph)?;
        let sop = if sop && bodies.len() >= 6 && bodies.starts_with(&[0xff, 0x91]) { 6 } else { 0 };
        if sop as u64 + parts.body > bodies.len() as u64 {
            return Err(10);
        }
        row.extend(&bodies[..sop]);
        row.extend(&headers[..parts.header]);
        row.extend(&bodies[sop..][..parts.body as usize]);
        headers = &headers[parts.header..];
        bodies = &bodies[sop + parts.body as usize..];
        if row.len() > room {
            return Err(11);
        }
    }
    match headers.is_empty() && bodies.is_empty() {
        true => Ok((each.concat(), row)),
        false => Err(10),
    }
}

// ---- the calls

#[allow(clippy::too_many_arguments)]
pub fn gather_headers(
    row: &[u8],
    states: &[u32],
    scratch: &mut [u32],
    places: &[u32],
    sop: bool,
    eph: bool,
    headers: &mut [u8],
    bodies: &mut [u8],
    answer: &mut [u64],
) -> u32 {
    if answer.len() != 2 {
        return 3;
    }
    answer.fill(0);
    match gathered(row, states, scratch.len(), places, sop, eph, headers.len(), bodies.len()) {
        Ok(moved) => {
            scratch.copy_from_slice(&moved.states);
            headers[..moved.headers.len()].copy_from_slice(&moved.headers);
            bodies[..moved.bodies.len()].copy_from_slice(&moved.bodies);
            answer.copy_from_slice(&[moved.headers.len() as u64, moved.bodies.len() as u64]);
            0
        }
        Err(number) => {
            scratch.fill(0);
            headers.fill(0);
            bodies.fill(0);
            number
        }
    }
}

#[allow(clippy::too_many_arguments)]
pub fn spread_headers(
    headers: &[u8],
    bodies: &[u8],
    states: &[u32],
    scratch: &mut [u32],
    places: &[u32],
    sop: bool,
    eph: bool,
    row: &mut [u8],
    answer: &mut [u64],
) -> u32 {
    if answer.len() != 1 {
        return 3;
    }
    answer.fill(0);
    match spread(headers, bodies, states, scratch.len(), places, sop, eph, row.len()) {
        Ok((states, packets)) => {
            scratch.copy_from_slice(&states);
            row[..packets.len()].copy_from_slice(&packets);
            answer[0] = packets.len() as u64;
            0
        }
        Err(number) => {
            scratch.fill(0);
            row.fill(0);
            number
        }
    }
}
