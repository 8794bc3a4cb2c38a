//! Both moves once more, to stand in the engine's place with one fault in them or with none.
use compare::gathered::{self, each_state, next_packet, MOST_SEGMENTS, SEGMENT_BYTES, SEGMENT_FRONT};
use compare::moves::Engine;

macro_rules! engines {
    ($($fault:ident: $text:literal,)*) => {
        #[derive(Clone, Copy)]
        #[repr(u8)]
        enum Fault {
            $($fault),*
        }

        pub const ENGINES: &[(&str, Engine)] = &[$(
            ($text, Engine { gather: gather::<{ Fault::$fault as u8 }>, spread: spread::<{ Fault::$fault as u8 }> })
        ),*];
    };
}

// The first has no fault; those of the move come next, then those of both ways, then those of the way back.
engines! {
    None: "no fault",
    EphWithBody: "EPH stays with the body",
    SopWithHeader: "SOP moves with the header",
    LongSegments: "segments filled to 65,535 header bytes",
    ShortSegments: "segments filled to 65,531 header bytes",
    SegmentsByHeader: "a segment for each header",
    SegmentOfNothing: "a segment where there are no header bytes",
    SameIndex: "the index not counted",
    IndexFromOne: "the index from 1 on",
    LengthWithoutItself: "a length field that doesn't count itself",
    ElevenBeforeFifteen: "15 after the segment is written",
    SegmentsUnlimited: "a 257th segment written",
    FewerSegments: "15 for a 256th segment",
    ElevenBeforeTen: "11 before 10",
    ElevenAtTheEnd: "11 behind the last packet alone",
    FrontsNotCounted: "11 without the five bytes in front of a segment's header bytes",
    HeaderBytesAnswered: "the answer without these five bytes",
    RowLeft: "row bytes left not refused",
    MarkersWanted: "a missing SOP refused",
    StatesBefore: "scratch left as the states before",
    SameState: "each packet read by the state before the row",
    StatesNotLookedAt: "states not looked at without packets",
    OutputsNotWiped: "outputs not wiped on refusal",
    ScratchNotWiped: "scratch not wiped on refusal",
    BehindWiped: "zeros behind what is put out",
    SegmentsModulo256: "a 257th segment taken",
    AnyIndex: "the index not looked at",
    AnyMarker: "the marker not looked at",
    SegmentOfNoByte: "a segment without header bytes taken",
    SegmentCut: "a segment cut short taken",
    FiveBeforeSixteen: "5 before 16",
    HeadersLeft: "header bytes left not refused",
    BodiesLeft: "body bytes left not refused",
    SopNotFound: "SOP not looked for",
    AnySop: "any six bytes taken as SOP",
}

const fn is<const F: u8>(fault: Fault) -> bool {
    F == fault as u8
}

// ---- segments

fn in_segments<const F: u8>(each: &[&[u8]]) -> Vec<u8> {
    let most = match () {
        _ if is::<F>(Fault::LongSegments) => 65_535,
        _ if is::<F>(Fault::ShortSegments) => 65_531,
        _ => SEGMENT_BYTES,
    };
    let all = each.concat();
    let mut parts: Vec<&[u8]> = all.chunks(most).collect();
    if is::<F>(Fault::SegmentsByHeader) {
        parts = each.to_vec();
    }
    if is::<F>(Fault::SegmentOfNothing) && parts.is_empty() {
        parts.push(&[]);
    }
    parts.into_iter().enumerate().flat_map(|(index, part)| segment::<F>(index as u8, part)).collect()
}

fn segment<const F: u8>(index: u8, part: &[u8]) -> Vec<u8> {
    let index = match () {
        _ if is::<F>(Fault::SameIndex) => 0,
        _ if is::<F>(Fault::IndexFromOne) => index.wrapping_add(1),
        _ => index,
    };
    let itself = if is::<F>(Fault::LengthWithoutItself) { 1 } else { 3 };
    let [high, low] = (part.len() as u16).wrapping_add(itself).to_be_bytes();
    [&[0xff, 0x61, high, low, index], part].concat()
}

fn out_of_segments<const F: u8>(mut segments: &[u8]) -> Option<Vec<u8>> {
    let (mut headers, mut index) = (Vec::new(), 0u32);
    while !segments.is_empty() {
        let [0xff, marker, high, low, own, ..] = *segments else { return None };
        let (length, least) = (usize::from(u16::from_be_bytes([high, low])), if is::<F>(Fault::SegmentOfNoByte) { 3 } else { 4 });
        let end = if is::<F>(Fault::SegmentCut) { segments.len().min(2 + length) } else { 2 + length };
        let expected = if is::<F>(Fault::SegmentsModulo256) { index % 256 } else { index };
        let in_order = u32::from(own) == expected || is::<F>(Fault::AnyIndex);
        let marked = marker == 0x61 || is::<F>(Fault::AnyMarker);
        if length < least || segments.len() < end || !in_order || !marked {
            return None;
        }
        headers.extend(&segments[SEGMENT_FRONT..end]);
        segments = &segments[end..];
        index += 1;
    }
    Some(headers)
}

// ---- packets

/// The states, or 5.
fn looked_at<const F: u8>(states: &[u32], scratch: usize, places: &[u32]) -> Result<Vec<Vec<u32>>, u32> {
    if is::<F>(Fault::StatesNotLookedAt) && places.is_empty() && scratch == states.len() {
        return Ok(vec![states.to_vec()]);
    }
    each_state(states, scratch, places).ok_or(5)
}

/// The packet in front of the input: SOP, the header with EPH, and how many bytes the body has.
fn packet<const F: u8>(state: &mut Vec<u32>, src: &[u8], sop: bool, eph: bool) -> Result<(usize, usize, u64), u32> {
    let mut next = state.clone();
    let parts = next_packet(&mut next, src, sop, eph)?;
    if !is::<F>(Fault::SameState) {
        *state = next;
    }
    match is::<F>(Fault::MarkersWanted) && sop && parts.sop == 0 {
        true => Err(18),
        false => Ok((parts.sop, parts.header, parts.body)),
    }
}

/// 15 and 11 for these header bytes of the row so far and so many body bytes.
fn room<const F: u8>(headers: usize, bodies: usize, rooms: [usize; 2]) -> Result<(), u32> {
    let (segments, most) = (headers.div_ceil(SEGMENT_BYTES), MOST_SEGMENTS - usize::from(is::<F>(Fault::FewerSegments)));
    let fronts = if is::<F>(Fault::FrontsNotCounted) { 0 } else { SEGMENT_FRONT * segments };
    let (many, full) = (segments > most && !is::<F>(Fault::SegmentsUnlimited), headers + fronts > rooms[0] || bodies > rooms[1]);
    match (many, full) {
        (true, true) if is::<F>(Fault::ElevenBeforeFifteen) => Err(11),
        (true, _) => Err(15),
        (_, true) => Err(11),
        _ => Ok(()),
    }
}

type Moved = (Vec<u32>, Vec<u8>, Vec<u8>);

fn gathered<const F: u8>(
    row: &[u8],
    (states, scratch, places): (&[u32], usize, &[u32]),
    sop: bool,
    eph: bool,
    rooms: [usize; 2],
) -> Result<Moved, u32> {
    let mut each = looked_at::<F>(states, scratch, places)?;
    let (mut left, mut headers, mut bodies) = (row, Vec::new(), Vec::new());
    let mut header_bytes = 0;
    for place in places {
        let (sop, header, body) = packet::<F>(&mut each[*place as usize], left, sop, eph)?;
        let (front, behind) = left.split_at(sop + header);
        let eph = if is::<F>(Fault::EphWithBody) && front.ends_with(&[0xff, 0x92]) { 2 } else { 0 };
        let (from, to) = (if is::<F>(Fault::SopWithHeader) { 0 } else { sop }, front.len() - eph);
        header_bytes += to - from;
        if is::<F>(Fault::ElevenBeforeTen) {
            room::<F>(header_bytes, bodies.len() + from + eph, rooms)?;
        }
        let body = behind.get(..body as usize).ok_or(10u32)?;
        headers.push(&front[from..to]);
        bodies.extend([&front[..from], &front[to..], body].concat());
        left = &behind[body.len()..];
        if !is::<F>(Fault::ElevenAtTheEnd) {
            room::<F>(header_bytes, bodies.len(), rooms)?;
        }
    }
    if !left.is_empty() && !is::<F>(Fault::RowLeft) {
        return Err(10);
    }
    room::<F>(header_bytes, bodies.len(), rooms)?;
    Ok((each.concat(), in_segments::<F>(&headers), bodies))
}

fn spread_out<const F: u8>(
    segments: &[u8],
    mut bodies: &[u8],
    (states, scratch, places): (&[u32], usize, &[u32]),
    sop: bool,
    eph: bool,
    room: usize,
) -> Result<Moved, u32> {
    if is::<F>(Fault::FiveBeforeSixteen) {
        looked_at::<F>(states, scratch, places)?;
    }
    let headers = out_of_segments::<F>(segments).ok_or(16u32)?;
    let mut each = looked_at::<F>(states, scratch, places)?;
    let (mut headers, mut row) = (&headers[..], Vec::new());
    for place in places {
        let (_, header, body) = packet::<F>(&mut each[*place as usize], headers, false, eph)?;
        let marked = bodies.starts_with(&[0xff, 0x91]) || is::<F>(Fault::AnySop);
        let sop = if sop && marked && bodies.len() >= 6 && !is::<F>(Fault::SopNotFound) { 6 } else { 0 };
        let body = bodies[sop..].get(..body as usize).ok_or(10u32)?;
        row.extend([&bodies[..sop], &headers[..header], body].concat());
        headers = &headers[header..];
        bodies = &bodies[sop + body.len()..];
        if row.len() > room {
            return Err(11);
        }
    }
    let headers_left = !headers.is_empty() && !is::<F>(Fault::HeadersLeft);
    match headers_left || !bodies.is_empty() && !is::<F>(Fault::BodiesLeft) {
        true => Err(10),
        false => Ok((each.concat(), row, Vec::new())),
    }
}

// ---- the calls

/// Leaves what was moved, or what a refusal leaves.
fn leave<const F: u8>(moved: Result<Moved, u32>, states: &[u32], scratch: &mut [u32], outputs: [&mut [u8]; 2]) -> Result<[usize; 2], u32> {
    match moved {
        Ok((after, first, second)) => {
            scratch.copy_from_slice(if is::<F>(Fault::StatesBefore) { states } else { &after });
            let bytes = [first.len(), second.len()];
            for (output, bytes) in outputs.into_iter().zip([first, second]) {
                let put = bytes.len().min(output.len());
                output[..put].copy_from_slice(&bytes[..put]);
                if is::<F>(Fault::BehindWiped) {
                    output[put..].fill(0);
                }
            }
            Ok(bytes)
        }
        Err(number) => {
            if !is::<F>(Fault::ScratchNotWiped) {
                scratch.fill(0);
            }
            if !is::<F>(Fault::OutputsNotWiped) {
                outputs.into_iter().for_each(|output| output.fill(0));
            }
            Err(number)
        }
    }
}

#[allow(clippy::too_many_arguments)]
fn gather<const F: u8>(
    row: &[u8],
    states: &[u32],
    scratch: &mut [u32],
    places: &[u32],
    sop: bool,
    eph: bool,
    headers: &mut [u8],
    bodies: &mut [u8],
    answer: &mut [u64],
) -> u32 {
    if answer.len() != 2 {
        return 3;
    }
    answer.fill(0);
    let moved = gathered::<F>(row, (states, scratch.len(), places), sop, eph, [headers.len(), bodies.len()]);
    match leave::<F>(moved, states, scratch, [&mut *headers, bodies]) {
        Ok([segments, bodies]) => {
            let header_bytes = || gathered::out_of_segments(&headers[..segments]).map_or(0, |bytes| bytes.len());
            let first = if is::<F>(Fault::HeaderBytesAnswered) { header_bytes() } else { segments };
            answer.copy_from_slice(&[first as u64, bodies as u64]);
            0
        }
        Err(number) => number,
    }
}

#[allow(clippy::too_many_arguments)]
fn spread<const F: u8>(
    headers: &[u8],
    bodies: &[u8],
    states: &[u32],
    scratch: &mut [u32],
    places: &[u32],
    sop: bool,
    eph: bool,
    row: &mut [u8],
    answer: &mut [u64],
) -> u32 {
    if answer.len() != 1 {
        return 3;
    }
    answer.fill(0);
    let moved = spread_out::<F>(headers, bodies, (states, scratch.len(), places), sop, eph, row.len());
    match leave::<F>(moved, states, scratch, [row, &mut []]) {
        Ok([bytes, _]) => {
            answer[0] = bytes as u64;
            0
        }
        Err(number) => number,
    }
}
