//! The engine's calls as they are exported, on lent slices of words and of segment records. Each takes slices of any length with any
//! content: its contract has no precondition, and it turns away what it cannot use under a refusal's number.

/// A segment as the engine records it.
#[repr(C)]
#[derive(Clone, Copy, Default, PartialEq, Eq, Debug)]
pub struct Segment {
    pub block: u32,
    /// 1 if its first pass is in this packet, or else 0.
    pub opens: u32,
    pub passes: u32,
    pub bytes: u32,
    /// Bytes of the packet's body before its own.
    pub start: u64,
}

mod exported {
    use super::Segment;

    extern "C" {
        pub fn tonkelvi_state_length(count: u32, bands: *const u32, n_bands: usize) -> usize;
        pub fn tonkelvi_start_writer(
            count: u32,
            bands: *const u32,
            n_bands: usize,
            style: u8,
            planes: *const u32,
            n_planes: usize,
            state: *mut u32,
            n_state: usize,
        ) -> u32;
        pub fn tonkelvi_start_reader(
            count: u32,
            bands: *const u32,
            n_bands: usize,
            style: u8,
            planes: *const u32,
            n_planes: usize,
            state: *mut u32,
            n_state: usize,
        ) -> u32;
        pub fn tonkelvi_measure(
            state: *const u32,
            n_state: usize,
            scratch: *mut u32,
            n_scratch: usize,
            counts: *const u32,
            n_counts: usize,
            lengths: *const u32,
            n_lengths: usize,
            marks: *const u8,
            n_marks: usize,
            sop: bool,
            eph: bool,
            answer: *mut u64,
            n_answer: usize,
        ) -> u32;
        pub fn tonkelvi_write(
            state: *mut u32,
            n_state: usize,
            scratch: *mut u32,
            n_scratch: usize,
            counts: *const u32,
            n_counts: usize,
            lengths: *const u32,
            n_lengths: usize,
            marks: *const u8,
            n_marks: usize,
            body: *const u8,
            n_body: usize,
            sop: bool,
            eph: bool,
            number: u32,
            output: *mut u8,
            n_output: usize,
            answer: *mut u64,
            n_answer: usize,
        ) -> u32;
        pub fn tonkelvi_write_layer(
            states: *mut u32,
            n_states: usize,
            scratch: *mut u32,
            n_scratch: usize,
            packet_numbers: *const u32,
            n_packet_numbers: usize,
            counts: *const u32,
            n_counts: usize,
            lengths: *const u32,
            n_lengths: usize,
            marks: *const u8,
            n_marks: usize,
            bodies: *const u8,
            n_bodies: usize,
            sop: bool,
            eph: bool,
            output: *mut u8,
            n_output: usize,
            answer: *mut u64,
            n_answer: usize,
        ) -> u32;
        pub fn tonkelvi_read(
            state: *mut u32,
            n_state: usize,
            scratch: *mut u32,
            n_scratch: usize,
            src: *const u8,
            n_src: usize,
            sop: bool,
            eph: bool,
            reports: *mut u32,
            n_reports: usize,
            work: *mut u32,
            n_work: usize,
            records: *mut Segment,
            n_records: usize,
            answer: *mut u64,
            n_answer: usize,
        ) -> u32;
        pub fn tonkelvi_read_gathered(
            state: *mut u32,
            n_state: usize,
            scratch: *mut u32,
            n_scratch: usize,
            headers: *const u8,
            n_headers: usize,
            src: *const u8,
            n_src: usize,
            sop: bool,
            eph: bool,
            reports: *mut u32,
            n_reports: usize,
            work: *mut u32,
            n_work: usize,
            records: *mut Segment,
            n_records: usize,
            answer: *mut u64,
            n_answer: usize,
        ) -> u32;
        pub fn tonkelvi_gather_headers(
            row: *const u8,
            n_row: usize,
            states: *const u32,
            n_states: usize,
            scratch: *mut u32,
            n_scratch: usize,
            places: *const u32,
            n_places: usize,
            sop: bool,
            eph: bool,
            headers: *mut u8,
            n_headers: usize,
            bodies: *mut u8,
            n_bodies: usize,
            answer: *mut u64,
            n_answer: usize,
        ) -> u32;
        pub fn tonkelvi_spread_headers(
            headers: *const u8,
            n_headers: usize,
            bodies: *const u8,
            n_bodies: usize,
            states: *const u32,
            n_states: usize,
            scratch: *mut u32,
            n_scratch: usize,
            places: *const u32,
            n_places: usize,
            sop: bool,
            eph: bool,
            row: *mut u8,
            n_row: usize,
            answer: *mut u64,
            n_answer: usize,
        ) -> u32;
        pub fn tonkelvi_describe(state: *const u32, n_state: usize, answer: *mut u64, n_answer: usize) -> u32;
    }
}

/// The words of a state for the first `count` of three bands; 0 where a start would give refusal 1. `bands` has nine words: across, down
/// and planes of each band. With another length of it the answer is 0.
pub fn state_length(count: u32, bands: &[u32]) -> usize {
    // SAFETY: pointer and length are of one slice.
    unsafe { exported::tonkelvi_state_length(count, bands.as_ptr(), bands.len()) }
}

/// Fills a writer's state. Answers 0 or a refusal.
pub fn start_writer(count: u32, bands: &[u32], style: u8, planes: &[u32], state: &mut [u32]) -> u32 {
    // SAFETY: each pointer and length is of one slice, and the borrow checker keeps lent slices apart.
    unsafe {
        exported::tonkelvi_start_writer(
            count,
            bands.as_ptr(),
            bands.len(),
            style,
            planes.as_ptr(),
            planes.len(),
            state.as_mut_ptr(),
            state.len(),
        )
    }
}

/// Fills a reader's state; `planes` is to be empty. Answers 0 or a refusal.
pub fn start_reader(count: u32, bands: &[u32], style: u8, planes: &[u32], state: &mut [u32]) -> u32 {
    // SAFETY: as in start_writer.
    unsafe {
        exported::tonkelvi_start_reader(
            count,
            bands.as_ptr(),
            bands.len(),
            style,
            planes.as_ptr(),
            planes.len(),
            state.as_mut_ptr(),
            state.len(),
        )
    }
}

/// Measures a packet. `answer` has two words: header bytes and body bytes.
#[allow(clippy::too_many_arguments)]
pub fn measure(
    state: &[u32],
    scratch: &mut [u32],
    counts: &[u32],
    lengths: &[u32],
    marks: &[u8],
    sop: bool,
    eph: bool,
    answer: &mut [u64],
) -> u32 {
    // SAFETY: as in start_writer.
    unsafe {
        exported::tonkelvi_measure(
            state.as_ptr(),
            state.len(),
            scratch.as_mut_ptr(),
            scratch.len(),
            counts.as_ptr(),
            counts.len(),
            lengths.as_ptr(),
            lengths.len(),
            marks.as_ptr(),
            marks.len(),
            sop,
            eph,
            answer.as_mut_ptr(),
            answer.len(),
        )
    }
}

/// Writes a packet. `answer` has one word: its bytes.
#[allow(clippy::too_many_arguments)]
pub fn write(
    state: &mut [u32],
    scratch: &mut [u32],
    counts: &[u32],
    lengths: &[u32],
    marks: &[u8],
    body: &[u8],
    sop: bool,
    eph: bool,
    number: u32,
    output: &mut [u8],
    answer: &mut [u64],
) -> u32 {
    // SAFETY: as in start_writer.
    unsafe {
        exported::tonkelvi_write(
            state.as_mut_ptr(),
            state.len(),
            scratch.as_mut_ptr(),
            scratch.len(),
            counts.as_ptr(),
            counts.len(),
            lengths.as_ptr(),
            lengths.len(),
            marks.as_ptr(),
            marks.len(),
            body.as_ptr(),
            body.len(),
            sop,
            eph,
            number,
            output.as_mut_ptr(),
            output.len(),
            answer.as_mut_ptr(),
            answer.len(),
        )
    }
}

/// Writes the next packet of each of up to 16 precincts, or none of them: their states, and what each brings, lie behind one another, and
/// each has a packet number. `answer` has two words: the place of the precinct that was refused, and the bytes of all packets.
#[allow(clippy::too_many_arguments)]
pub fn write_layer(
    states: &mut [u32],
    scratch: &mut [u32],
    packet_numbers: &[u32],
    counts: &[u32],
    lengths: &[u32],
    marks: &[u8],
    bodies: &[u8],
    sop: bool,
    eph: bool,
    output: &mut [u8],
    answer: &mut [u64],
) -> u32 {
    // SAFETY: as in start_writer.
    unsafe {
        exported::tonkelvi_write_layer(
            states.as_mut_ptr(),
            states.len(),
            scratch.as_mut_ptr(),
            scratch.len(),
            packet_numbers.as_ptr(),
            packet_numbers.len(),
            counts.as_ptr(),
            counts.len(),
            lengths.as_ptr(),
            lengths.len(),
            marks.as_ptr(),
            marks.len(),
            bodies.as_ptr(),
            bodies.len(),
            sop,
            eph,
            output.as_mut_ptr(),
            output.len(),
            answer.as_mut_ptr(),
            answer.len(),
        )
    }
}

/// Reads a packet's header. `work` is a work list of four words for each record. `answer` has six words: present, bytes taken,
/// segments, SOP mark, EPH mark, bits past the end.
#[allow(clippy::too_many_arguments)]
pub fn read(
    state: &mut [u32],
    scratch: &mut [u32],
    src: &[u8],
    sop: bool,
    eph: bool,
    reports: &mut [u32],
    work: &mut [u32],
    records: &mut [Segment],
    answer: &mut [u64],
) -> u32 {
    // SAFETY: as in start_writer.
    unsafe {
        exported::tonkelvi_read(
            state.as_mut_ptr(),
            state.len(),
            scratch.as_mut_ptr(),
            scratch.len(),
            src.as_ptr(),
            src.len(),
            sop,
            eph,
            reports.as_mut_ptr(),
            reports.len(),
            work.as_mut_ptr(),
            work.len(),
            records.as_mut_ptr(),
            records.len(),
            answer.as_mut_ptr(),
            answer.len(),
        )
    }
}

/// Reads a packet's header and EPH from gathered headers, and SOP from `src`. `work` is as in [`read`]. `answer` has seven words: present,
/// bytes of the headers taken, bytes of `src` taken, segments, SOP mark, EPH mark, bits past the end of the headers.
#[allow(clippy::too_many_arguments)]
pub fn read_gathered(
    state: &mut [u32],
    scratch: &mut [u32],
    headers: &[u8],
    src: &[u8],
    sop: bool,
    eph: bool,
    reports: &mut [u32],
    work: &mut [u32],
    records: &mut [Segment],
    answer: &mut [u64],
) -> u32 {
    // SAFETY: as in start_writer.
    unsafe {
        exported::tonkelvi_read_gathered(
            state.as_mut_ptr(),
            state.len(),
            scratch.as_mut_ptr(),
            scratch.len(),
            headers.as_ptr(),
            headers.len(),
            src.as_ptr(),
            src.len(),
            sop,
            eph,
            reports.as_mut_ptr(),
            reports.len(),
            work.as_mut_ptr(),
            work.len(),
            records.as_mut_ptr(),
            records.len(),
            answer.as_mut_ptr(),
            answer.len(),
        )
    }
}

/// Moves a row's packet headers, each with its EPH, into PPT marker segments at the front of `headers`, and what is left of the packets to
/// the front of `bodies`. `states` has readers' states behind one another, and `places` each packet's place among them, from 0. `answer`
/// has two words: the bytes put in `headers` and in `bodies`.
#[allow(clippy::too_many_arguments)]
pub fn gather_headers(
    row: &[u8],
    states: &[u32],
    scratch: &mut [u32],
    places: &[u32],
    sop: bool,
    eph: bool,
    headers: &mut [u8],
    bodies: &mut [u8],
    answer: &mut [u64],
) -> u32 {
    // SAFETY: as in start_writer.
    unsafe {
        exported::tonkelvi_gather_headers(
            row.as_ptr(),
            row.len(),
            states.as_ptr(),
            states.len(),
            scratch.as_mut_ptr(),
            scratch.len(),
            places.as_ptr(),
            places.len(),
            sop,
            eph,
            headers.as_mut_ptr(),
            headers.len(),
            bodies.as_mut_ptr(),
            bodies.len(),
            answer.as_mut_ptr(),
            answer.len(),
        )
    }
}

/// The move back: headers from PPT marker segments in front of their bodies again, to the front of `row`. `states` and `places` are as in
/// [`gather_headers`]. `answer` has one word: the bytes put in `row`.
#[allow(clippy::too_many_arguments)]
pub fn spread_headers(
    headers: &[u8],
    bodies: &[u8],
    states: &[u32],
    scratch: &mut [u32],
    places: &[u32],
    sop: bool,
    eph: bool,
    row: &mut [u8],
    answer: &mut [u64],
) -> u32 {
    // SAFETY: as in start_writer.
    unsafe {
        exported::tonkelvi_spread_headers(
            headers.as_ptr(),
            headers.len(),
            bodies.as_ptr(),
            bodies.len(),
            states.as_ptr(),
            states.len(),
            scratch.as_mut_ptr(),
            scratch.len(),
            places.as_ptr(),
            places.len(),
            sop,
            eph,
            row.as_mut_ptr(),
            row.len(),
            answer.as_mut_ptr(),
            answer.len(),
        )
    }
}

/// Tells what a state is. `answer` has three words: role, next layer, blocks.
pub fn describe(state: &[u32], answer: &mut [u64]) -> u32 {
    // SAFETY: as in start_writer.
    unsafe { exported::tonkelvi_describe(state.as_ptr(), state.len(), answer.as_mut_ptr(), answer.len()) }
}
