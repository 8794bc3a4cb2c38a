//! Moves of headers in front and back, each made by an engine's calls and by the plain Rust of gathered.rs, on equal copies of every list.
//! What was moved is read packet by packet, by the crate's branch for PPT too, and must tell what the row tells. Anything unequal ends the
//! run with all arguments.
use crate::gathered;
use crate::inputs::{self, Shape};
use crate::model::{self, Record, LAYERS};
use crate::pair::{same, Call, Markers, Pair};
use crate::random::Random;
use tonkelvi::words;

pub type Gather = fn(&[u8], &[u32], &mut [u32], &[u32], bool, bool, &mut [u8], &mut [u8], &mut [u64]) -> u32;
pub type Spread = fn(&[u8], &[u8], &[u32], &mut [u32], &[u32], bool, bool, &mut [u8], &mut [u64]) -> u32;

#[derive(Clone, Copy)]
pub struct Engine {
    pub gather: Gather,
    pub spread: Spread,
}

pub const ENGINE: Engine = Engine { gather: words::gather_headers, spread: words::spread_headers };

/// The plain Rust in an engine's place.
pub const PLAIN: Engine = Engine { gather: gathered::gather_headers, spread: gathered::spread_headers };

/// What a call finds in the lists that it is lent.
const USED: u32 = 0xdead_beef;
const USED_BYTE: u8 = 0xa5;

/// A move: scratch, outputs and the answer by their lengths.
#[derive(Clone, Debug)]
pub struct GatherCall {
    pub row: Vec<u8>,
    pub with: With,
    pub headers: usize,
    pub bodies: usize,
    pub answer: usize,
}

#[derive(Clone, Debug)]
pub struct SpreadCall {
    pub headers: Vec<u8>,
    pub bodies: Vec<u8>,
    pub with: With,
    pub row: usize,
    pub answer: usize,
}

/// What both moves are given.
#[derive(Clone, Debug)]
pub struct With {
    pub states: Vec<u32>,
    pub scratch: usize,
    pub places: Vec<u32>,
    pub markers: Markers,
}

/// What a move leaves: both outputs, of which the way back has one.
#[derive(Clone, PartialEq, Debug)]
pub struct Left {
    pub number: u32,
    pub scratch: Vec<u32>,
    pub outputs: [Vec<u8>; 2],
    pub answer: Vec<u64>,
}

impl Left {
    /// The bytes put in an output.
    pub fn put(&self, output: usize) -> &[u8] {
        &self.outputs[output][..self.answer[output] as usize]
    }

    fn bytes(&self) -> usize {
        4 * self.scratch.len() + self.outputs.iter().map(Vec::len).sum::<usize>()
    }

    /// The number, the answer, and of each list the first place that differs.
    fn short(&self, other: &Left) -> String {
        let scratch = first_difference(&self.scratch, &other.scratch);
        let outputs = [0, 1].map(|i| first_difference(&self.outputs[i], &other.outputs[i]));
        format!("{} {:?}, scratch {scratch:x?}, outputs {outputs:x?}", self.number, self.answer)
    }
}

/// The first place where two lists of a length differ, and the first list's element there.
fn first_difference<T: PartialEq + Copy>(list: &[T], other: &[T]) -> Option<(usize, T)> {
    (0..list.len()).find(|at| list[*at] != other[*at]).map(|at| (at, list[at]))
}

/// Calls that leave more bytes are not told in full where they differ.
const LONG: usize = 1 << 16;

fn same_left(left: &Left, expected: &Left, call: &dyn Fn() -> String) {
    if left.bytes() < LONG {
        same("what is left", left, expected, call);
    } else if left != expected {
        same("what is left", &left.short(expected), &expected.short(left), &|| format!("one that leaves {} bytes", left.bytes()));
    }
}

impl GatherCall {
    pub fn made(&self, gather: Gather) -> Left {
        let (mut scratch, mut answer) = (vec![USED; self.with.scratch], vec![u64::MAX; self.answer]);
        let (mut headers, mut bodies) = (vec![USED_BYTE; self.headers], vec![USED_BYTE; self.bodies]);
        let With { states, places, markers, .. } = &self.with;
        let Markers { sop, eph } = *markers;
        let number = gather(&self.row, states, &mut scratch, places, sop, eph, &mut headers, &mut bodies, &mut answer);
        Left { number, scratch, outputs: [headers, bodies], answer }
    }
}

impl SpreadCall {
    pub fn made(&self, spread: Spread) -> Left {
        let (mut scratch, mut answer, mut row) = (vec![USED; self.with.scratch], vec![u64::MAX; self.answer], vec![USED_BYTE; self.row]);
        let With { states, places, markers, .. } = &self.with;
        let Markers { sop, eph } = *markers;
        let number = spread(&self.headers, &self.bodies, states, &mut scratch, places, sop, eph, &mut row, &mut answer);
        Left { number, scratch, outputs: [row, Vec::new()], answer }
    }
}

// ---- rows

#[derive(Clone, Debug)]
pub struct Packet {
    pub place: u32,
    pub sop: Vec<u8>,
    /// With EPH.
    pub header: Vec<u8>,
    pub body: Vec<u8>,
}

/// Packets of some precincts, and the states of their readers.
#[derive(Clone, Debug)]
pub struct Row {
    pub states: Vec<Vec<u32>>,
    pub packets: Vec<Packet>,
    pub markers: Markers,
    /// Each packet has the markers that are chosen.
    pub in_place: bool,
}

impl Row {
    pub fn bytes(&self) -> Vec<u8> {
        self.packets.iter().flat_map(|p| [&p.sop[..], &p.header, &p.body].concat()).collect()
    }

    pub fn headers(&self) -> Vec<u8> {
        self.packets.iter().flat_map(|p| p.header.clone()).collect()
    }

    pub fn bodies(&self) -> Vec<u8> {
        self.packets.iter().flat_map(|p| [&p.sop[..], &p.body].concat()).collect()
    }

    /// A precinct's packets stand on both sides of another's.
    fn mixed(&self) -> bool {
        let mut runs: Vec<u32> = self.packets.iter().map(|packet| packet.place).collect();
        runs.dedup();
        (1..runs.len()).any(|at| runs[..at].contains(&runs[at]))
    }

    /// How many headers lie in several of these segments, which hold the row's.
    fn crossing(&self, segments: &[u8]) -> u64 {
        let mut ends: Vec<usize> = Vec::new();
        for begin in segment_places(segments) {
            let length = usize::from(u16::from_be_bytes([segments[begin + 2], segments[begin + 3]]));
            ends.push(ends.last().unwrap_or(&0) + length - 3);
        }
        let (mut at, mut crossing) = (0, 0);
        for packet in &self.packets {
            let end = at + packet.header.len();
            let first = ends.partition_point(|segment| *segment <= at);
            crossing += u64::from(ends.get(first).is_some_and(|segment| *segment < end));
            at = end;
        }
        crossing
    }

    fn with(&self) -> With {
        let states = self.states.concat();
        let places = self.packets.iter().map(|p| p.place).collect();
        With { scratch: states.len(), states, places, markers: self.markers }
    }

    /// A packet of one more precinct in front of the packet at this place: its header has so many bytes, at most 8,192, which tell that its
    /// block is in none of the layers so far, with a zero for each.
    fn insert_zeros(&mut self, random: &mut Random, at: usize, bytes: usize) {
        let shape = Shape { count: 1, bands: [[1, 1, 5], [0; 3], [0; 3]], style: 0, planes: vec![5] };
        let mut header = vec![0; bytes];
        header[0] = 0x80;
        if self.markers.eph {
            header.extend([0xff, 0x92]);
        }
        let sop = if self.markers.sop { sop(random) } else { Vec::new() };
        self.packets.insert(at, Packet { place: self.states.len() as u32, sop, header, body: Vec::new() });
        // one bit says that the packet is present
        self.states.push(in_layer(started(false, &shape), 8 * bytes as u32 - 2));
    }

    /// The move into outputs that just fit.
    pub fn gather(&self) -> GatherCall {
        let headers = self.headers().len();
        let segments = headers.div_ceil(gathered::SEGMENT_BYTES);
        let room = headers + gathered::SEGMENT_FRONT * segments;
        GatherCall { row: self.bytes(), with: self.with(), headers: room, bodies: self.bodies().len(), answer: 2 }
    }

    /// The way back from these segments into an output that just fits.
    pub fn spread(&self, segments: Vec<u8>) -> SpreadCall {
        SpreadCall { headers: segments, bodies: self.bodies(), with: self.with(), row: self.bytes().len(), answer: 1 }
    }
}

/// A packet that a writer makes of some layer, if it has any left.
fn written(random: &mut Random, writer: &mut [u32], place: usize, markers: Markers) -> Option<Packet> {
    let rare = random.pick(&[0, 1, 2, 8]);
    written_as_dense_as(random, writer, place, markers, rare)
}

fn written_as_dense_as(random: &mut Random, writer: &mut [u32], place: usize, markers: Markers, rare: u64) -> Option<Packet> {
    let layer = inputs::layer_by_block(random, writer, |_| rare, 6, true);
    let (mut scratch, mut answer) = (vec![0; writer.len()], [0]);
    let body = random.bytes(layer.body() as usize);
    // each band may have to tell of all layers so far
    let mut output = vec![0; body.len() + 16 * layer.lengths.len() + 16 * writer.len() + 3 * 9000];
    let number = random.next() as u32;
    let Markers { sop, eph } = markers;
    let (counts, lengths, marks) = (&layer.counts, &layer.lengths, &layer.marks);
    if model::write(writer, &mut scratch, counts, lengths, marks, &body, sop, eph, number, &mut output, &mut answer) != 0 {
        return None;
    }
    let (sop, end) = (if sop { 6 } else { 0 }, answer[0] as usize);
    let header = output[sop..end - body.len()].to_vec();
    Some(Packet { place: place as u32, sop: output[..sop].to_vec(), header, body })
}

fn started(writer: bool, shape: &Shape) -> Vec<u32> {
    let bands = shape.bands.as_flattened();
    let mut state = vec![0; model::state_length(shape.count, bands)];
    let number = match writer {
        true => model::start_writer(shape.count, bands, shape.style, &shape.planes, &mut state),
        false => model::start_reader(shape.count, bands, shape.style, &[], &mut state),
    };
    assert_eq!(number, 0, "a shape in range");
    state
}

/// A row of up to four precincts in any order over some layers, as writers make it. In some a packet has other markers than are chosen.
pub fn row(random: &mut Random, side: u64) -> Row {
    let shapes: Vec<Shape> = (0..random.between(1, 4)).map(|_| inputs::shape(random, side)).collect();
    let mut writers: Vec<_> = shapes.iter().map(|shape| started(true, shape)).collect();
    let mut states: Vec<_> = shapes.iter().map(|shape| started(false, shape)).collect();
    if random.once_in(6) {
        let late = inputs::late_layer(random);
        writers.iter_mut().chain(&mut states).for_each(|state| inputs::pass_over(state, late));
    }
    let (markers, strays) = (Markers { sop: random.once_in(2), eph: random.once_in(2) }, random.once_in(6));
    let mut row = Row { states, packets: Vec::new(), markers, in_place: true };
    for _ in 0..random.below(9) {
        let place = random.below(writers.len() as u64) as usize;
        let own = if strays && random.once_in(3) { Markers { sop: random.once_in(2), eph: random.once_in(2) } } else { markers };
        if let Some(packet) = written(random, &mut writers[place], place, own) {
            row.packets.push(packet);
            row.in_place &= (own.sop, own.eph) == (markers.sop, markers.eph);
        }
    }
    row
}

/// A row of so many header bytes, at least 3. Most of them tell of the layers before a precinct's first packet; most of these packets have
/// bodies, and later packets of their precincts stand between them.
pub fn long_row(random: &mut Random, bytes: usize) -> Row {
    let markers = Markers { sop: random.once_in(2), eph: random.once_in(2) };
    let mut row = Row { states: Vec::new(), packets: Vec::new(), markers, in_place: true };
    let (mut writers, mut left) = (Vec::new(), bytes);
    // a first packet of up to 12 blocks has some 25,000 bytes
    while left > 30_000 {
        if writers.is_empty() || random.once_in(2) {
            let (shape, layer) = (inputs::shape(random, 2), random.between(1_000, 65_000) as u32);
            let [writer, reader] = [true, false].map(|writer| in_layer(started(writer, &shape), layer));
            writers.push(writer);
            row.states.push(reader);
        }
        let place = random.below(writers.len() as u64) as usize;
        if let Some(packet) = written(random, &mut writers[place], place, markers) {
            left -= packet.header.len();
            row.packets.push(packet);
        }
    }
    while left > 0 {
        let eph = if markers.eph { 2 } else { 0 };
        let most = left.min(8192 + eph);
        let header = if left > most && left - most <= eph { most - 3 } else { most };
        left -= header;
        let at = random.below(row.packets.len() as u64 + 1) as usize;
        row.insert_zeros(random, at, header - eph);
    }
    row
}

/// Packets of three bands of 64 × 64 blocks, in which each pass has a segment of its own, with one of another precinct between them.
fn largest_row(random: &mut Random) -> Row {
    let planes = (0..3 * 64 * 64).map(|_| random.between(0, 12) as u32).collect();
    let shapes = [Shape { count: 3, bands: [[64, 64, 12]; 3], style: 4, planes }, inputs::shape(random, 2)];
    let mut writers = shapes.each_ref().map(|shape| started(true, shape));
    let states = shapes.iter().map(|shape| started(false, shape)).collect();
    let mut row = Row { states, packets: Vec::new(), markers: Markers { sop: true, eph: true }, in_place: true };
    for (place, rare) in [(0, 1), (1, 1), (0, 3)] {
        let packet = written_as_dense_as(random, &mut writers[place], place, row.markers, rare);
        row.packets.push(packet.expect("a packet that fits"));
    }
    row
}

fn in_layer(mut state: Vec<u32>, layer: u32) -> Vec<u32> {
    state[3] = layer;
    state
}

/// A row of packets that readers of any states in range accept, made of noise.
pub fn row_of_states(random: &mut Random) -> Row {
    let shapes: Vec<Shape> = (0..random.between(1, 3)).map(|_| inputs::shape(random, 2)).collect();
    let states: Vec<Vec<u32>> = shapes
        .iter()
        .map(|shape| match random.below(4) {
            0 => inputs::late_state(random, 2, shape, 100),
            1 => inputs::far_state(random, shape),
            _ => inputs::state(random, 2, shape),
        })
        .collect();
    let markers = Markers { sop: random.once_in(2), eph: random.once_in(2) };
    let (mut now, mut row) = (states.clone(), Row { states, packets: Vec::new(), markers, in_place: true });
    for _ in 0..random.between(1, 5) {
        let place = random.below(now.len() as u64) as usize;
        if let Some(packet) = found(random, &mut now[place], place, markers) {
            row.packets.push(packet);
        }
    }
    row
}

/// A packet with its markers whose header is any that the reader accepts, all bits of it inside, with a short body.
fn found(random: &mut Random, state: &mut Vec<u32>, place: usize, markers: Markers) -> Option<Packet> {
    let sop = if markers.sop { sop(random) } else { Vec::new() };
    for _ in 0..20 {
        let mut header = inputs::noise(random);
        if random.once_in(3) {
            header.extend([0xff, 0x92]);
        }
        let mut after = state.clone();
        if let Some((answer, body)) = told(&mut after, &header, markers.eph) {
            let [_, taken, _, _, eph_mark, past] = answer;
            if past == 0 && eph_mark == 0 && body < 200 {
                *state = after;
                header.truncate(taken as usize);
                return Some(Packet { place: place as u32, sop, header, body: random.bytes(body as usize) });
            }
        }
    }
    None
}

fn sop(random: &mut Random) -> Vec<u8> {
    vec![0xff, 0x91, 0, 4, random.next() as u8, random.next() as u8]
}

/// What a read of a header tells, and the bytes of its body.
fn told(state: &mut [u32], header: &[u8], eph: bool) -> Option<([u64; 6], u64)> {
    let blocks = inputs::blocks_in(state);
    let (mut scratch, mut reports, mut work) = (vec![0; state.len()], vec![0; 4 * blocks], vec![0; 4 * 164 * blocks]);
    let (mut records, mut answer) = (vec![Record::default(); 164 * blocks], [0; 6]);
    let number = model::read(state, &mut scratch, header, false, eph, &mut reports, &mut work, &mut records, &mut answer);
    let body = records.iter().take(answer[2] as usize).map(|record| u64::from(record.numbers[3])).sum();
    (number == 0).then_some((answer, body))
}

/// Header bytes cut into segments anywhere, of at most so many bytes, and of more where there would be too many.
pub fn cut_into_segments(random: &mut Random, headers: &[u8], most: usize) -> Vec<u8> {
    let least = headers.len().div_ceil(gathered::MOST_SEGMENTS).max(1);
    let (mut left, mut segments, mut index) = (headers, Vec::new(), 0u8);
    while !left.is_empty() {
        let n = random.between(least as u64, least.max(most) as u64).min(left.len() as u64) as usize;
        segments.extend(gathered::segment(index, &left[..n]));
        left = &left[n..];
        index = index.wrapping_add(1);
    }
    segments
}

// ---- damage

fn damage_with(random: &mut Random, with: &mut With, row: &Row) {
    match random.below(10) {
        0 | 1 if !with.places.is_empty() => {
            let at = random.below(with.places.len() as u64) as usize;
            let states = row.states.len() as u32;
            with.places[at] = random.pick(&[states, states, states.wrapping_sub(1), 0, u32::MAX, 1 << 31]);
        }
        2 if random.once_in(2) => with.places.push(0),
        2 => _ = with.places.pop(),
        3 => with.scratch = inputs::near(random, with.scratch),
        4 => with.markers.sop ^= true,
        5 => with.markers.eph ^= true,
        _ => damage_states(random, with, row),
    }
}

fn damage_states(random: &mut Random, with: &mut With, row: &Row) {
    let place = random.below(row.states.len() as u64) as usize;
    let begin: usize = row.states[..place].iter().map(Vec::len).sum();
    let end = begin + row.states[place].len();
    if with.states.len() < end {
        return;
    }
    match random.below(8) {
        0 => with.states.truncate(random.below(with.states.len() as u64 + 1) as usize),
        1 => with.states.extend_from_slice(&[2; 13][..random.between(1, 13) as usize]),
        2 => with.states.extend(&row.states[place]),
        3 | 4 => with.states[begin + 3] = random.pick(&[LAYERS, LAYERS, LAYERS + 1]),
        5 => with.states[begin] = random.pick(&[0, 1, 3]),
        _ => {
            let damaged = inputs::damaged_state(random, &with.states[begin..end]);
            with.states.splice(begin..end, damaged);
        }
    }
    if !random.once_in(10) {
        with.scratch = with.states.len();
    }
}

fn shorter(random: &mut Random, n: usize) -> usize {
    let any = random.below(n as u64 + 1) as usize;
    random.pick(&[n.saturating_sub(1), n.saturating_sub(1), any, 0])
}

/// Longer, cut, or with bytes changed.
fn damage_bytes(random: &mut Random, bytes: &mut Vec<u8>) {
    match random.below(5) {
        0 => bytes.push(random.pick(&[0, 0x80, 0xff])),
        1 => _ = bytes.pop(),
        2 => bytes.truncate(random.below(bytes.len() as u64 + 1) as usize),
        _ => *bytes = inputs::damaged_bytes(random, bytes),
    }
}

/// In place of one packet's header another that its reader may refuse, and nothing behind it.
fn with_noise(random: &mut Random, row: &Row) -> Row {
    let mut row = row.clone();
    let packets = random.between(1, row.packets.len().max(1) as u64) as usize;
    row.packets.truncate(packets);
    if let Some(packet) = row.packets.last_mut() {
        packet.header = match random.below(3) {
            0 => [0xff, 0x7f].repeat(random.between(3, 9) as usize),
            1 => inputs::cut(random, &packet.header),
            _ => inputs::noise(random),
        };
        packet.body.clear();
    }
    row
}

pub fn damaged_gather(random: &mut Random, row: &Row) -> GatherCall {
    let mut call = if random.once_in(6) { with_noise(random, row).gather() } else { row.gather() };
    for _ in 0..random.pick(&[1, 1, 1, 2, 3]) {
        match random.below(9) {
            0..=2 => damage_bytes(random, &mut call.row),
            3 => call.headers = shorter(random, call.headers),
            4 => call.bodies = shorter(random, call.bodies),
            5 if random.once_in(4) => call.answer = random.pick(&[0, 1, 3]),
            _ => damage_with(random, &mut call.with, row),
        }
    }
    call
}

pub fn damaged_spread(random: &mut Random, row: &Row) -> SpreadCall {
    let noisy = if random.once_in(6) { with_noise(random, row) } else { row.clone() };
    let most = random.pick(&[1, 2, 7, 40, 1 << 15]);
    let segments = cut_into_segments(random, &noisy.headers(), most);
    let mut call = noisy.spread(segments);
    for _ in 0..random.pick(&[1, 1, 1, 2, 3]) {
        match random.below(10) {
            0..=2 => damage_segments(random, &mut call.headers),
            3 | 4 => damage_bytes(random, &mut call.bodies),
            5 => call.row = shorter(random, call.row),
            6 if random.once_in(4) => call.answer = random.pick(&[0, 2]),
            _ => damage_with(random, &mut call.with, row),
        }
    }
    call
}

/// The list cut, one segment more, with a byte or with none, or a segment with another marker, length field or index.
fn damage_segments(random: &mut Random, segments: &mut Vec<u8>) {
    let begins = segment_places(segments);
    if begins.is_empty() || random.once_in(4) {
        match random.below(4) {
            0 => segments.extend(gathered::segment(begins.len() as u8, &[random.pick(&[0, 0x80, 0xff])])),
            1 => segments.extend(gathered::segment(begins.len() as u8, &[])),
            _ => damage_bytes(random, segments),
        }
        return;
    }
    let at = random.pick(&begins);
    let byte = random.below(5) as usize;
    let old = segments[at + byte];
    segments[at + byte] = random.pick(&[0, 3, 4, 255, old ^ 1, old.wrapping_add(1), old.wrapping_sub(1)]);
}

/// Where segments begin, as far as their length fields tell.
fn segment_places(segments: &[u8]) -> Vec<usize> {
    let (mut at, mut places) = (0, Vec::new());
    while at + gathered::SEGMENT_FRONT <= segments.len() {
        places.push(at);
        at += 2 + usize::from(u16::from_be_bytes([segments[at + 2], segments[at + 3]]));
    }
    places
}

// ---- trials

/// 0 and the refusals.
pub const NUMBERS: usize = 17;

#[derive(Clone, Default)]
pub struct Counts {
    pub gathers: [u64; NUMBERS],
    pub spreads: [u64; NUMBERS],
    /// Rows with every chosen marker in place that came back, and those where a precinct's packets stand on both sides of another's.
    pub restored: u64,
    pub mixed: u64,
    /// Headers of such rows that lie in several segments, as the move fills them, and cut anywhere.
    pub crossing: u64,
    pub crossing_cut: u64,
    /// Moves of a damaged row, and ways back from damaged segments or headers.
    pub damaged_rows: u64,
    pub damaged_segments: u64,
    /// Ways back from a few segments that are cut at each byte, and with each byte changed.
    pub cut_segments: u64,
    /// Packets that tell the same from the row and from what was moved, and those that the crate's branch for PPT was asked too.
    pub told: u64,
    pub told_by_crate: u64,
    /// The most segment records that one of them has.
    pub most_records: usize,
}

impl Counts {
    pub fn total(&self) -> u64 {
        self.gathers.iter().chain(&self.spreads).sum()
    }

    pub fn print(&self) {
        println!("{:>16}  {}", "", (0..NUMBERS).map(|n| format!("{n:>9}")).collect::<String>());
        for (name, row) in [("gather_headers", &self.gathers), ("spread_headers", &self.spreads)] {
            let numbers = row.iter().map(|n| if *n == 0 { format!("{:>9}", "-") } else { format!("{n:>9}") });
            println!("{name:>16}  {}", numbers.collect::<String>());
        }
        println!("{} moves", self.total());
        println!("{} rows came back, {} of them of several precincts in mixed order", self.restored, self.mixed);
        println!("{} headers in several segments as they were filled, {} as they were cut", self.crossing, self.crossing_cut);
        println!("{} moves of damaged rows, {} ways back from damaged segments or headers", self.damaged_rows, self.damaged_segments);
        println!("{} ways back from few segments, cut at each byte and with each byte changed", self.cut_segments);
        println!(
            "{} packets told from what was moved as from the row, {} of them by the crate's branch for PPT too; up to {} records",
            self.told, self.told_by_crate, self.most_records
        );
    }
}

pub struct Moves {
    pub counts: Counts,
    engine: Engine,
    pair: Pair,
    random: Random,
}

impl Moves {
    pub fn new(engine: Engine, seed: u64) -> Moves {
        Moves { counts: Counts::default(), engine, pair: Pair::new(seed), random: Random::new(seed) }
    }

    pub fn gather(&mut self, call: &GatherCall) -> Left {
        let (left, expected) = (call.made(self.engine.gather), call.made(PLAIN.gather));
        same_left(&left, &expected, &|| format!("{call:02x?}"));
        self.counts.gathers[left.number as usize] += 1;
        left
    }

    pub fn spread(&mut self, call: &SpreadCall) -> Left {
        let (left, expected) = (call.made(self.engine.spread), call.made(PLAIN.spread));
        same_left(&left, &expected, &|| format!("{call:02x?}"));
        self.counts.spreads[left.number as usize] += 1;
        left
    }

    fn until(&mut self, calls: u64, trial: impl Fn(&mut Moves)) {
        let end = self.counts.total() + calls;
        while self.counts.total() < end {
            trial(self);
        }
    }

    /// Rows as writers make them: moved and moved back, and before that with damaged lists.
    pub fn rows(&mut self, calls: u64, side: u64) {
        self.until(calls, |t| {
            let row = row(&mut t.random, side);
            t.tried(&row);
        });
    }

    /// The same of noise that the readers of any states accept.
    pub fn rows_of_states(&mut self, calls: u64) {
        self.until(calls, |t| {
            let row = row_of_states(&mut t.random);
            t.tried(&row);
        });
    }

    fn tried(&mut self, row: &Row) {
        self.damaged(row, 6);
        self.there_and_back(row);
    }

    fn damaged(&mut self, row: &Row, times: u64) {
        let (bytes, headers) = (row.bytes(), Some(row.headers()));
        for _ in 0..times {
            let call = damaged_gather(&mut self.random, row);
            self.gather(&call);
            self.counts.damaged_rows += u64::from(call.row != bytes);
            let call = damaged_spread(&mut self.random, row);
            self.spread(&call);
            self.counts.damaged_segments += u64::from(gathered::out_of_segments(&call.headers) != headers);
        }
    }

    /// Rows whose header bytes fill one or two segments, or are up to two bytes more or less; some have any other number.
    pub fn full_segments(&mut self, rows: u64) {
        for turn in 0..rows {
            let any = self.random.between(20_000, 180_000) as usize;
            let bytes = match turn % 6 {
                5 => any,
                off => gathered::SEGMENT_BYTES * self.random.pick(&[1, 1, 2]) + off as usize - 2,
            };
            let row = long_row(&mut self.random, bytes);
            let call = row.gather();
            for less in [1, 5, 6, 7] {
                self.gather(&GatherCall { headers: call.headers - less, ..call.clone() });
            }
            self.damaged(&row, 2);
            self.there_and_back(&row);
        }
    }

    /// A row moved, and moved back from the segments as they are and from others.
    pub fn there_and_back(&mut self, row: &Row) {
        let (mut call, text) = (row.gather(), || format!("{row:02x?}"));
        let (headers, bodies) = (self.random.below(3) as usize, self.random.below(3) as usize);
        call.headers += headers;
        call.bodies += bodies;
        let moved = self.gather(&call);
        if !row.in_place {
            return;
        }
        same("a row's number", &moved.number, &0, &text);
        same("header bytes", &gathered::out_of_segments(moved.put(0)), &Some(row.headers()), &text);
        same("body bytes", moved.put(1), &row.bodies()[..], &text);
        self.told_alike(row, &moved);
        let most = self.random.pick(&[1, 2, 7, 40, 1 << 15]);
        let others = cut_into_segments(&mut self.random, &row.headers(), most);
        self.counts.crossing += row.crossing(moved.put(0));
        self.counts.crossing_cut += row.crossing(&others);
        for segments in [moved.put(0).to_vec(), others] {
            let mut call = row.spread(segments);
            call.row += self.random.below(3) as usize;
            let back = self.spread(&call);
            same("the way back's number", &back.number, &0, &text);
            same("the row", back.put(0), &row.bytes()[..], &text);
            same("the states", &back.scratch, &moved.scratch, &text);
        }
        self.counts.restored += 1;
        self.counts.mixed += u64::from(row.mixed());
    }

    /// Packet by packet, what was moved tells what the row does, with markers in place, and leaves the states that the move left.
    fn told_alike(&mut self, row: &Row, moved: &Left) {
        let (stream, headers) = (row.bytes(), gathered::out_of_segments(moved.put(0)).unwrap());
        let (mut stream, mut headers, mut bodies) = (&stream[..], &headers[..], moved.put(1));
        let (mut streamed, mut states) = (row.states.clone(), row.states.clone());
        let (markers, text) = (row.markers, || format!("{row:02x?}"));
        for packet in &row.packets {
            let place = packet.place as usize;
            let (words, blocks) = (states[place].len(), inputs::blocks_in(&states[place]));
            // more than any packet of `largest_row` has
            let (reports, records) = (4 * blocks, (164 * blocks).min(1 << 18));
            let from_row = self.pair.read(&mut streamed[place], words, stream, markers, reports, 4 * records, records, 6);
            let from_headers =
                self.pair.read_gathered(&mut states[place], words, headers, bodies, markers, reports, 4 * records, records, 7);
            let taken = from_headers.tells_as(&from_row, &text);
            self.counts.most_records = self.counts.most_records.max(from_row.records.len());
            same("a packet's number and bytes", &(from_headers.number, taken), &(0, (packet.header.len(), packet.sop.len())), &text);
            stream = &stream[packet.sop.len() + packet.header.len() + packet.body.len()..];
            headers = &headers[packet.header.len()..];
            bodies = &bodies[packet.sop.len() + packet.body.len()..];
        }
        same("states from the row", &streamed.concat(), &moved.scratch, &text);
        same("states from what was moved", &states.concat(), &moved.scratch, &text);
        self.counts.told += row.packets.len() as u64;
        self.counts.told_by_crate = self.pair.counts.with_crate[Call::ReadGathered as usize][0];
    }

    /// Rows of few bytes with each list cut at each element, outputs and answer of each length, and each byte of the segments and each word
    /// of the states changed.
    pub fn every_cut(&mut self, rows: u64) {
        for _ in 0..rows {
            let row = loop {
                let row = row(&mut self.random, 1);
                if row.bytes().len() < 120 {
                    break row;
                }
            };
            let most = self.random.pick(&[1, 2, 7, 1 << 15]);
            let segments = cut_into_segments(&mut self.random, &row.headers(), most);
            self.every_gather(&row.gather());
            self.every_spread(&row.spread(segments));
        }
    }

    fn every_gather(&mut self, call: &GatherCall) {
        for end in 0..call.row.len() {
            self.gather(&GatherCall { row: call.row[..end].to_vec(), ..call.clone() });
        }
        for headers in 0..=call.headers {
            self.gather(&GatherCall { headers, ..call.clone() });
        }
        for bodies in 0..=call.bodies {
            self.gather(&GatherCall { bodies, ..call.clone() });
        }
        for answer in 0..4 {
            self.gather(&GatherCall { answer, ..call.clone() });
        }
        for with in every_with(&call.with) {
            self.gather(&GatherCall { with, ..call.clone() });
        }
    }

    fn every_spread(&mut self, call: &SpreadCall) {
        for end in 0..call.headers.len() {
            let mut changed = call.headers.clone();
            changed[end] ^= 1 << self.random.below(8);
            self.spread(&SpreadCall { headers: changed, ..call.clone() });
            self.spread(&SpreadCall { headers: call.headers[..end].to_vec(), ..call.clone() });
            self.counts.cut_segments += 2;
        }
        for end in 0..call.bodies.len() {
            self.spread(&SpreadCall { bodies: call.bodies[..end].to_vec(), ..call.clone() });
        }
        for row in 0..=call.row {
            self.spread(&SpreadCall { row, ..call.clone() });
        }
        for answer in 0..3 {
            self.spread(&SpreadCall { answer, ..call.clone() });
        }
        for with in every_with(&call.with) {
            self.spread(&SpreadCall { with, ..call.clone() });
        }
    }

    /// A row of the largest precinct: a packet may have any number of segments, and 13 isn't given.
    pub fn largest(&mut self) {
        let row = largest_row(&mut self.random);
        self.there_and_back(&row);
    }

    /// 256 full segments, there and back, and with a byte too little.
    pub fn most_segments(&mut self) {
        let row = full_segments(&mut self.random);
        let call = row.gather();
        let moved = self.gather(&call);
        assert_eq!((moved.number, moved.put(0).len()), (0, 256 * 65_537), "256 segments");
        let back = self.spread(&row.spread(moved.put(0).to_vec()));
        assert!(back.number == 0 && back.put(0) == call.row, "the way back");
        assert_eq!(self.gather(&GatherCall { headers: call.headers - 1, ..call }).number, 11);
    }

    /// A 257th segment, refused on both ways: 15 before 11, and 11 at the packet before.
    pub fn a_segment_too_many(&mut self) {
        let row = a_segment_more(&mut self.random);
        let call = row.gather();
        for (less, number) in [(6, 15), (7, 11), (0, 15)] {
            let call = GatherCall { headers: call.headers - less, ..call.clone() };
            assert_eq!(self.gather(&call).number, number, "{less} bytes less");
        }
        assert_eq!(self.spread(&row.spread(gathered::in_segments(&row.headers()))).number, 16, "a 257th segment");
    }

    /// A 257th segment for the header of a packet with a body of 5 bytes: 10 before 15.
    pub fn a_body_too_short(&mut self) {
        let mut row = a_segment_more(&mut self.random);
        row.states.last_mut().unwrap()[3] = 0;
        row.packets.last_mut().unwrap().header = vec![0xe5];
        for (bytes, number) in [(4, 10), (5, 15)] {
            row.packets.last_mut().unwrap().body = vec![7; bytes];
            assert_eq!(self.gather(&row.gather()).number, number, "a body of {bytes} bytes");
        }
    }

    /// 256 segments of one byte are taken, and a 257th is not.
    pub fn one_byte_segments(&mut self) {
        for (n, number) in [(256, 0), (257, 16)] {
            let mut row = Row { states: Vec::new(), packets: Vec::new(), markers: Markers::default(), in_place: true };
            (0..n).for_each(|_| row.insert_zeros(&mut self.random, 0, 1));
            let segments = (0..n).flat_map(|index| gathered::segment(index as u8, &[0x80])).collect();
            assert_eq!(self.spread(&row.spread(segments)).number, number, "{n} segments");
        }
    }
}

/// The scratch of other lengths, the states cut at each word and with one more, and each word made one that no state has.
fn every_with(with: &With) -> Vec<With> {
    let length = with.states.len();
    let scratches = [0, length.saturating_sub(1), length + 1].map(|scratch| With { scratch, ..with.clone() });
    let cut = |end: usize| With { states: with.states[..end].to_vec(), scratch: end, ..with.clone() };
    let longer = With { states: [&with.states[..], &[0]].concat(), scratch: length + 1, ..with.clone() };
    let changed = |at: usize| {
        let mut changed = with.clone();
        changed.states[at] = u32::MAX;
        changed
    };
    scratches.into_iter().chain((0..length).map(cut)).chain([longer]).chain((0..length).map(changed)).collect()
}

/// 256 × 65,532 header bytes, all but few of them zeros.
fn full_segments(random: &mut Random) -> Row {
    let mut row = Row { states: Vec::new(), packets: Vec::new(), markers: Markers::default(), in_place: true };
    let mut left = gathered::MOST_SEGMENTS * gathered::SEGMENT_BYTES;
    while left > 0 {
        let bytes = left.min(8192);
        row.insert_zeros(random, row.packets.len(), bytes);
        left -= bytes;
    }
    row
}

/// The same and a packet more, of one header byte.
fn a_segment_more(random: &mut Random) -> Row {
    let mut row = full_segments(random);
    row.insert_zeros(random, row.packets.len(), 1);
    row
}
