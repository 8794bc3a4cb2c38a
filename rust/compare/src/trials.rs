//! The trials: each makes calls until its share is used up.
use crate::follow::{Follower, Written};
use crate::inputs::{self, Shape};
use crate::model::{self, LAYERS, MOST_PRECINCTS};
use crate::pair::{same, Bands, Layer, LayerCall, Markers, Pair, Reading};
use crate::random::Random;

pub struct Trials {
    pub pair: Pair,
    random: Random,
}

/// A precinct's writer and reader, and its packets so far.
struct Precinct {
    writer: Vec<u32>,
    reader: Vec<u32>,
    follower: Follower,
}

/// A packet's header with EPH, and SOP with its body, as they stand where headers are gathered in front.
#[derive(Clone, Debug)]
struct Parts {
    headers: Vec<u8>,
    bodies: Vec<u8>,
}

impl Parts {
    /// Of a packet whose header and markers have so many bytes.
    fn of(packet: &[u8], header: usize, markers: Markers) -> Parts {
        let sop = if markers.sop { 6 } else { 0 };
        Parts { headers: packet[sop..header].to_vec(), bodies: [&packet[..sop], &packet[header..]].concat() }
    }
}

const RANGE_EDGES: [u32; 14] = [0, 1, 2, 997, 998, 999, 1000, 1001, 32_767, 32_768, 65_533, 65_534, 65_535, 65_536];

/// Bands, style and block planes of one block.
fn one_block(planes: u32, block: u32, style: u8) -> Shape {
    Shape { count: 1, bands: [[1, 1, planes], [0; 3], [0; 3]], style, planes: vec![block] }
}

impl Trials {
    pub fn new(seed: u64) -> Trials {
        Trials { pair: Pair::new(seed), random: Random::new(seed) }
    }

    fn until(&mut self, calls: u64, trial: impl Fn(&mut Trials)) {
        let end = self.pair.counts.total() + calls;
        while self.pair.counts.total() < end {
            trial(self);
        }
    }

    fn start(&mut self, writer: bool, shape: &Shape) -> Vec<u32> {
        let length = self.pair.state_length(shape.count, shape.bands.as_flattened());
        let planes = if writer { &shape.planes[..] } else { &[] };
        self.pair.start(writer, shape.count, shape.bands.as_flattened(), shape.style, planes, length).expect("a shape in range")
    }

    fn read(&mut self, state: &mut Vec<u32>, src: &[u8], markers: Markers, records: usize) -> Reading {
        let (length, reports) = (state.len(), 4 * inputs::blocks_in(state));
        self.pair.read(state, length, src, markers, reports, 4 * records, records, 6)
    }

    /// A read of an input that was cut, on a copy of the state.
    fn read_cut(&mut self, state: &[u32], src: &[u8], markers: Markers, records: usize) -> Reading {
        self.pair.counts.cut_inputs += 1;
        self.read(&mut state.to_vec(), src, markers, records)
    }

    // ---- starts

    /// Starts with any numbers, most of them near an edge, some with a list of bands of another length than nine words.
    pub fn starts(&mut self, calls: u64) {
        self.until(calls, |t| {
            let shape = inputs::shape(&mut t.random, 5);
            let (mut count, mut bands, mut style, mut planes) = (shape.count, shape.bands, shape.style, shape.planes);
            for _ in 0..t.random.below(3) {
                match t.random.below(6) {
                    0 => count = inputs::edge(&mut t.random),
                    1 => bands[t.random.below(3) as usize][t.random.below(3) as usize] = inputs::edge(&mut t.random),
                    2 => style = t.random.next() as u8,
                    3 if !planes.is_empty() => {
                        let at = t.random.below(planes.len() as u64) as usize;
                        planes[at] = inputs::edge(&mut t.random);
                    }
                    4 => planes.resize((planes.len() as u64 + t.random.below(3)).saturating_sub(1) as usize, 0),
                    _ => {}
                }
            }
            let mut words = bands.as_flattened().to_vec();
            if t.random.once_in(8) {
                words.resize(t.random.pick(&[0, 8, 10]), 1);
            }
            let length = t.pair.state_length(count, &words);
            let lent = (length as u64 + if t.random.once_in(4) { t.random.below(3) } else { 1 }).saturating_sub(1) as usize;
            t.pair.start(true, count, &words, style, &planes, lent);
            let none = if t.random.once_in(8) { &planes[..] } else { &[] };
            t.pair.start(false, count, &words, style, none, lent);
        });
    }

    // ---- packets written and read back

    /// A precinct's packets over some layers, measured, written and read, with refused calls and damaged copies between.
    pub fn sessions(&mut self, calls: u64, side: u64) {
        self.until(calls, |t| {
            let shape = inputs::shape(&mut t.random, side);
            let (mut writer, mut reader) = (t.start(true, &shape), t.start(false, &shape));
            let mut follower = t.follower(&shape);
            let layers = t.random.between(1, 6);
            t.session(&mut writer, &mut reader, layers, Some(&mut follower));
        });
    }

    /// The same, most of it in layers from 999 on.
    pub fn late_sessions(&mut self, calls: u64, side: u64) {
        self.until(calls, |t| {
            let shape = inputs::shape(&mut t.random, side);
            let (mut writer, mut reader) = (t.start(true, &shape), t.start(false, &shape));
            let (mut follower, layers) = (t.follower(&shape), t.random.below(3));
            t.session(&mut writer, &mut reader, layers, Some(&mut follower));
            let late = inputs::late_layer(&mut t.random);
            inputs::pass_over(&mut writer, late);
            inputs::pass_over(&mut reader, late);
            let layers = t.random.between(1, 6);
            t.session(&mut writer, &mut reader, layers, None);
        });
    }

    fn follower(&mut self, shape: &Shape) -> Follower {
        Follower::new(shape, !self.random.once_in(3))
    }

    fn session(&mut self, writer: &mut Vec<u32>, reader: &mut Vec<u32>, layers: u64, mut follower: Option<&mut Follower>) {
        let matching = follower.as_ref().map_or(self.random.once_in(2), |f| f.matching);
        for number in 0..layers as u32 {
            let rare = self.random.pick(&[0, 1, 2, 8]);
            let layer = inputs::layer_by_block(&mut self.random, writer, |_| rare, 7, matching);
            let markers = inputs::markers(&mut self.random);
            let Some(packet) = self.written(writer, &layer, markers, number) else { return };
            let header = packet.len() - layer.body() as usize;
            self.read_copies(reader, &packet[..header], markers);
            let src = if self.random.once_in(2) { &packet[..header] } else { &packet[..] };
            let reading = self.read(reader, src, markers, layer.lengths.len());
            if let Some(follower) = &mut follower {
                let written = Written { layer: &layer, markers, number: number.wrapping_mul(40503), packet: &packet, state: writer };
                follower.packet(&mut self.pair.counts, &written, &reading, reader);
            }
        }
    }

    /// So many packets of small precincts in order from their starts, through up to 24 layers, some or most of them without passes.
    pub fn chains(&mut self, packets: u64) {
        let end = self.pair.counts.in_order + packets;
        while self.pair.counts.in_order < end {
            let side = self.random.pick(&[1, 2, 2, 3]);
            let shape = inputs::shape(&mut self.random, side);
            let (mut writer, mut reader) = (self.start(true, &shape), self.start(false, &shape));
            let mut follower = Follower::new(&shape, true);
            let (layers, with_passes) = (self.random.between(2, 24) as u32, self.random.pick(&[1, 2, 3, 10]));
            for number in 0..layers {
                let rare = if self.random.once_in(with_passes) { self.random.pick(&[1, 1, 3]) } else { 0 };
                self.next_packet(&mut writer, &mut reader, &mut follower, number, rare, |_, _, _, _, _| {});
            }
        }
    }

    /// The next packet of a chain, written into room enough, and read; before that, its header is shown to `first`, with the reader's state
    /// and with as many records as are enough for what is written.
    fn next_packet(
        &mut self,
        writer: &mut Vec<u32>,
        reader: &mut Vec<u32>,
        follower: &mut Follower,
        number: u32,
        rare: u64,
        first: impl Fn(&mut Trials, &[u32], &[u8], Markers, usize),
    ) {
        let layer = inputs::layer_by_block(&mut self.random, writer, |_| rare, 6, true);
        let (markers, words) = (inputs::markers(&mut self.random), writer.len());
        let body = self.random.bytes(layer.body() as usize);
        let room = body.len() + 16 * layer.lengths.len() + 16 * words;
        let (refusal, packet) = self.pair.write(writer, words, &layer, &body, markers, number, room, 1);
        assert_eq!(refusal, 0, "a packet that fits");
        first(self, reader, &packet[..packet.len() - body.len()], markers, layer.lengths.len().max(9));
        let reading = self.read(reader, &packet, markers, layer.lengths.len());
        let written = Written { layer: &layer, markers, number, packet: &packet, state: writer };
        follower.packet(&mut self.pair.counts, &written, &reading, reader);
    }

    /// Measures, then writes into outputs that are too short and at last into one that isn't.
    fn written(&mut self, state: &mut Vec<u32>, layer: &Layer, markers: Markers, number: u32) -> Option<Vec<u8>> {
        let length = state.len();
        let (refusal, header, body) = self.pair.measure(state, length, layer, markers, 2);
        if refusal != 0 {
            return None;
        }
        let size = (header + body) as usize;
        let bytes = self.random.bytes(body as usize);
        let short = size - self.random.between(1, size as u64) as usize;
        for output in [short, size - 1] {
            if self.random.once_in(3) {
                self.pair.write(state, length, layer, &bytes, markers, number, output, 1);
            }
        }
        let room = size + if self.random.once_in(2) { 0 } else { self.random.below(9) as usize };
        let (refusal, packet) = self.pair.write(state, length, layer, &bytes, markers, number.wrapping_mul(40503), room, 1);
        (refusal == 0).then_some(packet)
    }

    /// Damaged copies of a packet and noise, each on a copy of the state.
    fn read_copies(&mut self, state: &[u32], packet: &[u8], markers: Markers) {
        for _ in 0..4 {
            let src =
                if self.random.once_in(4) { inputs::noise(&mut self.random) } else { inputs::damaged_bytes(&mut self.random, packet) };
            let records = if self.random.once_in(4) { self.random.below(8) as usize } else { 164 * 4 };
            let markers = if self.random.once_in(4) { inputs::markers(&mut self.random) } else { markers };
            self.read(&mut state.to_vec(), &src, markers, records);
        }
    }

    // ---- arbitrary states

    /// States in range that no call need leave, and such with words out of range.
    pub fn states(&mut self, calls: u64) {
        self.until(calls, |t| {
            let shape = inputs::shape(&mut t.random, 3);
            let mut state = |role| inputs::state(&mut t.random, role, &shape);
            let (writer, reader) = (state(1), state(2));
            t.states_written(writer);
            t.states_read(reader);
            t.states_described(&shape);
        });
    }

    /// The same in layers from 997 on.
    pub fn late_states(&mut self, calls: u64) {
        self.until(calls, |t| {
            let shape = inputs::shape(&mut t.random, 3);
            let mut state = |role| inputs::late_state(&mut t.random, role, &shape, 100);
            let (writer, reader) = (state(1), state(2));
            t.states_written(writer);
            t.states_read(reader);
        });
    }

    fn states_written(&mut self, mut state: Vec<u32>) {
        let bits = self.random.pick(&[4, 12, 31, 32]);
        let layer = inputs::layer(&mut self.random, &state, 2, bits);
        let markers = inputs::markers(&mut self.random);
        let damaged = inputs::damaged_state(&mut self.random, &state);
        self.pair.measure(&damaged, damaged.len(), &layer, markers, 2);
        if layer.body() < 1 << 16 {
            self.written(&mut state, &layer, markers, 7);
        } else {
            let length = state.len();
            self.pair.measure(&state, length, &layer, markers, 2);
            self.pair.write(&mut state, length, &layer, &[0; 9], markers, 7, 99, 1);
        }
    }

    fn states_read(&mut self, state: Vec<u32>) {
        let markers = inputs::markers(&mut self.random);
        let reports = 4 * inputs::blocks_in(&state);
        for _ in 0..3 {
            let src = inputs::noise(&mut self.random);
            self.read(&mut state.clone(), &src, markers, 164 * 27);
        }
        let damaged = inputs::damaged_state(&mut self.random, &state);
        for mut state in [damaged, state] {
            let (length, src) = (state.len(), inputs::noise(&mut self.random));
            let other = self.random.once_in(2);
            let work = self.near(400, other);
            self.pair.read(&mut state, length, &src, markers, reports, work, 100, 6);
        }
    }

    fn states_described(&mut self, shape: &Shape) {
        let role = self.random.between(0, 3) as u32;
        let state = inputs::state(&mut self.random, role, shape);
        let damaged = inputs::damaged_state(&mut self.random, &state);
        for state in [state, damaged] {
            let other = self.random.once_in(8);
            let answer = self.near(3, other);
            self.pair.describe(&state, answer);
        }
        let short = self.random.below(13) as usize;
        self.pair.describe(&vec![1; short], 3);
    }

    /// States with one word at an edge of its range or beyond: the next layer, and each word of each node.
    pub fn ranges(&mut self) {
        let shape = Shape { count: 2, bands: [[2, 1, 5], [1, 1, 998], [0; 3]], style: 0, planes: vec![5, 0, 990] };
        for (writer, layer) in [true, false].into_iter().flat_map(|writer| RANGE_EDGES.map(|layer| (writer, layer))) {
            let mut state = self.start(writer, &shape);
            inputs::pass_over(&mut state, layer.min(LAYERS));
            state[3] = layer;
            let (places, _, _) = model::layout(&shape.bands[..2]);
            for at in places.iter().flat_map(|p| p.inclusion..p.block_words) {
                for edge in RANGE_EDGES {
                    let mut state = state.clone();
                    state[at] = edge;
                    self.any_role(&mut state);
                }
            }
        }
    }

    /// Describes a state, then measures or reads its next packet, with passes for each block, and measures it with none.
    fn any_role(&mut self, state: &mut Vec<u32>) {
        self.pair.describe(state, 3);
        let (length, blocks) = (state.len(), inputs::blocks_in(state));
        if state[0] == 1 {
            let layer = Layer { counts: vec![1; blocks], lengths: vec![2; blocks], marks: vec![0; blocks] };
            let none = Layer { counts: vec![0; blocks], ..Layer::default() };
            for layer in [layer, none] {
                self.pair.measure(state, length, &layer, Markers::default(), 2);
            }
        } else {
            self.read(state, &[0xed, 0xb7, 0x6d], Markers::default(), 9);
        }
    }

    // ---- lists of other lengths

    /// Calls with one list shorter or longer, each list in turn.
    pub fn lists(&mut self, calls: u64) {
        self.until(calls, |t| {
            let shape = inputs::shape(&mut t.random, 2);
            let list = t.random.below(7);
            t.lists_written(&shape, list);
            t.lists_read(&shape, list);
        });
    }

    /// The length of a list, or if it is the one to change one near it.
    fn near(&mut self, n: usize, changes: bool) -> usize {
        match changes {
            false => n,
            true => inputs::near(&mut self.random, n),
        }
    }

    fn lists_written(&mut self, shape: &Shape, list: u64) {
        let mut state = self.start(true, shape);
        let mut layer = inputs::layer(&mut self.random, &state, 2, 6);
        let markers = inputs::markers(&mut self.random);
        let body = layer.body() as usize;
        let (counts, lengths, marks) = (layer.counts.len(), layer.lengths.len(), layer.marks.len());
        layer.counts.resize(self.near(counts, list == 0), 1);
        layer.lengths.resize(self.near(lengths, list == 1), 3);
        layer.marks.resize(self.near(marks, list == 2), 0);
        if self.random.once_in(10) {
            self.other_count(&mut layer);
        }
        let scratch = self.near(state.len(), list == 3);
        let answer = self.near(2, list == 4);
        self.pair.measure(&state, scratch, &layer, markers, answer);
        let answer = self.near(1, list == 4);
        let given = self.near(body, list == 5);
        let given = self.random.bytes(given);
        let room = self.random.below(64) as usize + body;
        self.pair.write(&mut state, scratch, &layer, &given, markers, 3, room, answer);
    }

    /// One count made any number, or one about 164 with lengths and marks that fit it.
    fn other_count(&mut self, layer: &mut Layer) {
        if layer.counts.is_empty() {
            return;
        }
        let at = self.random.below(layer.counts.len() as u64) as usize;
        if self.random.once_in(2) {
            layer.counts[at] = inputs::edge(&mut self.random);
            return;
        }
        layer.counts[at] = self.random.between(163, 167) as u32;
        let passes: u32 = layer.counts.iter().sum();
        layer.lengths.resize(passes as usize, 0);
        layer.marks.resize(passes as usize, 0);
    }

    fn lists_read(&mut self, shape: &Shape, list: u64) {
        let mut state = self.start(false, shape);
        let markers = inputs::markers(&mut self.random);
        let src = inputs::noise(&mut self.random);
        let reports = self.near(4 * shape.planes.len(), list == 0);
        let scratch = self.near(state.len(), list == 3);
        let answer = self.near(6, list == 4);
        let records = self.random.below(10) as usize;
        let other = list == 1 || self.random.once_in(4);
        let work = self.near(4 * records, other);
        self.pair.read(&mut state, scratch, &src, markers, reports, work, records, answer);
    }

    // ---- headers gathered in front

    /// Packets over some layers, each read from its header moved to the front and, where its passes are terminated as the style has them,
    /// from the stream; before that reads of its parts damaged, cut, of noise, and with lists of other lengths. Then such reads on states
    /// that no call need leave.
    pub fn gathered(&mut self, calls: u64, side: u64) {
        self.until(calls, |t| {
            let shape = inputs::shape(&mut t.random, side);
            let (mut writer, mut reader) = (t.start(true, &shape), t.start(false, &shape));
            if t.random.once_in(8) {
                let late = inputs::late_layer(&mut t.random);
                inputs::pass_over(&mut writer, late);
                inputs::pass_over(&mut reader, late);
            }
            let matching = !t.random.once_in(4);
            for number in 0..t.random.between(1, 6) as u32 {
                let rare = t.random.pick(&[0, 1, 2, 8]);
                let layer = inputs::layer_by_block(&mut t.random, &writer, |_| rare, 7, matching);
                let markers = inputs::markers(&mut t.random);
                let Some(packet) = t.written(&mut writer, &layer, markers, number) else { break };
                let parts = Parts::of(&packet, packet.len() - layer.body() as usize, markers);
                t.gathered_copies(&reader, shape.planes.len(), &parts, markers);
                match matching {
                    true => t.gathered_and_streamed(&mut reader, &packet, &parts, markers, layer.lengths.len()),
                    false => _ = t.read_gathered(&mut reader, &parts, markers, layer.lengths.len()),
                }
            }
            let state = match t.random.below(4) {
                0 => inputs::late_state(&mut t.random, 2, &shape, 100),
                1 => inputs::far_state(&mut t.random, &shape),
                _ => inputs::state(&mut t.random, 2, &shape),
            };
            let damaged = inputs::damaged_state(&mut t.random, &state);
            for state in [state, damaged] {
                let (headers, bodies) = (inputs::noise(&mut t.random), inputs::noise(&mut t.random));
                let markers = inputs::markers(&mut t.random);
                t.gathered_copies(&state, shape.planes.len(), &Parts { headers, bodies }, markers);
            }
        });
    }

    fn read_gathered(&mut self, state: &mut Vec<u32>, parts: &Parts, markers: Markers, records: usize) -> Reading {
        let (length, reports) = (state.len(), 4 * inputs::blocks_in(state));
        self.pair.read_gathered(state, length, &parts.headers, &parts.bodies, markers, reports, 4 * records, records, 7)
    }

    /// Reads of the parts damaged, cut and swapped, and of noise, each on a copy of the state of so many blocks; some with a list of
    /// another length.
    fn gathered_copies(&mut self, state: &[u32], blocks: usize, parts: &Parts, markers: Markers) {
        for _ in 0..6 {
            let headers = match self.random.below(5) {
                0 => inputs::noise(&mut self.random),
                1 => inputs::cut(&mut self.random, &parts.headers),
                2 => parts.bodies[..parts.bodies.len().min(30)].to_vec(),
                _ => inputs::damaged_bytes(&mut self.random, &parts.headers),
            };
            let bodies = match self.random.below(5) {
                0 => inputs::noise(&mut self.random),
                1 => parts.headers.clone(),
                2 => parts.bodies[..parts.bodies.len().min(self.random.below(8) as usize)].to_vec(),
                3 => inputs::damaged_bytes(&mut self.random, &parts.bodies[..parts.bodies.len().min(9)]),
                _ => parts.bodies.clone(),
            };
            let records = if self.random.once_in(4) { self.random.below(8) as usize } else { 164 * 4 };
            let markers = if self.random.once_in(4) { inputs::markers(&mut self.random) } else { markers };
            let other = if self.random.once_in(8) { self.random.below(4) } else { 4 };
            let reports = self.near(4 * blocks, other == 0);
            let scratch = self.near(state.len(), other == 1);
            let work = self.near(4 * records, other == 2);
            let answer = self.near(7, other == 3);
            self.pair.read_gathered(&mut state.to_vec(), scratch, &headers, &bodies, markers, reports, work, records, answer);
        }
    }

    /// A packet with its markers in place: from its header moved to the front, with other headers and bodies behind, it tells and leaves
    /// what it does from the stream, and as many bytes are taken.
    fn gathered_and_streamed(&mut self, state: &mut Vec<u32>, packet: &[u8], parts: &Parts, markers: Markers, records: usize) {
        let mut gathered_state = state.clone();
        let mut longer = parts.clone();
        if self.random.once_in(2) {
            longer.headers.extend(inputs::more(&mut self.random));
            longer.bodies.extend(inputs::more(&mut self.random));
        }
        let gathered = self.read_gathered(&mut gathered_state, &longer, markers, records);
        let streamed = self.read(state, packet, markers, records);
        let text = || format!("{packet:02x?} and {longer:02x?} {markers:?} {records} records, state after it {state:?}");
        let taken = gathered.tells_as(&streamed, &text);
        same("states from the stream", &gathered_state, state, &text);
        let whole = (parts.headers.len(), if markers.sop { 6 } else { 0 });
        same("bytes of the packet", &(gathered.number, taken), &(0, whole), &text);
        self.pair.counts.as_from_stream += 1;
    }

    // ---- layers of several precincts

    /// Layers of none to 18 precincts, some of them in a row with single packets between; each packet is read back. Before each layer come
    /// calls with changed lists.
    pub fn layers(&mut self, calls: u64, side: u64) {
        self.until(calls, |t| {
            let precincts = if t.random.once_in(2) { t.random.between(0, 18) } else { t.random.between(1, 4) };
            let mut precincts: Vec<Precinct> = (0..precincts).map(|_| t.precinct(side)).collect();
            for _ in 0..t.random.between(1, 4) {
                for precinct in &mut precincts {
                    if t.random.once_in(8) {
                        let (number, rare) = (t.random.next() as u32, t.random.pick(&[0, 1, 2]));
                        t.next_packet(&mut precinct.writer, &mut precinct.reader, &mut precinct.follower, number, rare, |_, _, _, _, _| {});
                    }
                }
                t.whole_layer(&mut precincts, |t, call| {
                    for _ in 0..4 {
                        let damaged = inputs::damaged_call(&mut t.random, call);
                        t.pair.write_layer(&damaged);
                    }
                });
            }
        });
    }

    /// So many layers of small precincts, each first with every list of every length up to two more than is right.
    pub fn every_length(&mut self, layers: u64) {
        for _ in 0..layers {
            let mut precincts: Vec<Precinct> = (0..self.random.between(1, 4)).map(|_| self.precinct(2)).collect();
            self.whole_layer(&mut precincts, |t, call| {
                let mut each = |right: usize, change: fn(&mut LayerCall, usize)| {
                    for length in 0..right + 3 {
                        let mut call = call.clone();
                        change(&mut call, length);
                        t.pair.write_layer(&call);
                    }
                };
                each(call.states.len(), |call, n| call.states.resize(n, 0));
                each(call.states.len(), |call, n| {
                    call.states.resize(n, 0);
                    call.scratch = n;
                });
                each(call.scratch, |call, n| call.scratch = n);
                each(call.scratch, |call, n| {
                    call.numbers.clear();
                    call.scratch = n;
                });
                each(call.numbers.len().max(16), |call, n| call.numbers.resize(n, 1));
                each(call.layer.counts.len(), |call, n| call.layer.counts.resize(n, 0));
                each(call.layer.lengths.len(), |call, n| call.layer.lengths.resize(n, 0));
                each(call.layer.marks.len(), |call, n| call.layer.marks.resize(n, 0));
                each(call.bodies.len(), |call, n| call.bodies.resize(n, 0));
                each(call.output, |call, n| call.output = n);
                each(2, |call, n| call.answer = n);
            });
        }
    }

    /// Layers of states in range that no call need leave, with long segments and wide fields, and changed lists.
    pub fn layers_of_states(&mut self, calls: u64) {
        self.until(calls, |t| {
            let states: Vec<Vec<u32>> = (0..t.random.between(1, 5)).map(|_| t.any_writer()).collect();
            let bits = t.random.pick(&[4, 8, 8, 12, 31, 32]);
            let layers: Vec<Layer> = states.iter().map(|state| inputs::layer(&mut t.random, state, 2, bits)).collect();
            let markers = inputs::markers(&mut t.random);
            let mut call = LayerCall::new(&mut t.random, states.concat(), &layers, markers);
            call.output = call.bodies.len() + t.random.pick(&[20, 200, 2_000]);
            t.pair.write_layer(&call);
            let damaged = inputs::damaged_call(&mut t.random, &call);
            t.pair.write_layer(&damaged);
        });
    }

    fn any_writer(&mut self) -> Vec<u32> {
        let shape = inputs::shape(&mut self.random, 3);
        match self.random.once_in(4) {
            true => inputs::late_state(&mut self.random, 1, &shape, 100),
            false => inputs::state(&mut self.random, 1, &shape),
        }
    }

    /// A layer of 16 precincts of three bands of 64 × 64 blocks each, sparse, and one without passes.
    pub fn largest_layers(&mut self) {
        let shape = Shape { count: 3, bands: [[64, 64, 12]; 3], style: 0, planes: vec![11; 3 * 64 * 64] };
        let mut precincts: Vec<Precinct> = (0..16).map(|_| self.precinct_of(&shape, Follower::new(&shape, true))).collect();
        for rare in [20, 0] {
            self.layer_as_dense_as(&mut precincts, rare, |t, call| {
                t.pair.write_layer(&LayerCall { output: call.output - 1, ..call.clone() });
            });
        }
    }

    fn precinct(&mut self, side: u64) -> Precinct {
        let shape = inputs::shape(&mut self.random, side);
        let follower = self.follower(&shape);
        self.precinct_of(&shape, follower)
    }

    fn precinct_of(&mut self, shape: &Shape, follower: Follower) -> Precinct {
        Precinct { writer: self.start(true, shape), reader: self.start(false, shape), follower }
    }

    /// The next packet of each precinct in one call, and each read back; before that the call is shown to `first`. More than 16 are
    /// refused, and then the precincts stay.
    fn whole_layer(&mut self, precincts: &mut [Precinct], first: impl Fn(&mut Trials, &LayerCall)) {
        let rare = self.random.pick(&[0, 1, 1, 2, 3]);
        self.layer_as_dense_as(precincts, rare, first);
    }

    fn layer_as_dense_as(&mut self, precincts: &mut [Precinct], rare: u64, first: impl Fn(&mut Trials, &LayerCall)) {
        let markers = inputs::markers(&mut self.random);
        let layers: Vec<Layer> =
            precincts.iter().map(|p| inputs::layer_by_block(&mut self.random, &p.writer, |_| rare, 6, p.follower.matching)).collect();
        let states = precincts.iter().flat_map(|p| &p.writer).copied().collect();
        let mut call = LayerCall::new(&mut self.random, states, &layers, markers);
        for (p, layer) in precincts.iter().zip(&layers) {
            let (_, header, body) = self.pair.measure(&p.writer, p.writer.len(), layer, markers, 2);
            call.output += (header + body) as usize;
        }
        first(self, &call);
        call.output += self.random.pick(&[0, 0, 1, 9]);
        let (refusal, states, packets) = self.pair.write_layer(&call);
        assert_eq!(refusal, if precincts.len() > MOST_PRECINCTS { 14 } else { 0 }, "a layer that fits");
        let mut left = &states[..];
        for (i, packet) in packets.iter().enumerate() {
            let Precinct { writer, reader, follower } = &mut precincts[i];
            let (state, others) = left.split_at(writer.len());
            (*writer, left) = (state.to_vec(), others);
            let src = if self.random.once_in(2) { packets[i..].concat() } else { packet.clone() };
            let reading = self.read(reader, &src, markers, layers[i].lengths.len());
            let written = Written { layer: &layers[i], markers, number: call.numbers[i], packet, state: writer };
            follower.packet(&mut self.pair.counts, &written, &reading, reader);
        }
    }

    // ---- inputs that end too early

    /// Packets of so many small precincts in order, and before each is read its header cut at every byte, with and without an FF behind.
    pub fn every_cut(&mut self, precincts: u64) {
        for _ in 0..precincts {
            self.cut_packets(3, |t, reader, header, markers, records| {
                for end in 0..=header.len() {
                    t.read_cut(reader, &header[..end], markers, records);
                    t.read_cut(reader, &[&header[..end], &[0xff]].concat(), markers, records);
                }
            });
        }
    }

    /// So many reads of headers cut anywhere, of short inputs on states that have much to be told, of SOP alone or in part, and of nothing.
    pub fn cuts(&mut self, reads: u64) {
        let end = self.pair.counts.cut_inputs + reads;
        while self.pair.counts.cut_inputs < end {
            let side = self.random.pick(&[1, 1, 2, 3, 4]);
            self.cut_packets(side, |t, reader, header, markers, records| {
                for _ in 0..12 {
                    let src = inputs::cut(&mut t.random, header);
                    let records = if t.random.once_in(8) { t.random.below(1 + records as u64) as usize } else { records };
                    t.read_cut(reader, &src, markers, records);
                }
            });
            self.cut_trees();
        }
    }

    /// A small precinct's packets written and read in order, with cut reads of each before it is read whole.
    fn cut_packets(&mut self, side: u64, cut: impl Fn(&mut Trials, &[u32], &[u8], Markers, usize)) {
        let shape = inputs::shape(&mut self.random, side);
        let (mut writer, mut reader) = (self.start(true, &shape), self.start(false, &shape));
        let mut follower = Follower::new(&shape, true);
        for number in 0..self.random.between(1, 5) as u32 {
            let rare = self.random.pick(&[0, 1, 1, 2, 3]);
            self.next_packet(&mut writer, &mut reader, &mut follower, number, rare, &cut);
        }
    }

    /// Short inputs on a state whose trees have much to be told; SOP whole and in part, with nothing behind.
    fn cut_trees(&mut self) {
        let side = self.random.pick(&[1, 2, 3]);
        let shape = inputs::shape(&mut self.random, side);
        let state = inputs::far_state(&mut self.random, &shape);
        let markers = inputs::markers(&mut self.random);
        for _ in 0..4 {
            let src = inputs::short(&mut self.random);
            self.read_cut(&state, &src, markers, 200);
        }
        let sop = [0xff, 0x91, 0, 4, self.random.next() as u8, self.random.pick(&[0, 1, 0xff])];
        let end = self.random.pick(&[6, 6, 6, 0, 1, 2, 5]);
        self.read_cut(&state, &sop[..end], Markers { sop: true, ..markers }, 9);
    }

    // ---- every short input, every count

    /// Every input of at most `bytes` bytes, for small shapes with few styles and all markers, fresh and after a packet.
    pub fn short_inputs(&mut self, shapes: usize, bytes: u32) {
        self.each_short(shapes, bytes, |t, state, src, markers| {
            t.read(&mut state.to_vec(), src, markers, 200);
        });
    }

    /// The same from gathered headers, with SOP, a part of it, another marker or nothing in front of the bodies.
    pub fn short_headers(&mut self, shapes: usize, bytes: u32) {
        const FRONTS: [&[u8]; 5] =
            [&[], &[0xff, 0x91, 0, 4, 0, 0], &[0xff, 0x91, 0, 4, 0], &[0xff, 0x92, 0, 4, 0, 0, 7], &[0, 0x91, 0, 4, 0, 0]];
        self.each_short(shapes, bytes, |t, state, src, markers| {
            for front in FRONTS {
                let parts = Parts { headers: src.to_vec(), bodies: front.to_vec() };
                t.read_gathered(&mut state.to_vec(), &parts, markers, 200);
            }
        });
    }

    fn each_short(&mut self, shapes: usize, bytes: u32, read: impl Fn(&mut Trials, &[u32], &[u8], Markers)) {
        const SHAPES: [(u32, Bands); 7] = [
            (1, [[1, 1, 5], [0; 3], [0; 3]]),
            (1, [[2, 1, 3], [0; 3], [0; 3]]),
            (2, [[1, 1, 0], [1, 1, 998], [0; 3]]),
            (1, [[1, 2, 7], [0; 3], [0; 3]]),
            (3, [[0, 3, 7], [1, 1, 2], [0, 0, 0]]),
            (1, [[2, 2, 4], [0; 3], [0; 3]]),
            (1, [[0, 0, 0], [0; 3], [0; 3]]),
        ];
        for (count, bands) in &SHAPES[..shapes] {
            for style in [0, 1, 4] {
                let shape = Shape { count: *count, bands: *bands, style, planes: Vec::new() };
                let fresh = self.start(false, &shape);
                let mut later = fresh.clone();
                self.read(&mut later, &[0xe5, 0x28, 0x80], Markers::default(), 200);
                for state in [fresh, later] {
                    for markers in 0..4 {
                        let markers = Markers { sop: markers & 1 != 0, eph: markers & 2 != 0 };
                        for n in 0..=bytes {
                            for value in 0..1u32 << (8 * n) {
                                let src = &value.to_be_bytes()[4 - n as usize..];
                                read(self, &state, src, markers);
                            }
                        }
                    }
                }
            }
        }
    }

    /// One block with every count and lengths about each power of two, measured, and written where the body is small.
    pub fn counts_and_lengths(&mut self, step: usize) {
        for count in (0..=166).step_by(step) {
            for power in 0..=32u32 {
                for off in [-1i64, 0, 1] {
                    for marks in 0..4u32 {
                        let length = ((1i64 << power) + off).clamp(0, u32::MAX.into()) as u32;
                        self.count_and_length(count, length, marks);
                    }
                }
            }
        }
    }

    fn count_and_length(&mut self, count: u32, length: u32, marks: u32) {
        let mut state = self.start(true, &one_block(9, 9 - marks, 0));
        let mark = |pass| match marks {
            0 => 0,
            1 => 1,
            2 => u8::from(pass == 0),
            _ => u8::from((pass + 1) % 109 == 0),
        };
        let passes = 0..count;
        let mut layer = Layer { counts: vec![count], lengths: passes.clone().map(|_| 0).collect(), marks: passes.map(mark).collect() };
        if let Some(first) = layer.lengths.first_mut() {
            *first = length;
        }
        let words = state.len();
        self.pair.measure(&state, words, &layer, Markers::default(), 2);
        if length < 2000 {
            let body = vec![7; layer.body() as usize];
            self.pair.write(&mut state, words, &layer, &body, Markers { sop: true, eph: true }, 70000 + count, 8000, 1);
        }
    }

    /// One block read with increments about the widest length field, with too few records and enough: 9 comes before 13.
    pub fn wide_fields(&mut self) {
        let passes: [&[u8]; 4] = [&[0], &[1, 0], &[1, 1, 0, 0], &[1, 1, 1, 1, 0, 0, 1, 1, 0]];
        for style in [0, 0x01, 0x04] {
            let reader = self.start(false, &one_block(5, 5, style));
            for code in passes {
                for increment in 24..=34 {
                    let mut bits = vec![1, 1, 1];
                    bits.extend(code);
                    bits.extend(vec![1; increment]);
                    bits.push(0);
                    bits.extend([0, 1, 1].repeat(200));
                    for records in 0..=13 {
                        self.read(&mut reader.clone(), &model::pack(&bits), Markers::default(), records);
                    }
                }
            }
        }
    }

    /// Bodies longer than 2^32 bytes: several blocks of several segments, their headers whole, damaged and with too few records.
    pub fn long_bodies(&mut self, calls: u64) {
        self.until(calls, |t| {
            let shape = Shape { style: 0x04, ..inputs::shape(&mut t.random, 3) };
            let state = inputs::widest_state(t.start(false, &shape));
            let (header, segments) = inputs::long_header(&mut t.random, shape.planes.len());
            let other = t.random.once_in(4);
            let records = t.near(segments, other);
            t.read(&mut state.clone(), &header, Markers::default(), records);
            t.read_copies(&state, &header, Markers::default());
        });
    }

    // ---- large

    /// Three bands of 64 × 64 blocks, sparse and dense, some layers.
    pub fn largest(&mut self, layers: u32) {
        for rare in [1, 3, 50] {
            let mut shape = Shape { count: 3, bands: [[64, 64, 12]; 3], style: self.random.pick(&[0, 1, 4]), planes: Vec::new() };
            shape.planes = (0..3 * 64 * 64).map(|_| self.random.between(0, 12) as u32).collect();
            let (mut writer, mut reader) = (self.start(true, &shape), self.start(false, &shape));
            let mut follower = Follower::new(&shape, true);
            for number in 0..layers {
                let rare = if self.random.once_in(3) { 0 } else { rare };
                self.one_layer(&mut writer, &mut reader, &mut follower, number, |_| rare, true);
            }
        }
    }

    /// Shapes of one band up to 64 × 64, each, or one in `step`: started, and two packets written and read back, in half of them the first
    /// without passes.
    pub fn shapes(&mut self, step: usize) {
        for n in (0..64 * 64).step_by(step) {
            let bands = [[n % 64 + 1, n / 64 + 1, 20], [0; 3], [0; 3]];
            let blocks = bands[0][0] * bands[0][1];
            let planes = (0..blocks).map(|_| self.random.between(0, 20) as u32).collect();
            let shape = Shape { count: 1, bands, style: self.random.pick(&[0, 1, 4]), planes };
            let (mut writer, mut reader) = (self.start(true, &shape), self.start(false, &shape));
            let mut follower = Follower::new(&shape, true);
            let first = self.random.pick(&[0, 3]);
            for (number, rare) in [(0, first), (1, 3)] {
                self.one_layer(&mut writer, &mut reader, &mut follower, number, |_| rare, false);
            }
        }
    }

    /// All layers of a small precinct that the crate has, and some more.
    pub fn first_layers(&mut self) {
        let (mut writer, mut reader, mut follower) = self.small_precinct();
        for number in 0..1020 {
            let rare = |block| if number > 1010 { 2 } else { [3, 40, 400, 1000][block % 4] };
            self.one_layer(&mut writer, &mut reader, &mut follower, number, rare, true);
        }
    }

    /// All 65,535 layers of a small precinct, and then refusal 6; damaged copies in some layers.
    pub fn all_layers(&mut self) {
        let (mut writer, mut reader, mut follower) = self.small_precinct();
        for number in 0..LAYERS {
            let rare = |block| if number > LAYERS - 9 { 2 } else { [20, 2_000, 20_000, 60_000][block % 4] };
            let copies = inputs::LATE_LAYERS.contains(&number) || self.random.once_in(50);
            self.one_layer(&mut writer, &mut reader, &mut follower, number, rare, copies);
        }
        assert_eq!((writer[3], reader[3]), (LAYERS, LAYERS), "layers");
        let layer = inputs::layer(&mut self.random, &writer, 2, 6);
        assert!(self.written(&mut writer, &layer, Markers::default(), 0).is_none(), "a layer too many");
        self.read(&mut reader, &[0xe5], Markers::default(), 9);
    }

    /// Writer and reader of one band of four blocks, and perhaps others of as many.
    fn small_precinct(&mut self) -> (Vec<u32>, Vec<u32>, Follower) {
        let mut shape = inputs::shape(&mut self.random, 2);
        shape.bands[0] = [2, 2, 9];
        shape.planes = shape.bands[..shape.count as usize].iter().flat_map(|b| vec![b[2]; (b[0] * b[1]) as usize]).collect();
        (self.start(true, &shape), self.start(false, &shape), Follower::new(&shape, true))
    }

    /// The next packet of a writer, written as the round trip asks, and read back, with copies damaged or without.
    fn one_layer(
        &mut self,
        writer: &mut Vec<u32>,
        reader: &mut Vec<u32>,
        follower: &mut Follower,
        number: u32,
        rare: impl Fn(usize) -> u64,
        copies: bool,
    ) {
        let layer = inputs::layer_by_block(&mut self.random, writer, rare, 6, true);
        let markers = inputs::markers(&mut self.random);
        let packet = self.written(writer, &layer, markers, number).expect("accepted");
        if copies {
            self.read_copies(reader, &packet, markers);
        }
        let reading = self.read(reader, &packet, markers, layer.lengths.len());
        let written = Written { layer: &layer, markers, number: number.wrapping_mul(40503), packet: &packet, state: writer };
        follower.packet(&mut self.pair.counts, &written, &reading, reader);
    }

    /// First inclusions that cost a bit for each layer before, written, and read whole and cut.
    pub fn furthest(&mut self) {
        for number in inputs::LATE_LAYERS {
            let mut shape = one_block(9, 9, 0);
            shape.bands[0][0] = 3;
            shape.planes = vec![9, 7, 8];
            let (mut writer, mut reader) = (self.start(true, &shape), self.start(false, &shape));
            (writer[3], reader[3]) = (number, number);
            let layer = Layer { counts: vec![1, 0, 3], lengths: vec![1; 4], marks: vec![0; 4] };
            let Some(packet) = self.written(&mut writer, &layer, Markers::default(), 0) else {
                assert_eq!(number, LAYERS);
                return;
            };
            for _ in 0..20 {
                let cut = self.random.below(packet.len() as u64) as usize;
                self.read_cut(&reader, &packet[..cut], Markers::default(), 9);
            }
            self.read_copies(&reader, &packet, Markers::default());
            assert_eq!(self.read(&mut reader, &packet, Markers::default(), 9).number, 0);
        }
    }

    /// 990 to 998 zero planes written, and up to 999 read.
    pub fn deepest(&mut self) {
        for planes in 990..=998 {
            let mut shape = one_block(planes, 0, 0);
            shape.bands[0][0] = 3;
            shape.planes = vec![0, planes, planes / 2];
            let (mut writer, reader) = (self.start(true, &shape), self.start(false, &shape));
            let layer = Layer { counts: vec![1, 2, 3], lengths: vec![1; 6], marks: vec![0; 6] };
            let packet = self.written(&mut writer, &layer, Markers::default(), 0).expect("accepted");
            self.read(&mut reader.clone(), &packet, Markers::default(), 9);
            for cut in 0..packet.len() {
                self.read_cut(&reader, &packet[..cut], Markers::default(), 9);
            }
        }
    }
}
