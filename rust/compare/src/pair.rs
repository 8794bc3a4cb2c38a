//! Each call made twice, by the engine and by the scope's plain Rust (model.rs), on equal copies of every buffer; and where the call lies
//! in the crate's domain, by the crate too, but for packets written without passes. The crate doesn't count bits past the end. A read that
//! counts none is made again with more input. Gathered headers are read by the crate's branch for PPT. A layer of several precincts is
//! written again by single calls. Anything unequal ends the run with all arguments.
use crate::inputs;
use crate::model::{self, Lists, Record, MOST_PRECINCTS};
use crate::random::Random;
use std::fmt::Debug;
use tonkelvi::words;

pub type Bands = [[u32; 3]; 3];

type Start = fn(u32, &[u32], u8, &[u32], &mut [u32]) -> u32;

/// What the lists held before a call is written over by it; these are the words that no call is to keep by chance.
const USED: u32 = 0xdead_beef;

/// The layers that the crate has.
pub const CRATE_LAYERS: u32 = 999;

#[derive(Clone, Copy, PartialEq, Eq, Debug)]
pub enum Call {
    Length,
    StartWriter,
    StartReader,
    Measure,
    Write,
    WriteLayer,
    Read,
    ReadGathered,
    Describe,
}

pub const CALLS: [(Call, &str); 9] = [
    (Call::Length, "state_length"),
    (Call::StartWriter, "start_writer"),
    (Call::StartReader, "start_reader"),
    (Call::Measure, "measure"),
    (Call::Write, "write"),
    (Call::WriteLayer, "write_layer"),
    (Call::Read, "read"),
    (Call::ReadGathered, "read_gathered"),
    (Call::Describe, "describe"),
];

/// 0 and the refusals.
const NUMBERS: usize = 15;

/// How many calls gave which number, and how many of them the crate was asked too.
#[derive(Clone, Default)]
pub struct Counts {
    pub by_number: [[u64; NUMBERS]; CALLS.len()],
    pub with_crate: [[u64; NUMBERS]; CALLS.len()],
    /// Reads of a block with several segments behind another block.
    pub mixed_bodies: u64,
    /// Reads of a segment that starts 2^32 bytes or more into the body.
    pub long_bodies: u64,
    /// Packets measured, written and read in layers that the crate doesn't have.
    pub late_layers: u64,
    /// Packets written without passes.
    pub empty_packets: u64,
    /// Bytes of packets that the crate's writer gave too, from the same words; and carried on from the start.
    pub bytes_from_words: u64,
    pub bytes_with_crate: u64,
    /// States after packets with passes that the crate's writer, carried on from the start, has too; and those after packets without.
    pub states_with_crate: u64,
    pub states_after_empty: u64,
    /// Packets read in order from the start as the book has them, and those without passes.
    pub in_order: u64,
    pub in_order_empty: u64,
    /// The same by the crate's reader, carried on from the start.
    pub read_by_crate: u64,
    pub empty_by_crate: u64,
    /// Reads of inputs that were cut.
    pub cut_inputs: u64,
    /// Accepted reads that took bits past the end, and the most bits that one of them took there.
    pub past_end: u64,
    pub most_past_end: u64,
    /// Accepted reads that took none, made again with more input, and those of them whose EPH had had too few bytes.
    pub longer: u64,
    pub longer_eph: u64,
    /// Packets of layers written in one call, and those of them that the crate gave too, from the same words.
    pub in_layers: u64,
    pub in_layers_by_crate: u64,
    /// Layers refused at another precinct than the first.
    pub refused_later: u64,
    /// Packets read from gathered headers that told and left what they do from the stream.
    pub as_from_stream: u64,
    /// Accepted reads from gathered headers that took bits past their end.
    pub past_headers: u64,
}

impl Counts {
    pub fn total(&self) -> u64 {
        self.by_number.iter().flatten().sum()
    }

    pub fn number(&self, number: usize) -> u64 {
        self.by_number.iter().map(|row| row[number]).sum()
    }

    pub fn print(&self) {
        println!("{:>13}  {}", "", (0..NUMBERS).map(|n| format!("{n:>10}")).collect::<String>());
        for (call, name) in CALLS {
            for (counts, label) in [(&self.by_number, name.to_string()), (&self.with_crate, "by the crate".to_string())] {
                let row = &counts[call as usize];
                if row.iter().any(|n| *n > 0) {
                    println!(
                        "{label:>13}  {}",
                        row.iter().map(|n| if *n == 0 { format!("{:>10}", "-") } else { format!("{n:>10}") }).collect::<String>()
                    );
                }
            }
        }
        let with_crate: u64 = self.with_crate.iter().flatten().sum();
        println!("{} calls, {} of them compared with the crate too", self.total(), with_crate);
        println!("{} reads of several segments behind another block, {} of starts from 2^32 on", self.mixed_bodies, self.long_bodies);
        println!("{} accepted in layers from 999 on", self.late_layers);
        println!("{} packets written without passes", self.empty_packets);
        println!("{} read in order from the start as the book has them, {} of them without passes", self.in_order, self.in_order_empty);
        println!("{} read in order by the crate's reader too, {} of them without passes", self.read_by_crate, self.empty_by_crate);
        println!("{} bytes as the crate writes them from the same words", self.bytes_from_words);
        println!("{} bytes as the crate's writer has them that wrote all packets before", self.bytes_with_crate);
        println!(
            "{} states after packets with passes that this writer has too, {} of them where packets without passes came before",
            self.states_with_crate, self.states_after_empty
        );
        println!("{} reads of cut inputs", self.cut_inputs);
        println!("{} accepted reads took bits past the end, at most {}", self.past_end, self.most_past_end);
        println!("{} that took none told the same with more input, {} of them but for EPH", self.longer, self.longer_eph);
        println!(
            "{} packets of layers written in one call, {} of them by the crate too; {} layers refused behind the first precinct",
            self.in_layers, self.in_layers_by_crate, self.refused_later
        );
        let row = |counts: &[[u64; NUMBERS]]| counts[Call::ReadGathered as usize].iter().sum::<u64>();
        println!(
            "{} reads from gathered headers, {} of them by the crate's branch for PPT too; {} told what the stream does, {} took bits past \
             the end",
            row(&self.by_number),
            row(&self.with_crate),
            self.as_from_stream,
            self.past_headers
        );
    }

    /// Counts what an accepted read's records show of the starts.
    fn records(&mut self, records: &[Record]) {
        let block = |record: &Record| record.numbers[0];
        let mixed = |three: &[Record]| block(&three[0]) != block(&three[1]) && block(&three[1]) == block(&three[2]);
        self.mixed_bodies += u64::from(records.windows(3).any(mixed));
        self.long_bodies += u64::from(records.last().is_some_and(|last| last.start > u64::from(u32::MAX)));
    }
}

pub fn same<T: PartialEq + Debug + ?Sized>(what: &str, engine: &T, other: &T, call: &dyn Fn() -> String) {
    if engine != other {
        panic!("{what} differ\n engine: {engine:?}\n other:  {other:?}\n call:   {}", call());
    }
}

/// What a layer brings.
#[derive(Clone, Default, Debug)]
pub struct Layer {
    pub counts: Vec<u32>,
    pub lengths: Vec<u32>,
    pub marks: Vec<u8>,
}

impl Layer {
    pub fn body(&self) -> u64 {
        self.lengths.iter().map(|l| u64::from(*l)).sum()
    }

    pub fn without_passes(&self) -> bool {
        self.counts.iter().all(|count| *count == 0)
    }

    /// What several precincts bring, behind one another.
    pub fn joined<'a>(layers: impl Iterator<Item = &'a Layer>) -> Layer {
        let mut joined = Layer::default();
        for layer in layers {
            joined.counts.extend(&layer.counts);
            joined.lengths.extend(&layer.lengths);
            joined.marks.extend(&layer.marks);
        }
        joined
    }
}

/// The lists of a read.
#[derive(Clone, PartialEq, Debug)]
struct Lent {
    state: Vec<u32>,
    scratch: Vec<u32>,
    reports: Vec<u32>,
    work: Vec<u32>,
    records: Vec<words::Segment>,
    answer: Vec<u64>,
}

impl Lent {
    fn read_by_engine(&mut self, src: &[u8], markers: Markers) -> u32 {
        let Lent { state, scratch, reports, work, records, answer } = self;
        words::read(state, scratch, src, markers.sop, markers.eph, reports, work, records, answer)
    }

    fn read_gathered_by_engine(&mut self, headers: &[u8], src: &[u8], markers: Markers) -> u32 {
        let Lent { state, scratch, reports, work, records, answer } = self;
        words::read_gathered(state, scratch, headers, src, markers.sop, markers.eph, reports, work, records, answer)
    }

    fn records(&self) -> Vec<Record> {
        self.records.iter().map(record).collect()
    }

    /// Each list is the model's, and so are the records.
    fn same_as(&self, expected: &Lent, records: &[Record], text: &dyn Fn() -> String) {
        same("states", &self.state, &expected.state, text);
        let buffers = |lent: &Lent| (lent.scratch.clone(), lent.reports.clone(), lent.work.clone());
        same("buffers", &buffers(self), &buffers(expected), text);
        same("records", &self.records()[..], records, text);
        same("answers", &self.answer, &expected.answer, text);
    }
}

/// What a read gave: its number and answer and, where it was accepted, the reports and as many records as the answer says.
pub struct Reading {
    pub number: u32,
    pub answer: Vec<u64>,
    pub reports: Vec<u32>,
    pub records: Vec<Record>,
}

impl Reading {
    /// From gathered headers it tells what the read of the stream does, and as many bytes are taken: gives those of headers and bodies.
    pub fn tells_as(&self, streamed: &Reading, text: &dyn Fn() -> String) -> (usize, usize) {
        same("numbers from the stream", &self.number, &streamed.number, text);
        same("reports from the stream", &self.reports, &streamed.reports, text);
        same("records from the stream", &self.records, &streamed.records, text);
        let ([present, header, sop, told @ ..], [from_stream, taken, others @ ..]) = (&self.answer[..], &streamed.answer[..]) else {
            panic!("answers of seven and six words");
        };
        same("answers from the stream", &(present, header + sop, told), &(from_stream, *taken, others), text);
        (*header as usize, *sop as usize)
    }
}

const LONGEST_BODIES: u64 = 1 << 22;

/// What a call for a layer of several precincts is given, behind one another, and the lengths of the other lists lent to it.
#[derive(Clone, Debug)]
pub struct LayerCall {
    pub states: Vec<u32>,
    pub scratch: usize,
    /// The packet numbers, one a precinct.
    pub numbers: Vec<u32>,
    pub layer: Layer,
    pub bodies: Vec<u8>,
    pub markers: Markers,
    pub output: usize,
    pub answer: usize,
}

impl LayerCall {
    /// These states and contributions, with bodies and numbers of any content; no output, and the other lists in order, but that bodies
    /// of more than `LONGEST_BODIES` bytes are not made.
    pub fn new(random: &mut Random, states: Vec<u32>, layers: &[Layer], markers: Markers) -> LayerCall {
        let layer = Layer::joined(layers.iter());
        let bodies = random.bytes(if layer.body() > LONGEST_BODIES { 9 } else { layer.body() as usize });
        let numbers = layers.iter().map(|_| random.next() as u32).collect();
        LayerCall { scratch: states.len(), states, numbers, layer, bodies, markers, output: 0, answer: 2 }
    }

    /// Each precinct's part of the lists.
    pub fn parts(&self) -> Vec<Lists<'_>> {
        let Layer { counts, lengths, marks } = &self.layer;
        model::parts(Lists { states: &self.states, counts, lengths, marks, bodies: &self.bodies }, self.numbers.len())
    }
}

type WriteLayer = fn(&mut [u32], &mut [u32], &[u32], &[u32], &[u32], &[u8], &[u8], bool, bool, &mut [u8], &mut [u64]) -> u32;

/// The lists that a call for a layer may change.
#[derive(Clone, PartialEq, Debug)]
struct LentLayer {
    states: Vec<u32>,
    scratch: Vec<u32>,
    output: Vec<u8>,
    answer: Vec<u64>,
}

impl LentLayer {
    fn new(call: &LayerCall) -> LentLayer {
        LentLayer {
            states: call.states.clone(),
            scratch: vec![USED; call.scratch],
            output: vec![0xa5; call.output],
            answer: vec![u64::MAX; call.answer],
        }
    }

    fn written(&mut self, by: WriteLayer, call: &LayerCall) -> u32 {
        let LayerCall { numbers, layer: Layer { counts, lengths, marks }, bodies, markers, .. } = call;
        let LentLayer { states, scratch, output, answer } = self;
        by(states, scratch, numbers, counts, lengths, marks, bodies, markers.sop, markers.eph, output, answer)
    }
}

#[derive(Clone, Copy, Default, Debug)]
pub struct Markers {
    pub sop: bool,
    pub eph: bool,
}

pub struct Pair {
    pub counts: Counts,
    random: Random,
}

impl Pair {
    pub fn new(seed: u64) -> Pair {
        Pair { counts: Counts::default(), random: Random::new(seed) }
    }

    fn count(&mut self, call: Call, number: u32, with_crate: bool) {
        self.counts.by_number[call as usize][number as usize] += 1;
        self.counts.with_crate[call as usize][number as usize] += u64::from(with_crate);
    }

    /// Counts a call about the next packet of a state.
    fn count_packet(&mut self, call: Call, state: &[u32], number: u32, with_crate: bool) {
        self.count(call, number, with_crate);
        self.counts.late_layers += u64::from(number == 0 && state[3] >= CRATE_LAYERS);
    }

    pub fn state_length(&mut self, count: u32, bands: &[u32]) -> usize {
        let engine = words::state_length(count, bands);
        same("lengths", &engine, &model::state_length(count, bands), &|| format!("{count} {bands:?}"));
        self.count(Call::Length, 0, false);
        engine
    }

    /// A start with a state of so many words. Gives the state where it was filled.
    pub fn start(&mut self, writer: bool, count: u32, bands: &[u32], style: u8, planes: &[u32], length: usize) -> Option<Vec<u32>> {
        let mut state = vec![USED; length];
        let mut expected = state.clone();
        let (call, engine, model): (_, Start, Start) = match writer {
            true => (Call::StartWriter, words::start_writer, model::start_writer),
            false => (Call::StartReader, words::start_reader, model::start_reader),
        };
        let number = engine(count, bands, style, planes, &mut state);
        let should = model(count, bands, style, planes, &mut expected);
        let text = || format!("start writer {writer} {count} {bands:?} style {style} planes {planes:?} length {length}");
        same("numbers", &number, &should, &text);
        same("states", &state, &expected, &text);
        self.count(call, number, false);
        (number == 0).then_some(state)
    }

    /// A measure with a scratch and an answer of so many words. Gives number, header and body.
    pub fn measure(&mut self, state: &[u32], scratch: usize, layer: &Layer, markers: Markers, answer: usize) -> (u32, u64, u64) {
        let before = state.to_vec();
        let mut buffers = (vec![USED; scratch], vec![u64::MAX; answer]);
        let mut expected = buffers.clone();
        let Layer { counts, lengths, marks } = layer;
        let number = words::measure(state, &mut buffers.0, counts, lengths, marks, markers.sop, markers.eph, &mut buffers.1);
        let should = model::measure(state, &mut expected.0, counts, lengths, marks, markers.sop, markers.eph, &mut expected.1);
        let text = || format!("measure {before:?} scratch {scratch} {layer:?} {markers:?} answer {answer}");
        same("numbers", &number, &should, &text);
        same("buffers", &buffers, &expected, &text);
        let with_crate = number == 0 && crate_measures(state, layer, markers, &buffers, &text);
        self.count_packet(Call::Measure, state, number, with_crate);
        let word = |i: usize| if number == 0 { buffers.1[i] } else { 0 };
        (number, word(0), word(1))
    }

    /// A write on the state. Gives the number, and the packet where it was written.
    #[allow(clippy::too_many_arguments)]
    pub fn write(
        &mut self,
        state: &mut Vec<u32>,
        scratch: usize,
        layer: &Layer,
        body: &[u8],
        markers: Markers,
        packet: u32,
        output: usize,
        answer: usize,
    ) -> (u32, Vec<u8>) {
        let before = state.clone();
        let mut buffers = (vec![USED; scratch], vec![0xa5; output], vec![u64::MAX; answer]);
        let mut expected = buffers.clone();
        let mut expected_state = state.clone();
        let Layer { counts, lengths, marks } = layer;
        let number = words::write(
            state,
            &mut buffers.0,
            counts,
            lengths,
            marks,
            body,
            markers.sop,
            markers.eph,
            packet,
            &mut buffers.1,
            &mut buffers.2,
        );
        let should = model::write(
            &mut expected_state,
            &mut expected.0,
            counts,
            lengths,
            marks,
            body,
            markers.sop,
            markers.eph,
            packet,
            &mut expected.1,
            &mut expected.2,
        );
        let text = || {
            format!(
                "write {before:?} scratch {scratch} {layer:?} {} bytes {markers:?} {packet} output {output} answer {answer}",
                body.len()
            )
        };
        same("numbers", &number, &should, &text);
        same("states", state, &expected_state, &text);
        same("buffers", &buffers, &expected, &text);
        let with_crate =
            (number == 0 || number == 11) && crate_writes(&before, layer, body, markers, packet, (number, state, &buffers.1), &text);
        self.count_packet(Call::Write, &before, number, with_crate);
        self.left(number, state, &text);
        let bytes = if number == 0 { buffers.2[0] as usize } else { 0 };
        self.counts.empty_packets += u64::from(number == 0 && layer.without_passes());
        self.counts.bytes_from_words += if with_crate { bytes as u64 } else { 0 };
        buffers.1.truncate(bytes);
        (number, buffers.1)
    }

    /// A layer of several precincts. Gives the number, the states after it, and the packets where they were written.
    pub fn write_layer(&mut self, call: &LayerCall) -> (u32, Vec<u32>, Vec<Vec<u8>>) {
        let mut left = LentLayer::new(call);
        let mut expected = left.clone();
        let number = left.written(words::write_layer, call);
        let should = expected.written(model::write_layer, call);
        let text = || format!("write_layer {call:?}");
        same("numbers", &number, &should, &text);
        same("answers", &left.answer, &expected.answer, &text);
        same("states", &left.states, &expected.states, &text);
        same("scratch lists", &left.scratch, &expected.scratch, &text);
        same("outputs", &left.output, &expected.output, &text);
        let place = if call.answer == 2 { left.answer[0] } else { 0 };
        self.counts.refused_later += u64::from(place > 0);
        let by_crate = self.counts.with_crate[Call::Write as usize][0];
        let packets = match call.answer == 2 && (1..=MOST_PRECINCTS).contains(&call.numbers.len()) && call.scratch == call.states.len() {
            true => self.write_singly(call, (number, place as usize), &left, &text),
            false => Vec::new(),
        };
        let by_crate = self.counts.with_crate[Call::Write as usize][0] - by_crate;
        self.counts.in_layers += packets.len() as u64;
        self.counts.in_layers_by_crate += if number == 0 { by_crate } else { 0 };
        self.count(Call::WriteLayer, number, number == 0 && by_crate > 0);
        (number, left.states, packets)
    }

    /// The same by single calls, one after another: they are accepted up to the place that the layer was refused at, which gets its number;
    /// or all of them, and leave what the layer did. Gives the packets of an accepted layer.
    fn write_singly(&mut self, call: &LayerCall, told: (u32, usize), left: &LentLayer, text: &dyn Fn() -> String) -> Vec<Vec<u8>> {
        let (mut states, mut packets, mut bytes) = (Vec::new(), Vec::new(), 0);
        for (place, (part, packet_number)) in call.parts().into_iter().zip(&call.numbers).enumerate() {
            let layer = Layer { counts: part.counts.to_vec(), lengths: part.lengths.to_vec(), marks: part.marks.to_vec() };
            let (mut state, words) = (part.states.to_vec(), part.states.len());
            let room = call.output - bytes;
            let (number, packet) = self.write(&mut state, words, &layer, part.bodies, call.markers, *packet_number, room, 1);
            if number != 0 {
                same("numbers and places of single calls", &told, &(number, place), text);
                return Vec::new();
            }
            bytes += packet.len();
            states.extend(state);
            packets.push(packet);
        }
        same("numbers and places with accepted single calls", &told, &(0, 0), text);
        same("states of single calls", &left.states, &states, text);
        same("scratch lists of single calls", &left.scratch, &states, text);
        same("packets of single calls", &left.output[..bytes], &packets.concat()[..], text);
        same("bytes of single calls", &left.answer[1], &(bytes as u64), text);
        packets
    }

    /// A read on the state, with a work list of so many words for so many records.
    #[allow(clippy::too_many_arguments)]
    pub fn read(
        &mut self,
        state: &mut Vec<u32>,
        scratch: usize,
        src: &[u8],
        markers: Markers,
        reports: usize,
        work: usize,
        records: usize,
        answer: usize,
    ) -> Reading {
        let before = self.lent(std::mem::take(state), scratch, reports, work, records, answer);
        let (mut left, mut expected, mut expected_records) = (before.clone(), before.clone(), before.records());
        let number = left.read_by_engine(src, markers);
        let should = model::read(
            &mut expected.state,
            &mut expected.scratch,
            src,
            markers.sop,
            markers.eph,
            &mut expected.reports,
            &mut expected.work,
            &mut expected_records,
            &mut expected.answer,
        );
        let text = || {
            format!(
                "read {:?} scratch {scratch} {src:02x?} {markers:?} \
                 reports {reports} work {work} records {records} answer {answer}",
                before.state
            )
        };
        let mut records = left.records();
        same("numbers", &number, &should, &text);
        left.same_as(&expected, &expected_records, &text);
        let told = (number, &left.state[..], &left.reports[..], &records[..], &left.answer[..]);
        let with_crate = matches!(number, 0 | 9 | 12) && crate_reads(&before.state, src, markers, told, &text);
        self.count_packet(Call::Read, &before.state, number, with_crate);
        self.left(number, &left.state, &text);
        if number == 0 {
            self.past_end(&before, src, markers, &left, &text);
        }
        records.truncate(if number == 0 { left.answer[2] as usize } else { 0 });
        self.counts.records(&records);
        *state = left.state;
        Reading { number, answer: left.answer, reports: left.reports, records }
    }

    /// A read from gathered headers on the state, with lists as in `read`.
    #[allow(clippy::too_many_arguments)]
    pub fn read_gathered(
        &mut self,
        state: &mut Vec<u32>,
        scratch: usize,
        headers: &[u8],
        src: &[u8],
        markers: Markers,
        reports: usize,
        work: usize,
        records: usize,
        answer: usize,
    ) -> Reading {
        let before = self.lent(std::mem::take(state), scratch, reports, work, records, answer);
        let (mut left, mut expected, mut expected_records) = (before.clone(), before.clone(), before.records());
        let number = left.read_gathered_by_engine(headers, src, markers);
        let should = model::read_gathered(
            &mut expected.state,
            &mut expected.scratch,
            headers,
            src,
            markers.sop,
            markers.eph,
            &mut expected.reports,
            &mut expected.work,
            &mut expected_records,
            &mut expected.answer,
        );
        let text = || {
            format!(
                "read_gathered {:?} scratch {scratch} {headers:02x?} {src:02x?} {markers:?} \
                 reports {reports} work {work} records {records} answer {answer}",
                before.state
            )
        };
        let mut records = left.records();
        same("numbers", &number, &should, &text);
        left.same_as(&expected, &expected_records, &text);
        let told = (number, &left.state[..], &left.reports[..], &records[..], &left.answer[..]);
        let with_crate = matches!(number, 0 | 9 | 12) && crate_reads_gathered(&before.state, headers, src, markers, told, &text);
        self.count_packet(Call::ReadGathered, &before.state, number, with_crate);
        self.left(number, &left.state, &text);
        self.counts.past_headers += u64::from(number == 0 && left.answer[6] > 0);
        records.truncate(if number == 0 { left.answer[3] as usize } else { 0 });
        *state = left.state;
        Reading { number, answer: left.answer, reports: left.reports, records }
    }

    /// The state, and lists of so many elements of any content.
    fn lent(&mut self, state: Vec<u32>, scratch: usize, reports: usize, work: usize, records: usize, answer: usize) -> Lent {
        Lent {
            state,
            scratch: vec![USED; scratch],
            reports: vec![USED; reports],
            work: vec![USED; work],
            records: self.used_records(records),
            answer: vec![u64::MAX; answer],
        }
    }

    /// Counts an accepted read that took bits past the end. One that took none, whose SOP had its bytes, is made again with more input: it
    /// tells and leaves the same, but that EPH is looked for again where it had too few bytes.
    fn past_end(&mut self, before: &Lent, src: &[u8], markers: Markers, left: &Lent, text: &dyn Fn() -> String) {
        let (taken, sop, eph, past) = (left.answer[1], left.answer[3], left.answer[4], left.answer[5]);
        self.counts.past_end += u64::from(past > 0);
        self.counts.most_past_end = self.counts.most_past_end.max(past);
        if past > 0 || sop == 1 {
            return;
        }
        let mut longer_src = src.to_vec();
        longer_src.extend(inputs::more(&mut self.random));
        let (mut longer, mut expected) = (before.clone(), left.clone());
        let number = longer.read_by_engine(&longer_src, markers);
        if eph == 1 {
            let (mark, skipped) = match longer_src[taken as usize..] {
                [0xff, 0x92, ..] => (0, 2),
                [_, _, ..] => (2, 0),
                _ => (1, 0),
            };
            (expected.answer[1], expected.answer[4]) = (taken + skipped, mark);
            self.counts.longer_eph += 1;
        }
        same("numbers with more input", &number, &0, text);
        same("lists with more input", &longer, &expected, text);
        self.counts.longer += 1;
    }

    /// So many structs that each hold anything.
    fn used_records(&mut self, records: usize) -> Vec<words::Segment> {
        let any = |random: &mut Random| {
            let (low, high, start) = (random.next(), random.next(), random.next());
            words::Segment { block: low as u32, opens: (low >> 32) as u32, passes: high as u32, bytes: (high >> 32) as u32, start }
        };
        (0..records).map(|_| any(&mut self.random)).collect()
    }

    /// The state that an accepted call leaves is in range.
    fn left(&mut self, number: u32, state: &[u32], text: &dyn Fn() -> String) {
        if number == 0 {
            same("numbers of the state left", &self.describe(state, 3).0, &0, text);
        }
    }

    /// What a state is, with an answer of so many words.
    pub fn describe(&mut self, state: &[u32], answer: usize) -> (u32, Vec<u64>) {
        let mut told = vec![u64::MAX; answer];
        let mut expected = told.clone();
        let number = words::describe(state, &mut told);
        let should = model::describe(state, &mut expected);
        let text = || format!("describe {state:?} answer {answer}");
        same("numbers", &number, &should, &text);
        same("answers", &told, &expected, &text);
        self.count(Call::Describe, number, false);
        (number, told)
    }
}

fn record(segment: &words::Segment) -> Record {
    let words::Segment { block, opens, passes, bytes, start } = *segment;
    Record { numbers: [block, opens, passes, bytes], start }
}

// ---- the crate

/// The crate resets the trees at layer 0: only a state that a start filled counts there.
#[cfg(openjp2)]
fn in_domain(state: &[u32]) -> bool {
    if state[3] != 0 {
        return state[3] < CRATE_LAYERS && come_back(state);
    }
    let mut bands = Bands::default();
    let used = model::bands_of(state);
    bands[..used.len()].copy_from_slice(&used);
    let mut started = vec![0; state.len()];
    let number = match state[0] {
        1 => {
            let (places, _, _) = model::layout(&used);
            let leaf = |p: &model::Place, i: usize| state[p.zero_planes + 3 * i];
            let planes: Vec<u32> =
                places.iter().zip(&used).flat_map(|(p, band)| (0..p.blocks).map(move |i| band[2].wrapping_sub(leaf(p, i)))).collect();
            model::start_writer(state[1], bands.as_flattened(), state[2] as u8, &planes, &mut started)
        }
        _ => model::start_reader(state[1], bands.as_flattened(), state[2] as u8, &[], &mut started),
    };
    number == 0 && started == state
}

#[cfg(openjp2)]
use crate::openjp2::t2::precinct::{come_back, Failed, Precinct, Told};

/// The crate's header is as long, and leaves the same state. No body is made.
#[cfg(openjp2)]
fn crate_measures(state: &[u32], layer: &Layer, markers: Markers, engine: &(Vec<u32>, Vec<u64>), text: &dyn Fn() -> String) -> bool {
    if layer.without_passes() || !in_domain(state) {
        return false;
    }
    let mut precinct = Precinct::from_words(state, true);
    precinct.give(&layer.counts, &layer.lengths, &layer.marks, None);
    let mut output = vec![0; engine.1[0] as usize + 8];
    let bytes = precinct.write(markers.sop, markers.eph, 0, &mut output);
    same("bytes of the crate's header", &Some(engine.1[0] as usize), &bytes, text);
    same("states of the crate", &engine.0, &precinct.words(), text);
    true
}

#[cfg(openjp2)]
fn crate_writes(
    before: &[u32],
    layer: &Layer,
    body: &[u8],
    markers: Markers,
    packet: u32,
    engine: (u32, &Vec<u32>, &Vec<u8>),
    text: &dyn Fn() -> String,
) -> bool {
    if layer.without_passes() || !in_domain(before) {
        return false;
    }
    let (number, state, bytes) = engine;
    let mut precinct = Precinct::from_words(before, packet % 2 == 0);
    precinct.give(&layer.counts, &layer.lengths, &layer.marks, Some(body));
    let mut output = vec![0xa5; bytes.len()];
    let written = precinct.write(markers.sop, markers.eph, packet, &mut output);
    same("successes of the crate's write", &(number == 0), &written.is_some(), text);
    if number == 0 {
        same("bytes of the crate", bytes, &output, text);
        same("states of the crate", state, &precinct.words(), text);
    }
    true
}

#[cfg(openjp2)]
#[allow(clippy::type_complexity)]
fn crate_reads(
    before: &[u32],
    src: &[u8],
    markers: Markers,
    engine: (u32, &[u32], &[u32], &[Record], &[u64]),
    text: &dyn Fn() -> String,
) -> bool {
    if !in_domain(before) {
        return false;
    }
    let mut precinct = Precinct::from_words(before, false);
    let told = precinct.read(markers.sop, markers.eph, src);
    let answer = told.as_ref().map_or(Vec::new(), |told| told.answer.to_vec());
    same_as_crate(engine, &answer, told, &precinct, text);
    true
}

/// The number, or the lists and the first words of the answer, are the crate's.
#[cfg(openjp2)]
#[allow(clippy::type_complexity)]
fn same_as_crate(
    (number, state, reports, records, answer): (u32, &[u32], &[u32], &[Record], &[u64]),
    first_words: &[u64],
    told: Result<Told, Failed>,
    precinct: &Precinct,
    text: &dyn Fn() -> String,
) {
    match told {
        Err(Failed::Width) => same("numbers of the crate", &number, &9, text),
        Err(Failed::HeaderEnd) => same("numbers of the crate", &number, &12, text),
        Ok(told) => {
            same("numbers of the crate", &number, &0, text);
            same("answers of the crate", &answer[..first_words.len()], first_words, text);
            same("reports of the crate", &reports, &&told.reports[..], text);
            let theirs = told.records();
            same("records of the crate", &&records[..theirs.len()], &&theirs[..], text);
            same("states of the crate", &state, &&precinct.words()[..], text);
        }
    }
}

/// The same by the crate's branch for PPT.
#[cfg(openjp2)]
#[allow(clippy::type_complexity)]
fn crate_reads_gathered(
    before: &[u32],
    headers: &[u8],
    src: &[u8],
    markers: Markers,
    engine: (u32, &[u32], &[u32], &[Record], &[u64]),
    text: &dyn Fn() -> String,
) -> bool {
    if !in_domain(before) {
        return false;
    }
    let mut precinct = Precinct::from_words(before, false);
    let told = precinct.read_gathered(markers.sop, markers.eph, headers, src);
    let (answer, told) = match told {
        Err(failed) => (Vec::new(), Err(failed)),
        Ok((told, header)) => {
            let [present, taken, segments, sop, eph] = told.answer;
            (vec![present, header as u64, taken, segments, sop, eph], Ok(told))
        }
    };
    same_as_crate(engine, &answer, told, &precinct, text);
    true
}

#[cfg(not(openjp2))]
fn crate_measures(_: &[u32], _: &Layer, _: Markers, _: &(Vec<u32>, Vec<u64>), _: &dyn Fn() -> String) -> bool {
    false
}

#[cfg(not(openjp2))]
fn crate_writes(_: &[u32], _: &Layer, _: &[u8], _: Markers, _: u32, _: (u32, &Vec<u32>, &Vec<u8>), _: &dyn Fn() -> String) -> bool {
    false
}

#[cfg(not(openjp2))]
#[allow(clippy::type_complexity)]
fn crate_reads(_: &[u32], _: &[u8], _: Markers, _: (u32, &[u32], &[u32], &[Record], &[u64]), _: &dyn Fn() -> String) -> bool {
    false
}

#[cfg(not(openjp2))]
#[allow(clippy::type_complexity)]
fn crate_reads_gathered(
    _: &[u32],
    _: &[u8],
    _: &[u8],
    _: Markers,
    _: (u32, &[u32], &[u32], &[Record], &[u64]),
    _: &dyn Fn() -> String,
) -> bool {
    false
}
