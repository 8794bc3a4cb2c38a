//! All the layers that T.800 A.6.1 allows.
use tonkelvi::words::{self, Segment as Record};
use tonkelvi::{Band, Block, Contribution, Mark, Markers, Measured, Reader, Refusal, Segment, Writer};

const LAYERS: u32 = 65_535;
const BANDS: [Band; 1] = [Band { across: 2, down: 2, planes: 5 }];
const PLANES: [u32; 4] = [5, 3, 4, 1];
/// The layers in which the blocks are first included.
const FIRST: [u32; 4] = [3, 999, 1000, LAYERS - 1];

/// The passes of each block in a layer.
fn counts(layer: u32) -> [u32; 4] {
    let often = if layer % 7 == FIRST[0] { 1 + layer % 5 } else { 0 };
    let late = |first: u32| u32::from(layer == first || (layer > first && layer % 1000 == 17));
    [often, late(FIRST[1]), 2 * late(FIRST[2]), 3 * late(FIRST[3])]
}

/// What a layer brings, and what a read of its packet is to tell.
#[derive(Default)]
struct Layer {
    counts: [u32; 4],
    lengths: Vec<u32>,
    marks: Vec<u8>,
    reports: Vec<Block>,
    segments: Vec<Segment>,
}

impl Layer {
    /// Segments end behind every 109th pass of a block, as without style bits.
    fn new(number: u32, so_far: &[u32; 4]) -> Layer {
        let mut layer = Layer { counts: counts(number), ..Layer::default() };
        for (block, (&passes, &before)) in layer.counts.iter().zip(so_far).enumerate() {
            let (planes, zero_planes) = (PLANES[block], BANDS[0].planes - PLANES[block]);
            layer.reports.push(match (passes, before) {
                (0, _) => Block::Absent,
                (_, 0) => Block::First { zero_planes, planes, passes },
                _ => Block::Again { passes },
            });
            for pass in before..before + passes {
                let bytes = 1 + (number + pass) % 90;
                if pass == before || pass % 109 == 0 {
                    let start = layer.lengths.iter().map(|length| u64::from(*length)).sum();
                    layer.segments.push(Segment { block, opens: pass % 109 == 0, passes: 0, bytes: 0, start });
                }
                let segment = layer.segments.last_mut().unwrap();
                (segment.passes, segment.bytes) = (segment.passes + 1, segment.bytes + bytes);
                layer.lengths.push(bytes);
                layer.marks.push(u8::from((pass + 1) % 109 == 0));
            }
        }
        layer
    }

    fn contribution(&self) -> Contribution<'_> {
        Contribution { counts: &self.counts, lengths: &self.lengths, marks: &self.marks }
    }

    fn body(&self) -> Vec<u8> {
        (0..self.lengths.iter().sum()).map(|at: u32| at as u8).collect()
    }
}

#[test]
fn all_of_them_there_and_back() {
    let mut writer = Writer::new(&BANDS, 0, &PLANES).unwrap();
    let mut reader = Reader::new(&BANDS, 0).unwrap();
    let mut so_far = [0; 4];
    for number in 0..LAYERS {
        let (layer, markers) = (Layer::new(number, &so_far), if number % 3 == 0 { Markers::BOTH } else { Markers::NONE });
        let body = layer.body();
        let packet = writer.write(layer.contribution(), &body, markers, number).unwrap();
        let read = reader.read(&packet, markers).unwrap();
        let present = layer.counts != [0; 4];
        assert_eq!((read.present, read.sop, read.eph, read.taken), (present, Mark::InOrder, Mark::InOrder, packet.len() - body.len()));
        assert_eq!(read.bits_past_end, 0, "layer {number}");
        assert_eq!(packet.len() == 1, !present && markers == Markers::NONE, "layer {number}");
        assert_eq!((read.blocks, read.segments), (layer.reports, layer.segments), "layer {number}");
        so_far.iter_mut().zip(layer.counts).for_each(|(sum, count)| *sum += count);
    }
    assert!(so_far[0] > 9 * 109 && so_far[1..].iter().all(|passes| *passes > 0));
    ended(writer.state(), reader.state());
}

/// Every call on a state of which all layers have been coded gives 6, and changes its answer alone.
fn ended(writer: &[u32], reader: &[u32]) {
    let layer = Layer::new(3, &[1; 4]);
    let body = layer.body();
    let (mut state, mut scratch, mut output, mut answer) = (writer.to_vec(), vec![7; writer.len()], [7; 99], [7; 2]);
    let Layer { counts, lengths, marks, .. } = &layer;
    assert_eq!(words::measure(&state, &mut scratch, counts, lengths, marks, false, false, &mut answer), 6);
    let written = words::write(&mut state, &mut scratch, counts, lengths, marks, &body, false, false, 0, &mut output, &mut answer[..1]);
    assert_eq!((written, &state[..], output, answer), (6, writer, [7; 99], [0; 2]));
    assert_eq!(scratch, vec![7; writer.len()]);
    let record = Record { block: 7, opens: 7, passes: 7, bytes: 7, start: 7 };
    let (mut state, mut reports, mut work, mut records, mut answer) = (reader.to_vec(), [7; 16], [7; 8], [record; 2], [7; 6]);
    let read = words::read(&mut state, &mut scratch, &[0xe5], false, false, &mut reports, &mut work, &mut records, &mut answer);
    assert_eq!((read, &state[..], reports, work, records, answer), (6, reader, [7; 16], [7; 8], [record; 2], [0; 6]));
    assert_eq!(scratch, vec![7; reader.len()]);
    assert_eq!((writer[3], reader[3]), (LAYERS, LAYERS));
}

/// Writer and reader of one band in this layer, whose inclusion trees have learned nothing of the layers before.
fn unlearned(across: u32, down: u32, layer: u32) -> (Vec<u32>, Vec<u32>) {
    let bands = [Band { across, down, planes: 5 }];
    let mut writer = Writer::new(&bands, 0, &vec![5; (across * down) as usize]).unwrap().state().to_vec();
    let mut reader = Reader::new(&bands, 0).unwrap().state().to_vec();
    (writer[3], reader[3]) = (layer, layer);
    (writer, reader)
}

/// 65,534 packets without passes, a byte each, and then one with a pass.
#[test]
fn a_bit_for_each_layer_before() {
    let bands = [Band { across: 1, down: 1, planes: 5 }];
    let (mut writer, mut reader) = (Writer::new(&bands, 0, &[5]).unwrap(), Reader::new(&bands, 0).unwrap());
    let absent = Contribution { counts: &[0], ..Contribution::default() };
    for _ in 0..LAYERS - 1 {
        assert_eq!(writer.measure(absent, Markers::NONE), Ok(Measured { header: 1, body: 0 }));
        assert_eq!(writer.write(absent, &[], Markers::NONE, 0).unwrap(), [0]);
        let read = reader.read(&[0], Markers::NONE).unwrap();
        assert_eq!((read.present, read.taken, read.blocks), (false, 1, vec![Block::Absent]));
    }
    assert_eq!(unlearned(1, 1, LAYERS - 1), (writer.state().to_vec(), reader.state().to_vec()));
    let layer = Contribution { counts: &[1], lengths: &[5], marks: &[0] };
    assert_eq!(writer.measure(layer, Markers::NONE), Ok(Measured { header: 8193, body: 5 }));
    let packet = writer.write(layer, b"hello", Markers::NONE, 0).unwrap();
    let mut header = vec![0; 8193];
    (header[0], header[8191], header[8192]) = (0x80, 0x01, 0x94);
    assert_eq!(packet, [&header[..], b"hello"].concat());
    // Behind the first bit a zero for each of 65,535 layers, seven of them in the first byte.
    let cut = reader.clone().read(&packet[..1], Markers::NONE).unwrap();
    assert_eq!((cut.taken, cut.bits_past_end, cut.blocks), (1, u64::from(LAYERS) - 7, vec![Block::Absent]));
    let read = reader.read(&packet, Markers::NONE).unwrap();
    assert_eq!((read.taken, read.blocks, read.segments.len()), (8193, vec![Block::First { zero_planes: 0, planes: 5, passes: 1 }], 1));
    assert_eq!((writer.next_layer(), reader.next_layer()), (LAYERS, LAYERS));
}

/// The inner nodes say layer 0, so that no leaf learns from another: each costs a bit for each layer before.
#[test]
fn a_bit_for_each_layer_before_at_each_leaf() {
    let blocks = 64 * 64;
    let (mut writer, mut reader) = unlearned(64, 64, LAYERS - 1);
    let nodes = (writer.len() - 13 - 4 * blocks) / 6;
    for state in [&mut writer, &mut reader] {
        state[13 + 3 * blocks..13 + 3 * nodes].chunks_exact_mut(3).for_each(|node| node.copy_from_slice(&[0, 0, 1]));
    }
    let (mut writer, mut reader) = (Writer::from_state(writer).unwrap(), Reader::from_state(reader).unwrap());
    let (counts, lengths, marks, body) = (vec![1; blocks], vec![5; blocks], vec![0; blocks], vec![9; 5 * blocks]);
    let layer = Contribution { counts: &counts, lengths: &lengths, marks: &marks };
    let measured = writer.measure(layer, Markers::BOTH).unwrap();
    assert!(measured.header > 64 * 64 * 65_535 / 8);
    let packet = writer.write(layer, &body, Markers::BOTH, 0).unwrap();
    let header = packet.len() - body.len();
    assert_eq!((measured.header, measured.body), (header as u64, body.len() as u64));
    let read = reader.read(&packet, Markers::BOTH).unwrap();
    assert_eq!((read.taken, read.sop, read.eph, read.segments.len()), (header, Mark::InOrder, Mark::InOrder, blocks));
    assert!(read.segments.iter().all(|segment| (segment.passes, segment.bytes) == (1, 5)));
    assert_eq!(writer.write(layer, &body, Markers::NONE, 0), Err(Refusal::Layers));
}
