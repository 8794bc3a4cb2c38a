//! A layer of several precincts, whole or not at all.
use tonkelvi::{Band, Block, Contribution, Layer, LayerRefused, Markers, Measured, Packets, Part, Reader, Refusal, Writer};

const ONE: [Band; 1] = [Band { across: 1, down: 1, planes: 5 }];
const TWO: [Band; 2] = [Band { across: 1, down: 1, planes: 5 }, Band { across: 0, down: 3, planes: 9 }];
const THREE: [Band; 2] = [Band { across: 2, down: 1, planes: 5 }, Band { across: 1, down: 1, planes: 7 }];
const SHAPES: [(&[Band], &[u32]); 3] = [(&ONE, &[5]), (&TWO, &[4]), (&THREE, &[5, 4, 7])];

const FIVE: Part = Part { contribution: Contribution { counts: &[1], lengths: &[5], marks: &[0] }, body: b"hello", number: 65_537 };
const EIGHT: Part = Part { contribution: Contribution { counts: &[2], lengths: &[3, 5], marks: &[0, 0] }, body: b"two pass", number: 8 };
const SOME: Part =
    Part { contribution: Contribution { counts: &[1, 0, 3], lengths: &[2, 1, 0, 1], marks: &[0; 4] }, body: b"abcd", number: 9 };
const NOTHING: Part = Part { contribution: Contribution { counts: &[0, 0, 0], lengths: &[], marks: &[] }, body: b"", number: 2 };
const PARTS: [Part; 3] = [FIVE, EIGHT, SOME];

fn writers() -> Vec<Writer> {
    SHAPES.iter().map(|(bands, planes)| Writer::new(bands, 0, planes).unwrap()).collect()
}

fn readers() -> Vec<Reader> {
    SHAPES.iter().map(|(bands, _)| Reader::new(bands, 0).unwrap()).collect()
}

/// The packets of single writers.
fn singly(writers: &mut [Writer], parts: &[Part], markers: Markers) -> Vec<Vec<u8>> {
    let write = |(writer, part): (&mut Writer, &Part)| writer.write(part.contribution, part.body, markers, part.number).unwrap();
    writers.iter_mut().zip(parts).map(write).collect()
}

fn at(refusal: Refusal, place: usize) -> LayerRefused {
    LayerRefused { refusal, place }
}

#[test]
fn as_single_writers_write() {
    let (mut single, mut layer) = (writers(), writers().into_iter().collect::<Layer>());
    assert_eq!((layer.len(), layer.is_empty(), layer.blocks(2)), (3, false, 3));
    for (parts, markers) in [(PARTS, Markers::BOTH), ([EIGHT, FIVE, NOTHING], Markers::NONE), (PARTS, Markers { sop: true, eph: false })] {
        let packets = layer.write(&parts, markers).unwrap();
        assert_eq!(packets.iter().collect::<Vec<_>>(), singly(&mut single, &parts, markers));
        assert_eq!(packets.begins[0], 0);
        for (place, writer) in single.iter().enumerate() {
            assert_eq!((layer.state(place), layer.next_layer(place)), (writer.state(), writer.next_layer()));
        }
    }
    assert!(layer.into_writers().iter().zip(&single).all(|(one, other)| one.state() == other.state()));
}

/// Whole layers and single packets in turn; each reader gets its precinct's packets in order.
#[test]
fn mixed_with_single_packets_and_read_back() {
    let (mut layer, mut readers) = (writers().into_iter().collect::<Layer>(), readers());
    let mut read = |place: usize, packet: &[u8], part: &Part| {
        let read = readers[place].read(packet, Markers::BOTH).unwrap();
        assert_eq!((&packet[read.taken..], read.body()), (part.body, part.body.len() as u64));
        assert_eq!(packet[4..6], (part.number as u16).to_be_bytes());
        let passes = |block: &Block| match *block {
            Block::Absent => 0,
            Block::First { passes, .. } | Block::Again { passes } => passes,
        };
        assert_eq!(read.blocks.iter().map(passes).collect::<Vec<_>>(), part.contribution.counts);
    };
    for (place, part) in [(1, FIVE), (2, NOTHING), (1, EIGHT)] {
        let size = layer.measure_one(place, part.contribution, Markers::BOTH).unwrap();
        let packet = layer.write_one(place, part, Markers::BOTH).unwrap();
        assert_eq!(size, Measured { header: (packet.len() - part.body.len()) as u64, body: part.body.len() as u64 });
        read(place, &packet, &part);
        let packets = layer.write(&PARTS, Markers::BOTH).unwrap();
        packets.iter().zip(&PARTS).enumerate().for_each(|(place, (packet, part))| read(place, packet, part));
    }
    assert_eq!([0, 1, 2].map(|place| layer.next_layer(place)), [3, 5, 4]);
    assert_eq!([0, 1, 2].map(|place| readers[place].next_layer()), [3, 5, 4]);
}

/// A refused call, by measuring and by both ways of writing; the layer and each word of its states stay.
fn refused(layer: &mut Layer, parts: &[Part], refusal: Refusal, place: usize) {
    let states: Vec<Vec<u32>> = (0..layer.len()).map(|place| layer.state(place).to_vec()).collect();
    let mut output = [7; 500];
    assert_eq!(layer.measure(parts, Markers::BOTH), Err(at(refusal, place)));
    assert_eq!(layer.write(parts, Markers::BOTH), Err(at(refusal, place)));
    assert_eq!(layer.write_to(parts, Markers::BOTH, &mut output), Err(at(refusal, place)));
    assert_eq!(output, [if refusal == Refusal::Precincts { 7 } else { 0 }; 500]);
    for (place, state) in states.iter().enumerate() {
        assert_eq!(layer.state(place), state);
    }
}

/// The last precinct is refused, or one before it; the first one refused is told.
#[test]
fn the_first_refused_decides() {
    let mut layer: Layer = writers().into_iter().collect();
    layer.write(&PARTS, Markers::NONE).unwrap();
    let counts = |counts| Part { contribution: Contribution { counts, ..FIVE.contribution }, ..FIVE };
    let lengths = |lengths| Part { contribution: Contribution { lengths, ..FIVE.contribution }, ..FIVE };
    let marks = |marks| Part { contribution: Contribution { marks, ..FIVE.contribution }, ..FIVE };
    let body = |body| Part { body, ..FIVE };
    let too_many = Part { contribution: Contribution { counts: &[165], lengths: &[0; 165], marks: &[0; 165] }, body: b"", number: 0 };
    let misfits = [
        (counts(&[]), Refusal::List),
        (counts(&[1, 0]), Refusal::List),
        (lengths(&[]), Refusal::List),
        (lengths(&[5, 0]), Refusal::List),
        (marks(&[]), Refusal::List),
        (marks(&[0, 0]), Refusal::List),
        (body(b"hell"), Refusal::Body),
        (body(b"hello!"), Refusal::Body),
        (lengths(&[1 << 31]), Refusal::Length),
        (too_many, Refusal::Passes),
    ];
    for (part, refusal) in misfits {
        refused(&mut layer, &[part, EIGHT, SOME], refusal, 0);
        refused(&mut layer, &[FIVE, part, SOME], refusal, 1);
        refused(&mut layer, &[FIVE, part, part], refusal, 1);
        for (other, earlier) in misfits {
            refused(&mut layer, &[other, part, SOME], earlier, 0);
        }
    }
    let last_short = [FIVE, EIGHT, Part { body: b"abc", ..SOME }];
    refused(&mut layer, &last_short, Refusal::Body, 2);
    // What one part has too few the next has too many: joined they would fit.
    refused(
        &mut layer,
        &[counts(&[]), Part { contribution: Contribution { counts: &[1, 2], ..EIGHT.contribution }, ..EIGHT }, SOME],
        Refusal::List,
        0,
    );
    refused(&mut layer, &[body(b"hell"), Part { body: b"otwo pass", ..EIGHT }, SOME], Refusal::Body, 0);
    // No room for the second packet comes before what is wrong with the third.
    assert_eq!(layer.write_to(&last_short, Markers::NONE, &mut [7; 9]), Err(at(Refusal::Space, 1)));
    assert_eq!(layer.write(&PARTS, Markers::NONE).unwrap().begins.len(), 3);
}

#[test]
fn out_of_layers() {
    let mut states: Vec<Vec<u32>> = writers().iter().map(|writer| writer.state().to_vec()).collect();
    states[1][3] = 65_534;
    let mut layer: Layer = states.into_iter().map(|state| Writer::from_state(state).unwrap()).collect();
    layer.write(&[FIVE, EIGHT, SOME], Markers::NONE).unwrap();
    refused(&mut layer, &PARTS, Refusal::Layers, 1);
    assert_eq!([0, 1, 2].map(|place| layer.next_layer(place)), [1, 65_535, 1]);
}

/// Every output that is too short is wiped, and the place is that of the first packet which does not fit behind those before.
#[test]
fn every_room() {
    let fresh: Layer = writers().into_iter().collect();
    let packets = fresh.clone().write(&PARTS, Markers::BOTH).unwrap();
    for room in 0..packets.bytes.len() + 3 {
        let (mut layer, mut output) = (fresh.clone(), vec![7; room]);
        let done = layer.write_to(&PARTS, Markers::BOTH, &mut output);
        if room < packets.bytes.len() {
            let ends = packets.begins[1..].iter().copied().chain([packets.bytes.len()]);
            assert_eq!(done, Err(at(Refusal::Space, ends.take_while(|end| *end <= room).count())));
            assert_eq!(output, vec![0; room]);
            assert!((0..3).all(|place| layer.state(place) == fresh.state(place)), "room {room}");
        } else {
            assert_eq!(done, Ok(packets.bytes.len()));
            assert_eq!(output, [&packets.bytes[..], &[7; 2][..room - packets.bytes.len()]].concat());
            assert!((0..3).all(|place| layer.next_layer(place) == 1), "room {room}");
        }
    }
}

#[test]
fn no_parts_write_nothing() {
    let mut layer: Layer = writers().into_iter().collect();
    let mut output = [7; 5];
    assert_eq!(layer.write(&[], Markers::BOTH), Ok(Packets::default()));
    assert_eq!((layer.write_to(&[], Markers::BOTH, &mut output), output), (Ok(0), [7; 5]));
    assert_eq!(layer.into_writers(), writers());
    assert_eq!(Layer::default().write(&[], Markers::NONE), Ok(Packets::default()));
}

/// Fewer parts than precincts leave words over for the last; more leave the first of them without any.
#[test]
fn a_part_for_each_precinct() {
    let mut layer: Layer = writers().into_iter().collect();
    refused(&mut layer, &[FIVE], Refusal::State, 0);
    refused(&mut layer, &[FIVE, EIGHT], Refusal::State, 1);
    refused(&mut layer, &[FIVE, Part::default()], Refusal::State, 1);
    refused(&mut layer, &[FIVE, EIGHT, SOME, FIVE], Refusal::State, 3);
    refused(&mut layer, &[FIVE, EIGHT, SOME, Part::default(), FIVE], Refusal::State, 3);
    refused(&mut layer, &[FIVE, EIGHT, NOTHING, FIVE, FIVE, FIVE, FIVE, FIVE], Refusal::State, 3);
    refused(&mut layer, &[Part::default(), EIGHT, NOTHING, FIVE], Refusal::List, 0);
    refused(&mut Layer::default(), &[FIVE], Refusal::State, 0);
}

#[test]
fn up_to_sixteen() {
    let precincts = |n: usize| (0..n).map(|_| Writer::new(&ONE, 0, &[5]).unwrap()).collect::<Layer>();
    let parts = |n: usize| (0..n).map(|i| Part { number: i as u32, ..FIVE }).collect::<Vec<_>>();
    let packets = precincts(16).write(&parts(16), Markers { sop: true, eph: false }).unwrap();
    let wanted = |i: u8| [&[0xff, 0x91, 0, 4, 0, i, 0xe5], &b"hello"[..]].concat();
    assert_eq!(packets.bytes, (0..16).flat_map(wanted).collect::<Vec<_>>());
    assert_eq!(packets.begins, (0..16).map(|i| 12 * i).collect::<Vec<_>>());
    refused(&mut precincts(17), &parts(17), Refusal::Precincts, 0);
    refused(&mut precincts(16), &parts(17), Refusal::Precincts, 0);
    refused(&mut precincts(17), &parts(16), Refusal::State, 15);
    let mut spoiled = parts(40);
    spoiled[0].body = b"";
    refused(&mut precincts(40), &spoiled, Refusal::Precincts, 0);
}

#[test]
fn refusals_are_told() {
    assert_eq!(at(Refusal::Space, 3).to_string(), "Precinct 3: The packet is longer than the output.");
    assert_eq!(at(Refusal::Precincts, 0).to_string(), Refusal::Precincts.sentence());
    let error: Box<dyn std::error::Error> = at(Refusal::Body, 1).into();
    assert_eq!(error.source().map(|source| source.to_string()), Some(Refusal::Body.to_string()));
}
