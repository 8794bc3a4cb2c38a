//! States kept and taken up again.
use tonkelvi::{Band, Block, Contribution, Markers, Reader, Refusal, Writer};

const BANDS: [Band; 2] = [Band { across: 2, down: 1, planes: 5 }, Band { across: 1, down: 3, planes: 4 }];

#[test]
fn taken_up_by_its_role_alone() {
    let writer = Writer::new(&BANDS, 0, &[5, 4, 0, 0, 0]).unwrap();
    let reader = Reader::new(&BANDS, 0).unwrap();
    assert_eq!((writer.blocks(), writer.next_layer()), (5, 0));
    assert_eq!((reader.blocks(), reader.next_layer()), (5, 0));
    assert_eq!(Writer::from_state(writer.state().to_vec()), Ok(writer.clone()));
    assert_eq!(Reader::from_state(reader.state().to_vec()), Ok(reader.clone()));
    assert_eq!(Writer::from_state(reader.state().to_vec()), Err(Refusal::State));
    assert_eq!(Reader::from_state(writer.state().to_vec()), Err(Refusal::State));
}

#[test]
fn out_of_range() {
    let mut state = Reader::new(&BANDS, 0).unwrap().state().to_vec();
    assert_eq!(Reader::from_state(state[..12].to_vec()), Err(Refusal::State));
    state[3] = 65_535;
    let mut reader = Reader::from_state(state.clone()).unwrap();
    assert_eq!(reader.next_layer(), 65_535);
    assert_eq!(reader.read(&[], Markers::NONE), Err(Refusal::Layers));
    state[3] = 65_536;
    assert_eq!(Reader::from_state(state), Err(Refusal::State));
}

#[test]
fn after_a_packet() {
    let mut writer = Writer::new(&BANDS, 0, &[5, 4, 0, 0, 0]).unwrap();
    let layer = Contribution { counts: &[1, 0, 0, 0, 0], lengths: &[5], marks: &[0] };
    let packet = writer.write(layer, b"hello", Markers::BOTH, 0).unwrap();
    let mut reader = Reader::new(&BANDS, 0).unwrap();
    assert_eq!(reader.read(&packet, Markers::BOTH).unwrap().segments[0].bytes, 5);
    let taken_up = Writer::from_state(writer.state().to_vec()).unwrap();
    assert_eq!((taken_up.next_layer(), reader.next_layer()), (1, 1));
}

const ONE_BLOCK: [Band; 1] = [Band { across: 1, down: 1, planes: 5 }];
const ABSENT: Contribution = Contribution { counts: &[0], lengths: &[], marks: &[] };
const FIVE_BYTES: Contribution = Contribution { counts: &[1], lengths: &[5], marks: &[0] };

/// The states of a fresh writer and a fresh reader of one block, but for the next layer and value and low of the inclusion tree's node.
fn writer_and_reader(layer: u32, value: u32, low: u32) -> (Result<Writer, Refusal>, Result<Reader, Refusal>) {
    let fresh = [Writer::new(&ONE_BLOCK, 0, &[5]).unwrap().state().to_vec(), Reader::new(&ONE_BLOCK, 0).unwrap().state().to_vec()];
    let [writer, reader] = fresh.map(|mut state| {
        state[3] = layer;
        state[13..15].copy_from_slice(&[value, low]);
        state
    });
    (Writer::from_state(writer), Reader::from_state(reader))
}

#[test]
fn fresh_nodes() {
    let writer = Writer::new(&ONE_BLOCK, 0, &[4]).unwrap();
    let reader = Reader::new(&ONE_BLOCK, 0).unwrap();
    assert_eq!((&writer.state()[13..19], &reader.state()[13..19]), (&[65_535, 0, 0, 1, 0, 0][..], &[65_535, 0, 0, 999, 0, 0][..]));
}

#[test]
fn ranges_of_layers_and_inclusion_trees() {
    for (layer, value, low) in [(999, 65_535, 999), (1000, 1000, 0), (65_535, 65_535, 65_535), (0, 65_535, 65_535)] {
        let (writer, reader) = writer_and_reader(layer, value, low);
        assert_eq!((writer.unwrap().next_layer(), reader.unwrap().next_layer()), (layer, layer));
    }
    for (layer, value, low) in [(65_536, 0, 0), (0, 65_536, 0), (0, 0, 65_536)] {
        assert_eq!(writer_and_reader(layer, value, low), (Err(Refusal::State), Err(Refusal::State)));
    }
}

#[test]
fn ranges_of_zero_plane_trees() {
    let state = Reader::new(&ONE_BLOCK, 0).unwrap().state().to_vec();
    for (place, most) in [(16, 999), (17, 999), (18, 1)] {
        for (word, taken_up) in [(most, true), (most + 1, false), (65_535, false)] {
            let mut state = state.clone();
            state[place] = word;
            assert_eq!(Reader::from_state(state).is_ok(), taken_up, "{word} at {place}");
        }
    }
}

#[test]
fn layers_about_999_and_the_last() {
    for layer in [998, 999, 1000, 65_534] {
        let (writer, reader) = writer_and_reader(layer, 65_535, layer);
        let (mut writer, mut reader) = (writer.unwrap(), reader.unwrap());
        assert_eq!(writer.clone().write(ABSENT, &[], Markers::NONE, 0).unwrap(), [0]);
        let packet = writer.write(FIVE_BYTES, b"hello", Markers::NONE, 0).unwrap();
        assert_eq!(packet, *b"\xe5hello");
        let read = reader.read(&packet, Markers::NONE).unwrap();
        assert_eq!((read.taken, read.blocks), (1, vec![Block::First { zero_planes: 0, planes: 5, passes: 1 }]));
        assert_eq!(
            (writer.state()[13], reader.state()[13], writer.next_layer(), reader.next_layer()),
            (layer, layer, layer + 1, layer + 1)
        );
    }
}

/// 999 in an inclusion tree is what versions before 0.3.0 have for "not yet": below layer 999 it is coded alike, in layer 999 it says that
/// the block is included.
#[test]
fn layer_999_is_not_not_yet() {
    for layer in [1, 500, 998] {
        let [stored, fresh] = [999, 65_535].map(|value| {
            let (writer, reader) = writer_and_reader(layer, value, layer - 1);
            let (mut writer, mut reader) = (writer.unwrap(), reader.unwrap());
            let absent = writer.clone().write(ABSENT, &[], Markers::NONE, 0).unwrap();
            let packet = writer.write(FIVE_BYTES, b"hello", Markers::NONE, 0).unwrap();
            (reader.clone().read(&absent, Markers::NONE), reader.read(&packet, Markers::NONE), absent, packet)
        });
        assert_eq!(stored, fresh);
    }
    // Beside a block with passes the leaf's bit is the header's last one.
    let mut beside = Writer::new(&[Band { across: 2, down: 1, planes: 5 }], 0, &[5, 5]).unwrap();
    let layer = Contribution { counts: &[1, 0], lengths: &[0], marks: &[0] };
    beside.write(layer, &[], Markers::NONE, 0).unwrap();
    for (value, header) in [(999, 0xc1), (65_535, 0xc0)] {
        let mut state = beside.state().to_vec();
        state[3] = 999;
        state[16..19].copy_from_slice(&[value, 999, 0]);
        assert_eq!(Writer::from_state(state).unwrap().write(layer, &[], Markers::NONE, 0).unwrap(), [header]);
    }
    let (_, reader) = writer_and_reader(999, 999, 999);
    let read = reader.unwrap().read(&[0xca], Markers::NONE).unwrap();
    assert_eq!((read.body(), read.blocks), (5, vec![Block::First { zero_planes: 0, planes: 5, passes: 1 }]));
}
