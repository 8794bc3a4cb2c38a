//! A row's headers moved to the front and back, by the safe face.
use tonkelvi::{gather, spread, Band, Contribution, HeadersInFront, Markers, Reader, Refusal, Writer};

const ALL: [Markers; 4] = [Markers::NONE, Markers { sop: true, eph: false }, Markers { sop: false, eph: true }, Markers::BOTH];
const ONE_BLOCK: [Band; 1] = [Band { across: 1, down: 1, planes: 5 }];
/// The bands of three precincts.
const SHAPES: [&[Band]; 3] = [
    &ONE_BLOCK,
    &[Band { across: 2, down: 2, planes: 9 }, Band { across: 0, down: 0, planes: 9 }, Band { across: 3, down: 1, planes: 7 }],
    &[Band { across: 0, down: 5, planes: 3 }],
];
/// Whose packet is which: layers of one precinct are not behind one another.
const PLACES: [usize; 8] = [1, 0, 1, 2, 0, 0, 1, 2];

fn readers() -> Vec<Reader> {
    SHAPES.iter().map(|bands| Reader::new(bands, 0x04).unwrap()).collect()
}

/// A packet for each of the places, each block with 0 to 4 terminated passes of 0 to 255 bytes: its header, and the rest of it.
fn packets(markers: Markers) -> Vec<[Vec<u8>; 2]> {
    let planes = |bands: &[Band]| bands.iter().flat_map(|b| vec![b.planes; (b.across * b.down) as usize]).collect::<Vec<_>>();
    let mut writers: Vec<Writer> = SHAPES.iter().map(|bands| Writer::new(bands, 0x04, &planes(bands)).unwrap()).collect();
    let mut packet = |(number, place): (usize, &usize)| {
        let writer = &mut writers[*place];
        let counts: Vec<u32> = (0..writer.blocks()).map(|block| (3 * number + 5 * block) as u32 % 5).collect();
        let passes = counts.iter().sum::<u32>() as usize;
        let lengths: Vec<u32> = (0..passes).map(|pass| (100 * number + 37 * pass) as u32 % 256).collect();
        let body = vec![number as u8; lengths.iter().sum::<u32>() as usize];
        let layer = Contribution { counts: &counts, lengths: &lengths, marks: &vec![1; passes] };
        let packet = writer.write(layer, &body, markers, number as u32).unwrap();
        let (sop, front) = (if markers.sop { 6 } else { 0 }, packet.len() - body.len());
        [packet[sop..front].to_vec(), [&packet[..sop], &packet[front..]].concat()]
    };
    PLACES.iter().enumerate().map(&mut packet).collect()
}

/// The row of packets, their headers behind one another, and what is left of the packets.
fn row_and_parts(markers: Markers) -> [Vec<u8>; 3] {
    let packets = packets(markers);
    let sop = if markers.sop { 6 } else { 0 };
    let row = packets.iter().flat_map(|[header, rest]| [&rest[..sop], header, &rest[sop..]].concat()).collect();
    [row, packets.iter().flat_map(|packet| packet[0].clone()).collect(), packets.iter().flat_map(|packet| packet[1].clone()).collect()]
}

fn segment(index: u8, part: &[u8]) -> Vec<u8> {
    let [high, low] = (part.len() as u16 + 3).to_be_bytes();
    [&[0xff, 0x61, high, low, index], part].concat()
}

#[test]
fn there_and_back() {
    for markers in ALL {
        let [row, headers, bodies] = row_and_parts(markers);
        let mut moved = readers();
        let front = gather(&row, &mut moved, &PLACES, markers).unwrap();
        assert_eq!(front, HeadersInFront { headers: segment(0, &headers), bodies });
        let mut one_by_one = readers();
        let mut at = 0;
        for place in PLACES {
            let packet = one_by_one[place].read(&row[at..], markers).unwrap();
            at += packet.taken + packet.body() as usize;
        }
        assert_eq!(at, row.len());
        let states = |readers: &[Reader]| readers.iter().map(|reader| reader.state().to_vec()).collect::<Vec<_>>();
        assert_eq!(states(&moved), states(&one_by_one));
        // Any cut into segments is taken.
        let bytewise: Vec<u8> = headers.iter().enumerate().flat_map(|(index, byte)| segment(index as u8, &[*byte])).collect();
        for segments in [&front.headers, &bytewise] {
            let mut back = readers();
            assert_eq!(spread(segments, &front.bodies, &mut back, &PLACES, markers), Ok(row.clone()));
            assert_eq!(states(&back), states(&one_by_one));
        }
        // A reader goes on: the next packet of each is absent.
        let after = gather(&[0; 3], &mut moved, &[2, 0, 1], Markers::NONE).unwrap();
        assert_eq!((&after.headers[..], after.bodies.len()), (&segment(0, &[0; 3])[..], 0));
    }
}

#[test]
fn refused_moves_leave_the_readers() {
    let [row, headers, bodies] = row_and_parts(Markers::BOTH);
    let segments = segment(0, &headers);
    let mut readers = readers();
    let fresh = readers.clone();
    let (cut, longer) = (row[..row.len() - 1].to_vec(), [&row[..], &[0]].concat());
    for (row, places, refusal) in [
        (&row, &[1, 0, 3][..], Refusal::State),
        (&row, &[1, 0, usize::MAX], Refusal::State),
        (&cut, &PLACES, Refusal::Body),
        (&longer, &PLACES, Refusal::Body),
    ] {
        assert_eq!(gather(row, &mut readers, places, Markers::BOTH), Err(refusal));
    }
    for (segments, bodies, places, refusal) in [
        (&segment(1, &headers), &bodies, &PLACES[..], Refusal::Packed),
        (&segments[..segments.len() - 1].to_vec(), &bodies, &[3], Refusal::Packed),
        (&segments, &bodies, &[3], Refusal::State),
        (&segments, &bodies[1..].to_vec(), &PLACES, Refusal::Body),
        (&segments, &bodies, &PLACES[..7], Refusal::Body),
    ] {
        assert_eq!(spread(segments, bodies, &mut readers, places, Markers::BOTH), Err(refusal));
    }
    assert_eq!(readers, fresh);
    let plain = Reader::new(&ONE_BLOCK, 0).unwrap();
    assert_eq!(gather(&[0xfe, 0xad, 0xff], &mut [plain], &[0], Markers::NONE), Err(Refusal::HeaderEnd));
    assert_eq!(spread(&segments, &bodies, &mut readers, &PLACES, Markers::BOTH), Ok(row));
}

/// Without packets the row must be empty, and there is no segment; without readers there can be no packet.
#[test]
fn no_packets() {
    assert_eq!(gather(&[], &mut readers(), &[], Markers::BOTH), Ok(HeadersInFront::default()));
    assert_eq!(spread(&[], &[], &mut [], &[], Markers::BOTH), Ok(vec![]));
    assert_eq!(gather(&[0], &mut readers(), &[], Markers::NONE), Err(Refusal::Body));
    assert_eq!(gather(&[], &mut [], &[0], Markers::NONE), Err(Refusal::State));
}

/// A row that lacks a marker is moved, but the way back puts another order of bytes.
#[test]
fn without_a_sop() {
    let row = [0x00, 0xff, 0x91, 0, 4, 0, 0, 0x00];
    let reader = Reader::new(&ONE_BLOCK, 0).unwrap();
    let markers = Markers { sop: true, eph: false };
    let front = gather(&row, &mut [reader.clone()], &[0, 0], markers).unwrap();
    assert_eq!((front.headers, &front.bodies[..]), (segment(0, &[0, 0]), &row[1..7]));
    let back = spread(&segment(0, &[0, 0]), &front.bodies, &mut [reader], &[0, 0], markers).unwrap();
    assert_eq!(back, [0xff, 0x91, 0, 4, 0, 0, 0x00, 0x00]);
}

/// 2,047 headers of 8,193 bytes fill 256 segments but for 5,121 bytes; with one more header a 257th segment is needed.
#[test]
fn as_many_segments_as_there_can_be() {
    let late = |fresh: &[u32]| {
        let mut state = fresh.to_vec();
        state[3] = 65_534;
        state
    };
    let mut writer = Writer::from_state(late(Writer::new(&ONE_BLOCK, 0, &[5]).unwrap().state())).unwrap();
    let layer = Contribution { counts: &[1], lengths: &[5], marks: &[0] };
    let packet = writer.write(layer, b"hello", Markers::NONE, 0).unwrap();
    assert_eq!(packet.len(), 8_193 + 5);
    let reader = Reader::from_state(late(Reader::new(&ONE_BLOCK, 0).unwrap().state())).unwrap();
    let mut readers = vec![reader; 2048];
    let fresh = readers.clone();
    let (row, places): (Vec<u8>, Vec<usize>) = (packet.repeat(2048), (0..2048).collect());
    assert_eq!(gather(&row, &mut readers, &places, Markers::NONE), Err(Refusal::Segments));
    assert!(readers == fresh);
    let row = &row[..2047 * packet.len()];
    let front = gather(row, &mut readers, &places[..2047], Markers::NONE).unwrap();
    let headers = packet[..8_193].repeat(2047);
    let segments: Vec<u8> = headers.chunks(65_532).enumerate().flat_map(|(index, part)| segment(index as u8, part)).collect();
    assert!(front == HeadersInFront { headers: segments, bodies: b"hello".repeat(2047) });
    readers = fresh;
    assert!(spread(&front.headers, &front.bodies, &mut readers, &places[..2047], Markers::NONE).unwrap() == row);
    // A 257th segment has no index of its own.
    let more = [front.headers, segment(0, &[0])].concat();
    assert_eq!(spread(&more, &front.bodies, &mut readers, &places, Markers::NONE), Err(Refusal::Packed));
}
