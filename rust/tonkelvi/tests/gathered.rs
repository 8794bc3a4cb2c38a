//! Headers gathered in front of the bodies: read as from the stream, but for where the markers stand.
use tonkelvi::words::{self, Segment};
use tonkelvi::{most_segments, Band, Contribution, Gathered, Mark, Markers, Packet, Reader, Refusal, Writer};

const ONE_BLOCK: [Band; 1] = [Band { across: 1, down: 1, planes: 5 }];
const FOUR_BLOCKS: [Band; 1] = [Band { across: 2, down: 2, planes: 9 }];
/// SCOPE's packet A.
const A: u8 = 0xe5;
const SOP: [u8; 6] = [0xff, 0x91, 0, 4, 0, 0];
const ALL: [Markers; 4] = [Markers::NONE, Markers { sop: true, eph: false }, Markers { sop: false, eph: true }, Markers::BOTH];

/// What a fresh reader of one block tells.
fn read(headers: &[u8], src: &[u8], markers: Markers) -> Result<Gathered, Refusal> {
    Reader::new(&ONE_BLOCK, 0).unwrap().read_gathered(headers, src, markers)
}

/// Packets of four blocks with these markers, behind one another: passes of each block, and each pass's bytes.
fn row(markers: Markers) -> Vec<u8> {
    let layers = [([1, 0, 0, 0], 5), ([0, 0, 0, 0], 0), ([2, 0, 37, 0], 300), ([0, 1, 0, 16], 511), ([5, 3, 1, 7], 700), ([0, 0, 0, 1], 0)];
    let mut writer = Writer::new(&FOUR_BLOCKS, 0x04, &[9, 3, 8, 0]).unwrap();
    let mut packet = |(number, (counts, bytes)): (usize, ([u32; 4], u32))| {
        let passes = counts.iter().sum::<u32>() as usize;
        let layer = Contribution { counts: &counts, lengths: &vec![bytes; passes], marks: &vec![1; passes] };
        writer.write(layer, &vec![7; bytes as usize * passes], markers, number as u32).unwrap()
    };
    layers.into_iter().enumerate().flat_map(&mut packet).collect()
}

/// What was told, without the bytes taken.
fn told(packet: &Packet) -> Packet {
    Packet { taken: 0, ..packet.clone() }
}

/// Each packet of the row, read from the stream and from its headers moved to the front, tells the same; both leave the same state, and all
/// bytes are taken.
#[test]
fn as_from_the_stream() {
    for markers in ALL {
        let row = row(markers);
        let sop = if markers.sop { 6 } else { 0 };
        let mut reader = Reader::new(&FOUR_BLOCKS, 0x04).unwrap();
        let (mut packets, mut headers, mut bodies, mut at) = (Vec::new(), Vec::new(), Vec::new(), 0);
        while at < row.len() {
            let packet = reader.read(&row[at..], markers).unwrap();
            let body = at + packet.taken;
            let end = body + packet.body() as usize;
            headers.extend(&row[at + sop..body]);
            bodies.extend([&row[at..at + sop], &row[body..end]].concat());
            packets.push((packet, reader.state().to_vec()));
            at = end;
        }
        let mut gathered = Reader::new(&FOUR_BLOCKS, 0x04).unwrap();
        let (mut of_headers, mut of_bodies) = (&headers[..], &bodies[..]);
        for (packet, state) in packets {
            let read = gathered.read_gathered(of_headers, of_bodies, markers).unwrap();
            assert_eq!((told(&read.packet), gathered.state()), (told(&packet), &state[..]));
            assert_eq!((read.packet.taken, read.header + sop), (sop, packet.taken));
            of_headers = &of_headers[read.header..];
            of_bodies = &of_bodies[sop + packet.body() as usize..];
        }
        assert!(of_headers.is_empty() && of_bodies.is_empty());
    }
}

/// SOP is looked for in front of the bodies alone, EPH behind the header alone.
#[test]
fn where_markers_stand() {
    let packet = read(&[A, 0xff, 0x92], &[&SOP[..], &[0xff, 0x92]].concat(), Markers::BOTH).unwrap();
    assert_eq!((packet.header, packet.packet.taken, packet.packet.sop, packet.packet.eph), (3, 6, Mark::InOrder, Mark::InOrder));
    let packet = read(&[A], &[0xff, 0x92, 1, 2, 3, 4, 5], Markers::BOTH).unwrap();
    assert_eq!((packet.header, packet.packet.taken, packet.packet.sop, packet.packet.eph), (1, 0, Mark::NotFound, Mark::TooFewBytes));
    let packet = read(&[A, 0, 0], &SOP[..5], Markers::BOTH).unwrap();
    assert_eq!((packet.header, packet.packet.taken, packet.packet.sop, packet.packet.eph), (1, 0, Mark::TooFewBytes, Mark::NotFound));
    let packet = read(&[A, 0xff, 0x92], &SOP, Markers::NONE).unwrap();
    assert_eq!((packet.header, packet.packet.taken, packet.packet.sop, packet.packet.eph), (1, 0, Mark::InOrder, Mark::InOrder));
    // What looks like SOP in the headers is a header's bits.
    let plain = Reader::new(&ONE_BLOCK, 0).unwrap().read(&SOP, Markers { sop: false, eph: true }).unwrap();
    let packet = read(&SOP, &SOP, Markers::BOTH).unwrap();
    assert_eq!((told(&packet.packet), packet.header, packet.packet.taken), (told(&plain), plain.taken, 6));
}

/// Only the headers' end counts: whatever the bodies are, the bits past it are those of a read from the stream.
#[test]
fn past_the_headers() {
    let d = [0xff, 0x78, 0x06, 0x40];
    for src in [&[][..], &SOP, &[0; 40]] {
        for markers in ALL {
            let past = (0..=d.len()).map(|bytes| read(&d[..bytes], src, markers).unwrap().packet.bits_past_end);
            assert_eq!(past.collect::<Vec<_>>(), [1, 12, 13, 5, 0]);
        }
    }
}

/// As many records as there are segments are lent, however few there were at first.
#[test]
fn as_many_records_as_there_are() {
    let mut header = vec![0xff, 0x7f, 0xf0];
    header.resize(80, 0);
    let mut reader = Reader::new(&[Band { across: 1, down: 1, planes: 1 }], 0x04).unwrap();
    assert_eq!(reader.read_gathered(&header, &[], Markers::NONE).unwrap().packet.segments.len(), most_segments(0x04));
}

/// The lists that a call on words leaves, with the refusal first.
type Left = (u32, Vec<u32>, Vec<u32>, Vec<u32>, Vec<u32>, Vec<Segment>, Vec<u64>);

/// Lists of these lengths, each filled with 7, but the state.
fn call(state: &[u32], headers: &[u8], [scratch, reports, work, records, answer]: [usize; 5]) -> Left {
    let filled = Segment { block: 7, opens: 7, passes: 7, bytes: 7, start: 7 };
    let (mut state, mut scratch, mut reports) = (state.to_vec(), vec![7; scratch], vec![7; reports]);
    let (mut work, mut records, mut answer) = (vec![7; work], vec![filled; records], vec![7; answer]);
    let number =
        words::read_gathered(&mut state, &mut scratch, headers, &SOP, true, true, &mut reports, &mut work, &mut records, &mut answer);
    (number, state, scratch, reports, work, records, answer)
}

/// 3 for the answer first, then 5, 6, 3, and then the header's own: what each changes.
#[test]
fn refusals_in_order() {
    let fresh = Reader::new(&ONE_BLOCK, 0).unwrap().state().to_vec();
    let (mut damaged, mut last, mut wide) = (fresh.clone(), fresh.clone(), fresh.clone());
    damaged[0] = 1;
    last[3] = 65_535;
    // A pass so far, and length fields of 32 bits: six passes make one of 34.
    wide[3] = 1;
    wide[19..23].copy_from_slice(&[1, 32, 109, 1]);
    let n = fresh.len();
    let untouched = |state: &[u32], [scratch, reports, work, records, answer]: [usize; 5], number, word| {
        let filled = Segment { block: 7, opens: 7, passes: 7, bytes: 7, start: 7 };
        (number, state.to_vec(), vec![7; scratch], vec![7; reports], vec![7; work], vec![filled; records], vec![word; answer])
    };
    for answer in [0, 6, 8] {
        let lists = [n - 1, 3, 3, 1, answer];
        assert_eq!(call(&damaged, &[A], lists), untouched(&damaged, lists, 3, 7));
    }
    for (state, lists, number) in [
        (&damaged, [n, 3, 4, 1, 7], 5),
        (&fresh, [n - 1, 4, 4, 1, 7], 5),
        (&last, [n, 3, 3, 1, 7], 6),
        (&fresh, [n, 3, 4, 1, 7], 3),
        (&fresh, [n, 4, 3, 1, 7], 3),
        (&fresh, [n, 4, 5, 1, 7], 3),
    ] {
        assert_eq!(call(state, &[A], lists), untouched(state, lists, number, 0));
    }
    for (state, headers, records, number) in
        [(&wide, &[0xfc][..], 1, 9), (&fresh, &[0xfe, 0xad, 0xff], 1, 12), (&fresh, &[A], 0, 13), (&wide, &[0xfc], 0, 9)]
    {
        let wiped = (number, state.clone(), vec![0; n], vec![0; 4], vec![0; 4 * records], vec![Segment::default(); records], vec![0; 7]);
        assert_eq!(call(state, headers, [n, 4, 4 * records, records, 7]), wiped);
    }
}
