//! Where a segment's bytes begin in the packet's body.
use tonkelvi::words::{self, Segment};
use tonkelvi::{Band, Contribution, Markers, Reader, Writer};

const ABSENT: [u8; 1] = [0x00];
/// Two blocks of 5 bytes each, SCOPE's packet K.
const TWO_BLOCKS: [u8; 3] = [0xf9, 0x69, 0x40];

/// A length for each pass, no two alike.
fn lengths(counts: &[u32], layer: u32) -> Vec<u32> {
    (0..counts.iter().sum()).map(|pass| 3 + 2 * pass + 40 * layer).collect()
}

/// Passes that each end a segment: the body is filled with the number of the segment that a byte is of.
#[test]
fn bytes_are_found_where_they_begin() {
    let bands = [Band { across: 2, down: 2, planes: 5 }, Band { across: 1, down: 1, planes: 3 }];
    let mut writer = Writer::new(&bands, 0x04, &[5, 4, 3, 5, 3]).unwrap();
    let mut reader = Reader::new(&bands, 0x04).unwrap();
    for (layer, counts) in [[3, 0, 1, 2, 0], [0, 2, 5, 0, 1], [0, 0, 0, 0, 0], [1, 1, 1, 1, 7]].into_iter().enumerate() {
        let lengths = lengths(&counts, layer as u32);
        let body: Vec<u8> = lengths.iter().zip(0u8..).flat_map(|(length, number)| vec![number; *length as usize]).collect();
        let contribution = Contribution { counts: &counts, lengths: &lengths, marks: &vec![1; lengths.len()] };
        let packet = writer.write(contribution, &body, Markers::BOTH, layer as u32).unwrap();
        let read = reader.read(&packet, Markers::BOTH).unwrap();
        assert_eq!(read.segments.len(), lengths.len());
        for (segment, number) in read.segments.iter().zip(0u8..) {
            assert_eq!(segment.start, lengths[..usize::from(number)].iter().map(|length| u64::from(*length)).sum());
            let from = read.taken + segment.start as usize;
            assert_eq!(packet[from..from + segment.bytes as usize], vec![number; segment.bytes as usize]);
        }
    }
}

/// A segment that goes on in the next layer begins at 0 of that packet too.
#[test]
fn each_packet_counts_anew() {
    let bands = [Band { across: 1, down: 1, planes: 9 }];
    let mut writer = Writer::new(&bands, 0, &[9]).unwrap();
    let mut reader = Reader::new(&bands, 0).unwrap();
    let mut marks = vec![0; 110];
    marks[107] = 1;
    for (count, marks, wanted) in [(1, &[0][..], &[(0, true)][..]), (110, &marks, &[(0, false), (216, true)])] {
        let lengths = vec![2; count];
        let layer = Contribution { counts: &[count as u32], lengths: &lengths, marks };
        let packet = writer.write(layer, &vec![0; 2 * count], Markers::NONE, 0).unwrap();
        let read = reader.read(&packet, Markers::NONE).unwrap();
        assert_eq!(read.segments.iter().map(|s| (s.start, s.opens)).collect::<Vec<_>>(), wanted);
    }
}

/// The lists of a read by a fresh reader of two blocks, with other content in each struct.
struct Lent {
    state: Vec<u32>,
    scratch: Vec<u32>,
    reports: Vec<u32>,
    work: Vec<u32>,
    records: Vec<Segment>,
    answer: Vec<u64>,
}

fn old(number: u32) -> Segment {
    Segment { block: 70 + number, opens: 80 + number, passes: 90 + number, bytes: !number, start: !u64::from(number) }
}

impl Lent {
    fn new(style: u8, records: usize) -> Lent {
        let bands = [2, 1, 5, 0, 0, 0, 0, 0, 0];
        let mut state = vec![0; words::state_length(1, &bands)];
        assert_eq!(words::start_reader(1, &bands, style, &[], &mut state), 0);
        let (scratch, records) = (state.clone(), (0..records as u32).map(old).collect::<Vec<_>>());
        Lent { state, scratch, reports: vec![9; 8], work: vec![9; 4 * records.len()], records, answer: vec![9; 6] }
    }

    fn read(&mut self, src: &[u8]) -> u32 {
        let Lent { state, scratch, reports, work, records, answer } = self;
        words::read(state, scratch, src, false, false, reports, work, records, answer)
    }
}

/// Bytes of these bits, seven in a byte after FF.
fn pack(bits: impl IntoIterator<Item = u64>) -> Vec<u8> {
    let mut bytes = vec![0u8];
    let mut left = 8;
    for bit in bits {
        if left == 0 {
            left = if bytes.last() == Some(&0xff) { 7 } else { 8 };
            bytes.push(0);
        }
        left -= 1;
        *bytes.last_mut().unwrap() |= (bit as u8) << left;
    }
    bytes
}

/// The low bits of a number, the highest first.
fn number(value: u64, width: u32) -> impl Iterator<Item = u64> {
    (0..width).rev().map(move |place| value >> place & 1)
}

/// Two blocks without zero planes: five passes each, an increment, and a length field of 32 bits for each pass.
fn header(increments: [usize; 2], lengths: [u32; 10]) -> Vec<u8> {
    let mut bits = vec![1];
    for ((included, increment), lengths) in [&[1, 1, 1, 1][..], &[1, 1]].into_iter().zip(increments).zip(lengths.chunks(5)) {
        bits.extend(included);
        bits.extend([1, 1, 1, 0]);
        bits.extend(vec![1; increment]);
        bits.push(0);
        bits.extend(lengths.iter().flat_map(|length| number(u64::from(*length), 32)));
    }
    pack(bits)
}

#[test]
fn sums_beyond_32_bits() {
    let lengths = [u32::MAX, 1, u32::MAX, 0, u32::MAX - 1, u32::MAX, 1 << 31, u32::MAX, 7, u32::MAX];
    let starts = [
        0,
        0xffff_ffff,
        0x1_0000_0000,
        0x1_ffff_ffff,
        0x1_ffff_ffff,
        0x2_ffff_fffd,
        0x3_ffff_fffc,
        0x4_7fff_fffc,
        0x5_7fff_fffb,
        0x5_8000_0002,
    ];
    let mut lent = Lent::new(0x04, 11);
    assert_eq!(lent.read(&header([29, 29], lengths)), 0);
    assert_eq!(lent.answer[2], 10);
    let wanted = (0..10).map(|i| Segment { block: i / 5, opens: 1, passes: 1, bytes: lengths[i as usize], start: starts[i as usize] });
    assert_eq!(lent.records, wanted.chain([old(10)]).collect::<Vec<_>>());
}

#[test]
fn behind_the_count_nothing_changes() {
    let mut lent = Lent::new(0, 4);
    assert_eq!(lent.read(&TWO_BLOCKS), 0);
    let segment = |block, start| Segment { block, opens: 1, passes: 1, bytes: 5, start };
    assert_eq!(lent.records, [segment(0, 0), segment(1, 5), old(2), old(3)]);
    assert_eq!(lent.read(&ABSENT), 0);
    assert_eq!(lent.records, [segment(0, 0), segment(1, 5), old(2), old(3)]);
}

/// Two blocks of 5 and 255 bytes: the last bits fill a byte FF.
fn ends_in_ff() -> Vec<u8> {
    let first = [1, 1, 1, 1, 1, 0, 0, 1, 0, 1];
    let second = [1, 0, 0, 0, 0, 0, 1, 0, 1, 1, 1, 1, 1, 0];
    pack(first.into_iter().chain(second).chain([1; 8]))
}

#[test]
fn refusals_9_12_and_13_wipe() {
    let (ten, wide, wide_at_once) = (header([29, 29], [5; 10]), header([29, 30], [5; 10]), header([30, 29], [5; 10]));
    let cut = ends_in_ff();
    let reads = [(9, 0x04, 12, &wide[..]), (9, 0x04, 1, &wide_at_once), (12, 0, 3, &cut), (13, 0, 1, &TWO_BLOCKS), (13, 0x04, 9, &ten)];
    for (number, style, records, src) in reads {
        let mut lent = Lent::new(style, records);
        assert_eq!((lent.read(src), lent.records, lent.answer), (number, vec![Segment::default(); records], vec![0; 6]));
    }
    let mut lent = Lent::new(0, 3);
    assert_eq!(lent.read(&[&cut[..], &[0]].concat()), 0);
    assert_eq!((lent.records[1].bytes, lent.records[1].start), (255, 5));
}

type Spoil = fn(&mut Lent);

#[test]
fn refusals_5_6_and_3_change_nothing() {
    let spoils: [(u32, Spoil); 7] = [
        (5, |lent| lent.state[0] = 1),
        (5, |lent| lent.scratch.truncate(38)),
        (6, |lent| lent.state[3] = 65_535),
        (3, |lent| lent.reports.push(9)),
        (3, |lent| lent.work.truncate(15)),
        (3, |lent| lent.answer.push(9)),
        (3, |lent| lent.answer.truncate(5)),
    ];
    for (number, spoil) in spoils {
        let mut lent = Lent::new(0, 4);
        spoil(&mut lent);
        assert_eq!((lent.read(&TWO_BLOCKS), lent.records), (number, (0..4).map(old).collect()));
    }
}
