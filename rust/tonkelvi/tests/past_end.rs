//! Bits that a header takes past the end of the input.
use tonkelvi::words::{self, Segment};
use tonkelvi::{Band, Block, Contribution, Mark, Markers, Packet, Reader, Refusal, Writer};

const ONE_BLOCK: [Band; 1] = [Band { across: 1, down: 1, planes: 5 }];
/// 37 passes of 200 bytes, SCOPE's packet D.
const D: [u8; 4] = [0xff, 0x78, 0x06, 0x40];
const SOP: [u8; 6] = [0xff, 0x91, 0, 4, 0, 0xff];

/// What a fresh reader of one block tells.
fn read(src: &[u8], markers: Markers) -> Result<Packet, Refusal> {
    Reader::new(&ONE_BLOCK, 0).unwrap().read(src, markers)
}

fn past(src: &[u8]) -> u64 {
    read(src, Markers::NONE).unwrap().bits_past_end
}

#[test]
fn no_bytes() {
    let packet = read(&[], Markers::NONE).unwrap();
    assert_eq!((packet.present, packet.taken, packet.bits_past_end), (false, 0, 1));
    assert_eq!(past(&[0x00]), 0);
    let packet = read(&[], Markers::BOTH).unwrap();
    assert_eq!((packet.sop, packet.eph, packet.bits_past_end), (Mark::TooFewBytes, Mark::TooFewBytes, 1));
}

/// The last byte of SOP is no byte of the header, whatever it is.
#[test]
fn sop_and_nothing_behind_it() {
    let packet = read(&SOP, Markers::BOTH).unwrap();
    assert_eq!((packet.present, packet.taken, packet.sop, packet.bits_past_end), (false, 6, Mark::InOrder, 1));
}

/// Behind FF the first byte past the end brings seven bits.
#[test]
fn packet_d_cut() {
    let cuts: Vec<u64> = (0..=D.len()).map(|bytes| past(&D[..bytes])).collect();
    assert_eq!(cuts, [1, 12, 13, 5, 0]);
    let marked = Markers { sop: true, eph: true };
    for (bytes, wanted) in cuts.into_iter().enumerate() {
        let packet = read(&[&SOP[..], &D[..bytes]].concat(), marked).unwrap();
        assert_eq!((packet.bits_past_end, packet.taken, packet.eph), (wanted, 6 + bytes, Mark::TooFewBytes));
    }
}

#[test]
fn zero_planes_cut() {
    let packet = read(&[0xc0], Markers::NONE).unwrap();
    assert_eq!((packet.bits_past_end, packet.taken), (998, 1));
    assert!(matches!(packet.blocks[..], [Block::First { zero_planes: 999, passes: 1, .. }]));
}

/// The byte that is taken along behind FF has no bits: without it the read is refused.
#[test]
fn a_last_ff() {
    let header = [0xfe, 0xad, 0xff, 0x00];
    assert_eq!((past(&header), past(&header[..2])), (0, 8));
    assert_eq!(read(&header[..3], Markers::NONE), Err(Refusal::HeaderEnd));
}

/// Packets of four blocks, each with its reader before it and the bytes of its header: passes of each block, and each pass's bytes.
fn written() -> Vec<(Reader, Vec<u8>, usize)> {
    let layers = [([1, 0, 0, 0], 5), ([0, 0, 0, 0], 0), ([2, 0, 37, 0], 300), ([0, 1, 0, 16], 511), ([5, 3, 1, 7], 700), ([0, 0, 0, 1], 0)];
    let bands = [Band { across: 2, down: 2, planes: 9 }];
    let (mut writer, mut reader) = (Writer::new(&bands, 0, &[9, 3, 8, 0]).unwrap(), Reader::new(&bands, 0).unwrap());
    let mut packet = |(counts, bytes): ([u32; 4], u32)| {
        let passes = counts.iter().sum::<u32>() as usize;
        let layer = Contribution { counts: &counts, lengths: &vec![bytes; passes], marks: &vec![0; passes] };
        let body = vec![7; bytes as usize * passes];
        let packet = writer.write(layer, &body, Markers::NONE, 0).unwrap();
        let before = reader.clone();
        reader.read(&packet, Markers::NONE).unwrap();
        let header = packet.len() - body.len();
        (before, packet, header)
    };
    layers.into_iter().map(&mut packet).collect()
}

/// A cut packet counts 0 exactly where the cut is not shorter than what the header's bits need. Where it lacks the byte behind a last FF
/// alone, it is refused.
#[test]
fn every_cut_of_written_packets() {
    for (reader, packet, header) in written() {
        for cut in 0..=packet.len() {
            match reader.clone().read(&packet[..cut], Markers::NONE) {
                Ok(read) => assert_eq!((read.bits_past_end == 0, read.taken), (cut >= header, cut.min(header)), "{cut}"),
                Err(refusal) => assert_eq!((refusal, packet[cut - 1], cut + 1), (Refusal::HeaderEnd, 0xff, header)),
            }
        }
    }
}

/// The bits of so many bytes: eight in each, seven in one behind FF.
fn bits_in(bytes: &[u8]) -> u64 {
    (0..bytes.len()).map(|at| if at > 0 && bytes[at - 1] == 0xff { 7 } else { 8 }).sum()
}

/// With zeros behind, a cut header is read the same: its bits end in the last byte taken, and are those in the cut and those counted.
#[test]
fn as_many_as_zeros_are_taken() {
    for (reader, packet, header) in written() {
        for cut in 0..header {
            let Ok(read) = reader.clone().read(&packet[..cut], Markers::NONE) else { continue };
            let longer = [&packet[..cut], &[0; 2000]].concat();
            let with_zeros = reader.clone().read(&longer, Markers::NONE).unwrap();
            assert_eq!((with_zeros.bits_past_end, &with_zeros.blocks), (0, &read.blocks));
            let bits = bits_in(&packet[..cut]) + read.bits_past_end;
            let (before_last, all) = (bits_in(&longer[..with_zeros.taken - 1]), bits_in(&longer[..with_zeros.taken]));
            assert!(before_last < bits && bits <= all, "cut to {cut}: {bits} bits of {all}");
        }
    }
}

/// Refused under 3, whatever else is asked: no list changes.
#[test]
fn answers_of_another_length() {
    let fresh = Reader::new(&ONE_BLOCK, 0).unwrap().state().to_vec();
    let record = Segment { block: 7, opens: 7, passes: 7, bytes: 7, start: 7 };
    for length in [0, 1, 4, 5, 7, 12] {
        for src in [&D[..], &D[..2], &[0xfe, 0xad, 0xff]] {
            let (mut state, mut scratch, mut reports) = (fresh.clone(), vec![7; fresh.len()], [7; 4]);
            let (mut work, mut records, mut answer) = ([7; 4], [record], vec![7; length]);
            let number = words::read(&mut state, &mut scratch, src, false, false, &mut reports, &mut work, &mut records, &mut answer);
            assert_eq!((number, &state, reports, work, records), (3, &fresh, [7; 4], [7; 4], [record]));
            assert_eq!((scratch, answer), (vec![7; fresh.len()], vec![7; length]));
        }
    }
}

/// 9, 12 and 13 behind bits past the end tell none.
#[test]
fn refusals_count_nothing() {
    let mut wide = Reader::new(&ONE_BLOCK, 0).unwrap().state().to_vec();
    // A pass so far, and length fields of 32 bits: six passes make one of 34.
    wide[3] = 1;
    wide[19..23].copy_from_slice(&[1, 32, 109, 1]);
    let fresh = Reader::new(&ONE_BLOCK, 0).unwrap().state().to_vec();
    for (number, state, src, room) in [(9, &wide, &[0xfc][..], 1), (12, &fresh, &[0xfe, 0xad, 0xff], 1), (13, &fresh, &[0xef], 0)] {
        let (mut state, mut scratch, mut reports) = (state.clone(), vec![7; fresh.len()], [7; 4]);
        let (mut work, mut records, mut answer) = (vec![7; 4 * room], vec![Segment::default(); room], [7; 6]);
        let given = words::read(&mut state, &mut scratch, src, false, false, &mut reports, &mut work, &mut records, &mut answer);
        assert_eq!((given, answer), (number, [0; 6]));
    }
}

/// More input changes nothing that was told with no bit past the end, but where a marker had too few bytes.
#[test]
fn more_input() {
    let more = [0xff, 0x92, 0xff, 0x00, 0xa5];
    for src in [&D[..], &[0xe5], &[0x00], &[0xfe, 0xad, 0xff, 0x00]] {
        let packet = read(src, Markers::NONE).unwrap();
        assert_eq!(packet.bits_past_end, 0);
        assert_eq!(read(&[src, &more].concat(), Markers::NONE).unwrap(), packet);
        let eph = Markers { sop: false, eph: true };
        let (short, longer) = (read(src, eph).unwrap(), read(&[src, &more].concat(), eph).unwrap());
        assert_eq!((short.eph, longer.eph, longer.taken), (Mark::TooFewBytes, Mark::InOrder, short.taken + 2));
    }
}
