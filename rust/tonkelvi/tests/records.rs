//! How many records are always enough (include/tonkelvi.h), by counting.
use tonkelvi::{most_segments, Band, Block, Markers, Reader};

/// The passes of segment `i` of a block, over all layers.
fn segment_passes(style: u32, i: usize) -> usize {
    match (style & 0x04 != 0, style & 0x01 != 0) {
        (true, _) => 1,
        (false, false) => 109,
        (false, true) if i == 0 => 10,
        (false, true) => 2 - (i + 1) % 2,
    }
}

/// The segments that 164 passes touch, `before` passes after the block's first.
fn touched(style: u32, before: usize) -> usize {
    let ends = (0..).scan(0, |end, i| {
        *end += segment_passes(style, i);
        Some(*end)
    });
    let (first, last) = (before + 1, before + 164);
    ends.skip_while(|end| *end < first).take_while(|end| *end < last).count() + 1
}

#[test]
fn always_enough_and_no_fewer() {
    for (style, most) in [(0, 3), (0x01, 110), (0x04, 164), (0x05, 164)] {
        assert_eq!((0..3000).map(|before| touched(style, before)).max(), Some(most));
        assert_eq!(most_segments(style), most);
    }
}

/// A block's 164 passes, each a segment, from a reader that has lent fewer records at first.
#[test]
fn as_many_as_there_are() {
    let mut reader = Reader::new(&[Band { across: 1, down: 1, planes: 1 }], 0x04).unwrap();
    let mut header = vec![0xff, 0x7f, 0xf0];
    header.resize(80, 0);
    let packet = reader.read(&header, Markers::NONE).unwrap();
    assert_eq!(packet.blocks, [Block::First { zero_planes: 0, planes: 1, passes: 164 }]);
    assert_eq!((packet.segments.len(), reader.blocks(), reader.next_layer()), (164, 1, 1));
}
