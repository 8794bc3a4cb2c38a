//! A precinct's packets in order, from a start on: the book of what each read owes (docs/SCOPE.md, the round trip), and a writer and a
//! reader of the crate that take part in every packet. The crate's writer begins each packet with a 1: after packets without passes its
//! trees stand further on than the engine's, up to the next packet with passes.
use crate::inputs::{self, Shape};
use crate::model::Record;
use crate::pair::{same, Counts, Layer, Markers, Reading};

/// What a read of a packet must tell.
struct Entry {
    present: bool,
    reports: Vec<u32>,
    records: Vec<Record>,
}

struct Book {
    style: u32,
    /// Of each block: its band's planes, its own, and its passes so far.
    blocks: Vec<[u32; 3]>,
}

impl Book {
    fn new(shape: &Shape) -> Book {
        let of_bands = shape.bands[..shape.count as usize].iter().flat_map(|band| vec![band[2]; (band[0] * band[1]) as usize]);
        Book { style: shape.style.into(), blocks: of_bands.zip(&shape.planes).map(|(band, own)| [band, *own, 0]).collect() }
    }

    fn entry(&mut self, layer: &Layer) -> Entry {
        let mut entry = Entry { present: !layer.without_passes(), reports: Vec::new(), records: Vec::new() };
        let (mut lengths, mut start) = (layer.lengths.iter(), 0);
        for (number, ([band, own, so_far], count)) in self.blocks.iter_mut().zip(&layer.counts).enumerate() {
            entry.reports.extend(match (*count, *so_far) {
                (0, _) => [0; 4],
                (_, 0) => [1, *band - *own, *own, *count],
                _ => [2, 0, 0, *count],
            });
            for pass in *so_far..*so_far + *count {
                let opens = pass == 0 || inputs::ends_segment(self.style, pass - 1);
                if opens || pass == *so_far {
                    entry.records.push(Record { numbers: [number as u32, u32::from(opens), 0, 0], start });
                }
                let bytes = *lengths.next().unwrap();
                let record = entry.records.last_mut().unwrap();
                record.numbers[2] += 1;
                record.numbers[3] += bytes;
                start += u64::from(bytes);
            }
            *so_far += count;
        }
        entry
    }
}

/// A packet as it was written.
pub struct Written<'a> {
    pub layer: &'a Layer,
    pub markers: Markers,
    pub number: u32,
    pub packet: &'a [u8],
    /// The writer's words after it.
    pub state: &'a [u32],
}

impl Written<'_> {
    fn header(&self) -> usize {
        self.packet.len() - self.layer.body() as usize
    }

    /// The header without its markers.
    fn bits(&self) -> &[u8] {
        let (front, back) = (if self.markers.sop { 6 } else { 0 }, if self.markers.eph { 2 } else { 0 });
        &self.packet[front..self.header() - back]
    }

    fn text(&self) -> String {
        let Written { layer, markers, number, packet, state } = self;
        format!("{layer:?} {markers:?} {number} written as {packet:02x?}, words after it {state:?}")
    }
}

pub struct Follower {
    book: Book,
    /// Marks are as the style ends segments, so that reads give what was written.
    pub matching: bool,
    #[cfg(openjp2)]
    by_crate: by_crate::Both,
}

impl Follower {
    pub fn new(shape: &Shape, matching: bool) -> Follower {
        Follower {
            book: Book::new(shape),
            matching,
            #[cfg(openjp2)]
            by_crate: by_crate::Both::new(shape),
        }
    }

    /// The next packet of the precinct, what the engine's reader told of it, and the reader's words after it.
    pub fn packet(&mut self, counts: &mut Counts, written: &Written, reading: &Reading, reader: &[u32]) {
        if written.layer.without_passes() {
            same("headers without passes", written.bits(), &[0][..], &|| written.text());
        }
        #[cfg(openjp2)]
        self.by_crate.writes(counts, written);
        if !self.matching {
            return;
        }
        let (entry, text) = (self.book.entry(written.layer), || written.text());
        let answer = [u64::from(entry.present), written.header() as u64, entry.records.len() as u64, 0, 0, 0];
        same("numbers of the read", &reading.number, &0, &text);
        same("answers of the read", &reading.answer[..], &answer[..], &text);
        same("reports of the read", &reading.reports, &entry.reports, &text);
        same("records of the read", &reading.records, &entry.records, &text);
        counts.in_order += 1;
        counts.in_order_empty += u64::from(!entry.present);
        #[cfg(openjp2)]
        self.by_crate.reads(counts, written, (&answer[..5], &entry.reports, &entry.records), reader);
        #[cfg(not(openjp2))]
        let _ = reader;
    }
}

#[cfg(openjp2)]
mod by_crate {
    use super::*;
    use crate::model::{self, NOT_YET_INCLUDED};
    use crate::openjp2::t2::precinct::Precinct;
    use crate::pair::CRATE_LAYERS;

    pub struct Both {
        writer: Precinct,
        reader: Precinct,
        /// Packets without passes since the last one with passes.
        empty: u64,
    }

    impl Both {
        pub fn new(shape: &Shape) -> Both {
            let bands = &shape.bands[..shape.count as usize];
            Both {
                writer: Precinct::started(true, bands, shape.style.into(), &shape.planes, true),
                reader: Precinct::started(false, bands, shape.style.into(), &[], true),
                empty: 0,
            }
        }

        pub fn writes(&mut self, counts: &mut Counts, written: &Written) {
            let Written { layer, markers, number, packet, state } = *written;
            if state[3] > CRATE_LAYERS {
                return;
            }
            let text = || written.text();
            let mut output = vec![0; packet.len() + 8 * state.len()];
            self.writer.give(&layer.counts, &layer.lengths, &layer.marks, Some(&packet[written.header()..]));
            let bytes = self.writer.write(markers.sop, markers.eph, number, &mut output).expect("room for the crate's packet");
            if layer.without_passes() {
                self.empty += 1;
                let (front, back) = (if markers.sop { 6 } else { 0 }, if markers.eph { 2 } else { 0 });
                let header = &output[front..bytes - back];
                same("first bytes of the crate's packet without passes", &header[0], &0x80, &text);
                same("its other bytes", &header[1..].iter().any(|byte| *byte != 0), &false, &text);
                same("words after it, told as far as the layer", &told_so_far(state), &self.writer.words(), &text);
                return;
            }
            same("states of the crate's writer", state, &self.writer.words()[..], &text);
            counts.states_with_crate += 1;
            counts.states_after_empty += u64::from(self.empty > 0);
            if self.empty == 0 {
                same("bytes of the crate's writer", packet, &output[..bytes], &text);
                counts.bytes_with_crate += bytes as u64;
            }
            self.empty = 0;
        }

        pub fn reads(&mut self, counts: &mut Counts, written: &Written, told: (&[u64], &[u32], &[Record]), reader: &[u32]) {
            if written.state[3] > CRATE_LAYERS {
                return;
            }
            let (text, (answer, reports, records)) = (|| written.text(), told);
            let src = if written.number % 2 == 0 { written.packet } else { &written.packet[..written.header()] };
            let theirs = self.reader.read(written.markers.sop, written.markers.eph, src).expect("a packet that the crate reads");
            same("answers of the crate's reader", answer, &theirs.answer[..], &text);
            same("reports of the crate's reader", reports, &theirs.reports[..], &text);
            same("records of the crate's reader", records, &theirs.records()[..], &text);
            same("states of the crate's reader", reader, &self.reader.words()[..], &text);
            counts.read_by_crate += 1;
            counts.empty_by_crate += u64::from(written.layer.without_passes());
        }
    }

    /// A writer's words, with every node of the inclusion trees that is not told known to lie behind the packets so far.
    fn told_so_far(state: &[u32]) -> Vec<u32> {
        let mut words = state.to_vec();
        for p in &model::layout(&model::bands_of(state)).0 {
            for node in words[p.inclusion..p.zero_planes].chunks_exact_mut(3).filter(|node| node[0] == NOT_YET_INCLUDED) {
                node[1] = state[3];
            }
        }
        words
    }
}
