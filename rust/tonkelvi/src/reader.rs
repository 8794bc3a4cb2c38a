//! Reading packet headers.
use crate::refusal::checked;
use crate::{band_words, described, words, Band, Markers, Refusal, READER};

/// How a marker was found.
#[derive(Clone, Copy, PartialEq, Eq, Debug)]
pub enum Mark {
    /// In order, or not used.
    InOrder,
    /// Too few bytes were left for it.
    TooFewBytes,
    /// Other bytes stand in its place.
    NotFound,
}

/// What a packet says of one block.
#[derive(Clone, Copy, PartialEq, Eq, Debug)]
pub enum Block {
    Absent,
    First { zero_planes: u32, planes: u32, passes: u32 },
    Again { passes: u32 },
}

/// A segment, or the part of one that this packet brings.
#[derive(Clone, Copy, PartialEq, Eq, Debug)]
pub struct Segment {
    pub block: usize,
    /// Its first pass is in this packet.
    pub opens: bool,
    pub passes: u32,
    pub bytes: u32,
    /// Bytes of the packet's body before its own: the sum of `bytes` of the segments before. Markers and header are not counted.
    pub start: u64,
}

/// What a packet's header says.
#[derive(Clone, PartialEq, Eq, Debug)]
pub struct Packet {
    /// The header's first bit is 1. A writer's packet has it where a block contributes.
    pub present: bool,
    /// Bytes of header and markers: the body begins after them.
    pub taken: usize,
    pub sop: Mark,
    pub eph: Mark,
    /// Bits of the header that were taken past the end of the input, where each is 0; stuffed bits are not counted. Unless it is 0 the
    /// header is cut off, and what it seems to say is in part made up. If it is 0, more input changes nothing that is told here, but where
    /// a marker had too few bytes.
    pub bits_past_end: u64,
    /// One for each block, band by band and row by row.
    pub blocks: Vec<Block>,
    pub segments: Vec<Segment>,
}

/// A packet whose header was read from gathered headers.
#[derive(Clone, PartialEq, Eq, Debug)]
pub struct Gathered {
    /// Bytes of the headers, with EPH: the next header begins after them.
    pub header: usize,
    /// What the header says. Its `taken` counts bytes of `src` alone, SOP or none: the body begins after them. Its `bits_past_end` lay past
    /// the end of the headers.
    pub packet: Packet,
}

impl Packet {
    /// The bytes of the body, by the segments' lengths.
    pub fn body(&self) -> u64 {
        self.segments.iter().map(|s| u64::from(s.bytes)).sum()
    }
}

/// A reader of one precinct's packet headers, the next layer at each call. A refused call leaves it as it was.
///
/// ```
/// use tonkelvi::{Band, Block, Mark, Markers, Reader, Refusal};
///
/// let mut reader = Reader::new(&[Band { across: 1, down: 1, planes: 5 }], 0)?;
/// assert_eq!(reader.read(&[0xfe, 0xad, 0xff], Markers::NONE), Err(Refusal::HeaderEnd));
/// let packet = reader.read(&[0xfe, 0xad, 0xff, 0x00], Markers { sop: false, eph: true })?;
/// assert_eq!((packet.taken, packet.eph), (4, Mark::TooFewBytes));
/// assert_eq!(packet.blocks, [Block::First { zero_planes: 0, planes: 5, passes: 16 }]);
/// assert_eq!((packet.body(), packet.bits_past_end), (511, 0));
/// let cut = Reader::new(&[Band { across: 1, down: 1, planes: 5 }], 0)?.read(&[0xfe, 0xad], Markers::NONE)?;
/// assert_eq!((cut.body(), cut.bits_past_end), (256, 8));
/// # Ok::<(), Refusal>(())
/// ```
#[derive(Clone, PartialEq, Eq, Debug)]
pub struct Reader {
    state: Vec<u32>,
    scratch: Vec<u32>,
    reports: Vec<u32>,
    /// The engine's work list, four words for each record.
    work: Vec<u32>,
    records: Vec<words::Segment>,
}

/// Records for each block that are always enough for one packet, by the style: 164 passes touch at most 3 segments of 109 passes, 110 of
/// the segments of 10, 2, 1, 2, 1 and so on, and 164 of one pass.
pub fn most_segments(style: u32) -> usize {
    match (style & 0x04 != 0, style & 0x01 != 0) {
        (true, _) => 164,
        (false, true) => 110,
        (false, false) => 3,
    }
}

impl Reader {
    /// A reader at layer 0.
    pub fn new(bands: &[Band], style: u8) -> Result<Reader, Refusal> {
        let (count, bands) = band_words(bands);
        let mut state = vec![0; words::state_length(count, &bands)];
        checked(words::start_reader(count, &bands, style, &[], &mut state))?;
        Reader::from_state(state)
    }

    /// A reader that goes on from a state kept earlier; refused unless that is a reader's in range.
    pub fn from_state(state: Vec<u32>) -> Result<Reader, Refusal> {
        let (_, blocks) = described(&state, READER)?;
        let mut reader =
            Reader { scratch: vec![0; state.len()], state, reports: vec![0; 4 * blocks], work: Vec::new(), records: Vec::new() };
        reader.lend(most_segments(0) * blocks);
        Ok(reader)
    }

    /// The state's words.
    pub fn state(&self) -> &[u32] {
        &self.state
    }

    /// Takes up a state as long, in range and of the same bands.
    pub(crate) fn go_on_from(&mut self, state: &[u32]) {
        self.state.copy_from_slice(state);
    }

    /// The layer that the next packet is of.
    pub fn next_layer(&self) -> u32 {
        self.described().0
    }

    /// The number of blocks.
    pub fn blocks(&self) -> usize {
        self.described().1
    }

    fn described(&self) -> (u32, usize) {
        described(&self.state, READER).expect("a start or from_state has filled it, and calls keep it in range")
    }

    /// Reads the next packet's header from the front of `src`.
    pub fn read(&mut self, src: &[u8], markers: Markers) -> Result<Packet, Refusal> {
        let mut answer = [0; 6];
        self.lending(|Reader { state, scratch, reports, work, records }| {
            words::read(state, scratch, src, markers.sop, markers.eph, reports, work, records, &mut answer)
        })?;
        Ok(self.packet(answer))
    }

    /// Reads the next packet's header, and EPH behind it, from the front of `headers`, and SOP from the front of `src`, where the body
    /// stands behind it: for headers gathered in front of the bodies (T.800, A.7.4 and A.7.5). `headers` has them one behind another, without
    /// the marker segments around them.
    ///
    /// ```
    /// use tonkelvi::{Band, Mark, Markers, Reader, Refusal};
    ///
    /// let mut reader = Reader::new(&[Band { across: 1, down: 1, planes: 5 }], 0)?;
    /// let read = reader.read_gathered(&[0xe5, 0xff, 0x92, 0x00], b"\xff\x91\x00\x04\x00\x00hello", Markers::BOTH)?;
    /// assert_eq!((read.header, read.packet.taken, read.packet.body()), (3, 6, 5));
    /// assert_eq!((read.packet.sop, read.packet.eph, read.packet.bits_past_end), (Mark::InOrder, Mark::InOrder, 0));
    /// # Ok::<(), Refusal>(())
    /// ```
    pub fn read_gathered(&mut self, headers: &[u8], src: &[u8], Markers { sop, eph }: Markers) -> Result<Gathered, Refusal> {
        let mut answer = [0; 7];
        self.lending(|Reader { state, scratch, reports, work, records }| {
            words::read_gathered(state, scratch, headers, src, sop, eph, reports, work, records, &mut answer)
        })?;
        let [present, header, taken, segments, sop, eph, past] = answer;
        Ok(Gathered { header: header as usize, packet: self.packet([present, taken, segments, sop, eph, past]) })
    }

    /// A reading call, again with as many records as are always enough where it was lent too few.
    fn lending(&mut self, mut call: impl FnMut(&mut Reader) -> u32) -> Result<(), Refusal> {
        loop {
            match checked(call(self)) {
                Err(Refusal::Records) if self.lend_more() => {}
                done => return done,
            }
        }
    }

    /// Lends as many records as are always enough; false if there were so many already.
    fn lend_more(&mut self) -> bool {
        let most = self.reports.len() / 4 * most_segments(self.state[2]);
        let grows = self.records.len() < most;
        self.lend(most);
        grows
    }

    fn lend(&mut self, records: usize) {
        self.records.resize(records, words::Segment::default());
        self.work.resize(4 * records, 0);
    }

    fn packet(&self, [present, taken, segments, sop, eph, bits_past_end]: [u64; 6]) -> Packet {
        Packet {
            present: present != 0,
            taken: taken as usize,
            sop: mark(sop),
            eph: mark(eph),
            bits_past_end,
            blocks: self.reports.chunks_exact(4).map(block).collect(),
            segments: self.records.iter().take(segments as usize).map(segment).collect(),
        }
    }
}

fn mark(word: u64) -> Mark {
    match word {
        0 => Mark::InOrder,
        1 => Mark::TooFewBytes,
        _ => Mark::NotFound,
    }
}

fn block(row: &[u32]) -> Block {
    match row[0] {
        0 => Block::Absent,
        1 => Block::First { zero_planes: row[1], planes: row[2], passes: row[3] },
        _ => Block::Again { passes: row[3] },
    }
}

fn segment(record: &words::Segment) -> Segment {
    let words::Segment { block, opens, passes, bytes, start } = *record;
    Segment { block: block as usize, opens: opens != 0, passes, bytes, start }
}
