//! Moves the packet headers of a whole file into PPT marker segments, or from PPT or PPM back in front of the bodies (T.800, A.7).
use crate::boxes;
use crate::lengths::{self, Length};
use crate::markers;
use crate::message::Message;
use crate::rows;
use crate::walk::{Note, Opened, Seen, TilePart, Visitor};
use std::collections::{BTreeMap, VecDeque};
use std::ops::Range;
use tonkelvi::{Band, HeadersInFront, Mark, Markers, Reader, Refusal};

/// Which way headers go.
#[derive(Clone, Copy, PartialEq, Eq, Debug)]
pub enum Way {
    Gather,
    Spread,
}

/// A file with its headers moved, how many of them, and how many tile-parts had any.
#[derive(Clone, PartialEq, Eq, Debug, Default)]
pub struct Moved {
    pub file: Vec<u8>,
    pub packets: u64,
    pub tile_parts: u64,
    pub header_bytes: u64,
}

/// The file with all its packet headers moved; the error says what is wrong with it, or what stands in the way.
pub fn moved(file: &[u8], way: Way) -> Result<Moved, Note> {
    let mut plan = Plan::default();
    rows::visit(file, &mut plan);
    if let Some(fault) = plan.fault {
        return Err(fault);
    }
    let found = boxes::codestreams(file).expect("visited").streams;
    if let Some(at) = boxes::holds_places(file, &found) {
        return Err(of_file(at, Message::Uncorrected));
    }
    let (mut all, mut streams) = (Moved::default(), Vec::new());
    for (range, stream) in found.iter().zip(&plan.streams) {
        streams.push(Moving::new(file, range.clone(), stream, way)?.stream(&mut all)?);
    }
    if all.tile_parts == 0 && way == Way::Spread {
        return Err(of_file(0, Message::NotGathered));
    }
    all.file = boxes::with_streams(file, &streams).ok_or(of_file(0, Message::Narrow))?;
    Ok(all)
}

fn of_file(offset: usize, message: Message) -> Note {
    Note { tile: None, turn: None, offset, message }
}

// ---- what the walk finds

/// Tile-parts and precincts of a file, and a fault in it.
#[derive(Default)]
struct Plan {
    streams: Vec<Stream>,
    fault: Option<Note>,
}

#[derive(Default)]
struct Stream {
    start: usize,
    parts: Vec<Part>,
    /// The precincts of each tile, by their places, where a packet was read.
    precincts: BTreeMap<u32, Vec<Option<Shape>>>,
}

struct Shape {
    bands: Vec<Band>,
    style: u8,
}

struct Part {
    tile: u32,
    header: Range<usize>,
    data: Range<usize>,
    markers: Markers,
    packets: Vec<Packet>,
}

impl Part {
    /// How many PPT segments its headers fill.
    fn segments(&self) -> usize {
        self.packets.iter().map(|packet| packet.header).sum::<usize>().div_ceil(SEGMENT_BYTES)
    }
}

struct Packet {
    place: usize,
    packed: bool,
    /// Its bytes in the data, and those of its header with EPH.
    bytes: usize,
    header: usize,
}

impl Packet {
    /// Its bytes in the data, before and after the move.
    fn length(&self, way: Way) -> Length {
        let becomes = match way {
            Way::Gather => self.bytes - self.header,
            Way::Spread => self.bytes + self.header,
        };
        Length { is: self.bytes, becomes }
    }
}

impl Plan {
    /// Keeps the first fault, but that a file is cut off before any other: it is why others are there.
    fn say(&mut self, note: Note) {
        let earlier = self.fault.filter(|fault| fault.message == Message::Cut || note.message != Message::Cut);
        if note.message.is_fault() {
            self.fault = earlier.or(Some(note));
        }
    }
}

impl Visitor for Plan {
    fn tile_part(&mut self, part: &TilePart) {
        if self.streams.last().map(|stream| stream.start) != Some(part.stream) {
            self.streams.push(Stream { start: part.stream, ..Stream::default() });
        }
        let (tile, header, data) = (part.tile, part.header.clone(), part.data.clone());
        let parts = self.streams.last_mut().map(|stream| &mut stream.parts).expect("pushed above");
        parts.push(Part { tile, header, data, markers: Markers::NONE, packets: Vec::new() });
    }

    fn packet(&mut self, seen: &Seen) {
        if let Some(message) = seen.message {
            self.say(Note { tile: Some(seen.tile), turn: Some((seen.precinct, seen.layer)), offset: seen.offset, message });
        }
        let packed = seen.packed.is_some();
        let sop = if !packed && seen.markers.sop && seen.packet.sop == Mark::InOrder { 6 } else { 0 };
        let packet = Packet { place: seen.place, packed, bytes: seen.bytes.len(), header: seen.packet.taken - sop };
        let part = self.streams.last_mut().and_then(|stream| stream.parts.last_mut()).expect("a packet is of a tile-part");
        part.markers = seen.markers;
        part.packets.push(packet);
    }

    fn note(&mut self, note: Note) {
        self.say(note);
    }

    fn tile_end(&mut self, tile: u32, precincts: &[Option<Box<Opened>>]) {
        let shape = |opened: &Opened| Shape { bands: opened.bands.clone(), style: opened.style };
        let stream = self.streams.last_mut().expect("a tile has a tile-part");
        stream.precincts.insert(tile, precincts.iter().map(|opened| opened.as_deref().map(shape)).collect());
    }
}

// ---- marker segments

/// What is wrong, and where in the file.
type Fault = (usize, Message);

/// A marker segment: its bytes, from the marker on, and where they stand in the file.
#[derive(Clone, Copy)]
struct Segment<'a> {
    marker: u16,
    at: usize,
    bytes: &'a [u8],
}

impl<'a> Segment<'a> {
    fn content(&self) -> &'a [u8] {
        self.bytes.get(4..).unwrap_or_default()
    }
}

/// The marker segments of a header as the walk has read it. SOC at its start, SOD at its end, and FF30 to FF3F stand alone.
fn segments(file: &[u8], header: Range<usize>) -> Vec<Segment<'_>> {
    let (mut list, mut at) = (Vec::new(), header.start);
    while at + 2 <= header.end {
        let two = |at: usize| u16::from(file[at]) << 8 | u16::from(file[at + 1]);
        let marker = two(at);
        let length = match marker {
            markers::SOC if at == header.start => 2,
            markers::SOD if at + 2 == header.end => 2,
            0xff30..=0xff3f => 2,
            _ => 2 + usize::from(two(at + 2)),
        };
        list.push(Segment { marker, at, bytes: &file[at..at + length] });
        at += length;
    }
    list
}

/// A marker segment with other content.
fn with_content(marker: u16, content: &[u8]) -> Vec<u8> {
    [&marker.to_be_bytes(), &(content.len() as u16 + 2).to_be_bytes(), content].concat()
}

/// Whether a segment holds lengths or checksums that are not corrected: PLM, and those of T.807 and T.810, SEC to RED.
fn is_uncorrected(marker: u16) -> bool {
    marker == markers::PLM || (0xff65..=0xff69).contains(&marker)
}

/// The contents of the segments with this marker, changed, to be put in their place.
fn changed<'a>(
    segments: &[Segment<'a>],
    marker: u16,
    change: impl FnOnce(&[&'a [u8]]) -> Result<Vec<Vec<u8>>, Message>,
) -> Result<VecDeque<Vec<u8>>, Fault> {
    let own: Vec<Segment> = segments.iter().filter(|segment| segment.marker == marker).copied().collect();
    let contents: Vec<&[u8]> = own.iter().map(Segment::content).collect();
    let made = change(&contents).map_err(|message| (own.first().map_or(0, |segment| segment.at), message))?;
    Ok(made.iter().map(|content| with_content(marker, content)).collect())
}

// ---- PPT

/// Header bytes in a PPT segment that is full, and the bytes before them.
const SEGMENT_BYTES: usize = 65_532;
const SEGMENT_FRONT: usize = 5;
/// Where the index stands.
const INDEX: usize = 4;
const MOST_SEGMENTS: usize = 256;

/// Header bytes in PPT segments, for the move back.
fn in_segments(headers: &[u8]) -> Result<Vec<u8>, Refusal> {
    let parts = headers.chunks(SEGMENT_BYTES).enumerate();
    if parts.len() > MOST_SEGMENTS {
        return Err(Refusal::Segments);
    }
    Ok(parts.flat_map(|(index, part)| with_content(markers::PPT, &[&[index as u8], part].concat())).collect())
}

/// PPT segments of a tile-part with their indexes from `first` on.
fn with_indexes_from(first: usize, mut segments: Vec<u8>) -> Vec<u8> {
    for (count, segment) in segments.chunks_mut(SEGMENT_FRONT + SEGMENT_BYTES).enumerate() {
        segment[INDEX] = (first + count) as u8;
    }
    segments
}

/// The PPT segments of one tile-part header behind one another, with their indexes from 0 on.
fn with_indexes_from_0(segments: &[Segment]) -> Result<Vec<u8>, Refusal> {
    let first = segments.first().map_or(0, |segment| segment.bytes[INDEX]);
    let mut joined = Vec::new();
    for segment in segments {
        let index = segment.bytes[INDEX].checked_sub(first).ok_or(Refusal::Packed)?;
        joined.extend([&segment.bytes[..INDEX], &[index], &segment.bytes[INDEX + 1..]].concat());
    }
    Ok(joined)
}

// ---- the move

/// A codestream whose headers are being moved.
struct Moving<'a> {
    file: &'a [u8],
    range: Range<usize>,
    stream: &'a Stream,
    way: Way,
    main: Vec<Segment<'a>>,
    /// The headers of each tile-part that PPM has, if it is used.
    packed: Option<VecDeque<Vec<u8>>>,
    /// The lengths of each tile's packets.
    lengths: BTreeMap<u32, Vec<Length>>,
    tiles: BTreeMap<u32, Tile>,
}

/// A tile whose tile-parts are being moved.
#[derive(Default)]
struct Tile {
    /// The readers of its precincts, by their places, behind the packets so far.
    readers: BTreeMap<usize, Reader>,
    /// The PPT segments of all its tile-parts, and of those so far.
    segments: Option<usize>,
    index: usize,
    /// Its packets so far, and how many packets PLT has told the lengths of.
    packets: usize,
    told: usize,
    /// Whether its packets' headers are packed.
    packed: Option<bool>,
}

impl<'a> Moving<'a> {
    fn new(file: &'a [u8], range: Range<usize>, stream: &'a Stream, way: Way) -> Result<Moving<'a>, Note> {
        let first = stream.parts.first().map_or(range.start, |part| part.header.start);
        let main = segments(file, range.start..first);
        let mut moving = Moving { file, range, stream, way, main, packed: None, lengths: BTreeMap::new(), tiles: BTreeMap::new() };
        moving.turn_away()?;
        moving.packed = moving.headers_of_ppm()?;
        for part in &stream.parts {
            moving.lengths.entry(part.tile).or_default().extend(part.packets.iter().map(|packet| packet.length(way)));
        }
        Ok(moving)
    }

    /// No marker segment stands in the way, and none that is to be corrected in the wrong header.
    fn turn_away(&self) -> Result<(), Note> {
        self.turn_away_any(&self.main, [markers::PLT, markers::PPT])?;
        let mut parts = self.stream.parts.iter().map(|part| segments(self.file, part.header.clone()));
        parts.try_for_each(|list| self.turn_away_any(&list, [markers::TLM, markers::PPM]))
    }

    fn turn_away_any(&self, list: &[Segment], misplaced: [u16; 2]) -> Result<(), Note> {
        for segment in list {
            let message = match segment.marker {
                markers::PPM | markers::PPT if self.way == Way::Gather => Message::AlreadyGathered,
                marker if is_uncorrected(marker) => Message::Uncorrected,
                marker if misplaced.contains(&marker) => Message::Damaged,
                _ => continue,
            };
            return Err(of_file(segment.at, message));
        }
        Ok(())
    }

    /// The headers of the tile-parts, one after another, that the main header's PPM has.
    fn headers_of_ppm(&self) -> Result<Option<VecDeque<Vec<u8>>>, Note> {
        let own = self.main.iter().filter(|segment| segment.marker == markers::PPM);
        let Some(first) = own.clone().next() else { return Ok(None) };
        let contents = own.map(|segment| (segment.bytes[INDEX], segment.bytes[INDEX + 1..].to_vec()));
        let parts = markers::packed_by_part(contents.collect());
        let fits = |parts: &VecDeque<Vec<u8>>| parts.iter().skip(self.stream.parts.len()).all(Vec::is_empty);
        parts.filter(fits).map(Some).ok_or(of_file(first.at, Message::Damaged))
    }

    /// The codestream with its headers moved.
    fn stream(mut self, all: &mut Moved) -> Result<Vec<u8>, Note> {
        let (mut parts, mut sizes) = (Vec::new(), Vec::new());
        for part in &self.stream.parts {
            let of_tile = |(at, message)| Note { tile: Some(part.tile), ..of_file(at, message) };
            let made = self.part(part, all).map_err(of_tile)?;
            let is = part.data.end - part.header.start;
            sizes.push((part.tile, Length { is, becomes: made.len() }));
            parts.extend(made);
        }
        let made = changed(&self.main, markers::TLM, |contents| lengths::of_tile_parts(contents, &sizes));
        let mut lengths = made.map_err(|(at, message)| of_file(at, message))?;
        let mut stream = Vec::new();
        for segment in &self.main {
            match segment.marker {
                markers::TLM => stream.extend(lengths.pop_front().expect("one for each")),
                markers::PPM => {}
                _ => stream.extend(segment.bytes),
            }
        }
        stream.extend(parts);
        let end = self.stream.parts.last().map_or(self.range.start, |part| part.data.end);
        stream.extend(&self.file[end..self.range.end]);
        Ok(stream)
    }

    /// A tile-part with its headers moved. One that has none to move stays as it is.
    fn part(&mut self, part: &Part, all: &mut Moved) -> Result<Vec<u8>, Fault> {
        let at_start = |message| (part.header.start, message);
        let list = segments(self.file, part.header.clone());
        let Some(front) = self.headers_moved(part, &list).map_err(at_start)? else {
            return Ok(self.file[part.header.start..part.data.end].to_vec());
        };
        all.packets += part.packets.len() as u64;
        all.tile_parts += u64::from(!part.packets.is_empty());
        all.header_bytes += part.packets.iter().map(|packet| packet.header as u64).sum::<u64>();
        let lengths = changed(&list, markers::PLT, |contents| self.packet_lengths(part, contents))?;
        put_together(&list, lengths, front).map_err(at_start)
    }

    fn headers_moved(&mut self, part: &Part, list: &[Segment]) -> Result<Option<HeadersInFront>, Message> {
        self.stay_one_way(part)?;
        match self.way {
            Way::Gather => self.gather(part).map(Some),
            Way::Spread => match self.gathered(list)? {
                Some(headers) => self.spread(part, &headers).map(Some),
                None => Ok(None),
            },
        }
    }

    /// The headers of the next tile-part in PPT segments: its own, or those of PPM; `None` where there are neither.
    fn gathered(&mut self, list: &[Segment]) -> Result<Option<Vec<u8>>, Message> {
        let own: Vec<Segment> = list.iter().filter(|segment| segment.marker == markers::PPT).copied().collect();
        match &mut self.packed {
            Some(_) if !own.is_empty() => Err(Message::Damaged),
            Some(packed) => Ok(Some(in_segments(&packed.pop_front().unwrap_or_default())?)),
            None if own.is_empty() => Ok(None),
            None => Ok(Some(with_indexes_from_0(&own)?)),
        }
    }

    /// A tile's headers are all packed, or none of them (A.7.5).
    fn stay_one_way(&mut self, part: &Part) -> Result<(), Message> {
        let tile = self.tiles.entry(part.tile).or_default();
        let mut packed = part.packets.iter().map(|packet| packet.packed);
        match packed.all(|packed| *tile.packed.get_or_insert(packed) == packed) {
            true => Ok(()),
            false => Err(Message::Damaged),
        }
    }

    /// The contents of the tile-part header's PLT segments: they tell of its packets, or of those of later tile-parts too.
    fn packet_lengths(&mut self, part: &Part, contents: &[&[u8]]) -> Result<Vec<Vec<u8>>, Message> {
        let tile = self.tiles.entry(part.tile).or_default();
        let all = &self.lengths[&part.tile];
        let mut left = &all[tile.told.max(tile.packets)..];
        let made = lengths::of_packets(contents, &mut left)?;
        tile.packets += part.packets.len();
        if !contents.is_empty() {
            tile.told = all.len() - left.len();
        }
        Ok(made)
    }

    /// The tile-part's headers in PPT segments, and its other data. The move back must restore what was there.
    fn gather(&mut self, part: &Part) -> Result<HeadersInFront, Message> {
        let row = &self.file[part.data.clone()];
        let (moved, back) = self.with_readers(part, |readers, places| {
            let mut before = readers.to_vec();
            let moved = tonkelvi::gather(row, readers, places, part.markers)?;
            let back = tonkelvi::spread(&moved.headers, &moved.bodies, &mut before, places, part.markers)?;
            Ok((moved, back))
        })?;
        if back != row {
            return Err(Message::NotRestored);
        }
        let headers = with_indexes_from(self.first_index(part), moved.headers);
        Ok(HeadersInFront { headers, bodies: moved.bodies })
    }

    /// The index of a tile-part's first PPT segment. Indexes need but be distinct in one header (A.7.5), but some decoders take them to be so
    /// in the whole tile: where it has no more than there are indexes they go on from one tile-part to the next.
    fn first_index(&mut self, part: &Part) -> usize {
        let of_tile = self.stream.parts.iter().filter(|other| other.tile == part.tile);
        let tile = self.tiles.entry(part.tile).or_default();
        let all = *tile.segments.get_or_insert_with(|| of_tile.map(Part::segments).sum());
        let first = if all > MOST_SEGMENTS { 0 } else { tile.index };
        tile.index += part.segments();
        first
    }

    /// The tile-part's packets whole again, with no segments in front.
    fn spread(&mut self, part: &Part, headers: &[u8]) -> Result<HeadersInFront, Message> {
        let bodies = &self.file[part.data.clone()];
        let row = self.with_readers(part, |readers, places| tonkelvi::spread(headers, bodies, readers, places, part.markers))?;
        Ok(HeadersInFront { headers: Vec::new(), bodies: row })
    }

    /// A move with the readers of the tile-part's precincts, and for each packet its reader's place among them.
    fn with_readers<T>(&mut self, part: &Part, step: impl FnOnce(&mut [Reader], &[usize]) -> Result<T, Refusal>) -> Result<T, Refusal> {
        let shapes = self.stream.precincts.get(&part.tile).map(Vec::as_slice).unwrap_or_default();
        let tile = self.tiles.entry(part.tile).or_default();
        let mut used: Vec<usize> = part.packets.iter().map(|packet| packet.place).collect();
        used.sort_unstable();
        used.dedup();
        let place = |packet: &Packet| used.binary_search(&packet.place).expect("it is among these");
        let places: Vec<usize> = part.packets.iter().map(place).collect();
        let mut reader = |place: &usize| match tile.readers.remove(place) {
            Some(reader) => Ok(reader),
            None => shapes[*place].as_ref().map(|shape| Reader::new(&shape.bands, shape.style)).expect("a packet of it was read"),
        };
        let mut readers = used.iter().map(&mut reader).collect::<Result<Vec<Reader>, Refusal>>()?;
        let done = step(&mut readers, &places)?;
        tile.readers.extend(used.into_iter().zip(readers));
        Ok(done)
    }
}

/// A tile-part from its header's segments, new contents for its PLT, and what the move gave. PPT goes behind all others.
fn put_together(list: &[Segment], mut lengths: VecDeque<Vec<u8>>, front: HeadersInFront) -> Result<Vec<u8>, Message> {
    let mut made = Vec::new();
    for segment in list {
        match segment.marker {
            markers::PLT => made.extend(lengths.pop_front().expect("one for each")),
            markers::PPT => {}
            markers::SOD => made.extend([&front.headers, segment.bytes].concat()),
            _ => made.extend(segment.bytes),
        }
    }
    made.extend(front.bodies);
    // Psot; 0 says that the tile-part goes on to EOC.
    let length = made.len();
    match &mut made[6..10] {
        [0, 0, 0, 0] => {}
        field => lengths::put(field, length)?,
    }
    Ok(made)
}

impl From<Refusal> for Message {
    fn from(refusal: Refusal) -> Message {
        Message::Refused(refusal)
    }
}
