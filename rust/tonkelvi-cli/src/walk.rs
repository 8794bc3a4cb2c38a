//! Walks a codestream and reads its packets with the engine.
use crate::geometry::{self, Resolution};
use crate::markers::{self, Fields, General, Header, Rect, Settings, Size};
use crate::message::Message;
use crate::order::{Precinct, Turn, Turns};
use std::collections::{BTreeMap, VecDeque};
use std::ops::Range;
use tonkelvi::{Band, Block, Gathered, Mark, Markers, Packet, Reader};

/// A packet that was read. Offsets count from the file's start.
pub struct Seen<'a> {
    pub tile: u32,
    pub layer: u16,
    pub precinct: Precinct,
    /// The precinct's place in its tile's list.
    pub place: usize,
    /// The packet's count in its tile.
    pub count: u32,
    pub offset: usize,
    pub markers: Markers,
    pub packet: &'a Packet,
    /// Markers, header and body; without the header where it is packed.
    pub bytes: Range<usize>,
    /// The header that PPM or PPT has, with EPH.
    pub packed: Option<&'a [u8]>,
    pub message: Option<Message>,
}

/// What is said of a file, a tile or a packet that can't be read.
#[derive(Clone, Copy, PartialEq, Eq, Debug)]
pub struct Note {
    pub tile: Option<u32>,
    pub turn: Option<(Precinct, u16)>,
    pub offset: usize,
    pub message: Message,
}

/// A tile-part whose packets come next. Offsets count from the file's start.
#[derive(Clone, PartialEq, Eq, Debug)]
pub struct TilePart {
    /// Where its codestream begins.
    pub stream: usize,
    pub tile: u32,
    /// From SOT on, with SOD.
    pub header: Range<usize>,
    pub data: Range<usize>,
}

/// A precinct that packets were read of.
pub struct Opened {
    pub bands: Vec<Band>,
    pub style: u8,
    pub reader: Reader,
}

/// Takes what the walk finds.
pub trait Visitor {
    fn tile_part(&mut self, _part: &TilePart) {}
    fn packet(&mut self, seen: &Seen);
    fn note(&mut self, note: Note);
    /// The tile's precincts after its last packet, `None` where none was read.
    fn tile_end(&mut self, _tile: u32, _precincts: &[Option<Box<Opened>>]) {}
}

/// A fault in the headers, with its place in the codestream.
type Fault = (Message, usize);

/// Walks the codestream at `stream` of a file.
pub fn walk(file: &[u8], stream: Range<usize>, visitor: &mut dyn Visitor) {
    let base = stream.start;
    let data = &file[stream];
    let (size, main, tiles) = (Size::default(), Header::default(), BTreeMap::new());
    let mut walk = Walk { data, base, size, main, tiles, packed: None, precincts: 0, visitor };
    match walk.all() {
        Ok(end) => walk.say_absent_tiles(end),
        Err((message, at)) => walk.visitor.note(Note { tile: None, turn: None, offset: base + at, message }),
    }
    walk.end();
}

struct Walk<'a> {
    data: &'a [u8],
    base: usize,
    size: Size,
    main: Header,
    tiles: BTreeMap<u32, Tile>,
    /// The packet headers of the tile-parts to come, if PPM is used.
    packed: Option<VecDeque<Vec<u8>>>,
    /// Precincts of all tiles that were laid out.
    precincts: u64,
    visitor: &'a mut dyn Visitor,
}

/// A tile whose tile-parts are being read.
#[derive(Default)]
struct Tile {
    header: Header,
    /// Packet headers of PPM or PPT, if used, that no packet has taken.
    packed: Option<VecDeque<u8>>,
    started: Option<Started>,
    /// A packet could not be read, so that no later one has a known place.
    lost: bool,
}

/// The most progressions that one POC can name.
const MOST_VOLUMES: usize = 9362;

impl Tile {
    /// Takes up a segment of a tile-part header; progressions that a later tile-part names come after the others.
    fn take(&mut self, marker: u16, segment: &[u8], components: usize) -> Option<()> {
        let known = self.header.volumes.len();
        self.header.take(marker, segment, components)?;
        for (_, headers) in std::mem::take(&mut self.header.packed) {
            self.add_packed(headers);
        }
        if self.header.volumes.len() > MOST_VOLUMES {
            return None;
        }
        if let Some(started) = &mut self.started {
            started.turns.add(&self.header.volumes[known..]);
        }
        Some(())
    }

    fn add_packed(&mut self, headers: Vec<u8>) {
        self.packed.get_or_insert_with(VecDeque::new).extend(headers);
    }
}

struct Started {
    general: General,
    components: Vec<Vec<Resolution>>,
    turns: Turns,
    opened: Vec<Option<Box<Opened>>>,
    count: u32,
    end: usize,
}

/// Where a tile-part's packets lie, and the tile it is of.
struct Part {
    tile: u32,
    body: Range<usize>,
    end: usize,
    cut: bool,
}

impl<'a> Walk<'a> {
    fn u16_at(&self, at: usize) -> Result<u16, Fault> {
        let bytes = self.data.get(at..at + 2).ok_or((Message::Cut, at))?;
        Ok(u16::from(bytes[0]) << 8 | u16::from(bytes[1]))
    }

    /// The content of the marker segment whose marker is at `at`, and the place after it; FF30 to FF3F stand alone (A.1).
    fn segment(&self, at: usize) -> Result<(&'a [u8], usize), Fault> {
        match self.u16_at(at)? {
            0xff30..=0xff3f => return Ok((&[], at + 2)),
            0xff01..=0xfffe => {}
            _ => return Err((Message::Damaged, at)),
        }
        let length = usize::from(self.u16_at(at + 2)?);
        if length < 2 {
            return Err((Message::Damaged, at));
        }
        let end = at + 2 + length;
        Ok((self.data.get(at + 4..end).ok_or((Message::Cut, at))?, end))
    }

    /// Reads headers and tile-parts; answers the place of EOC.
    fn all(&mut self) -> Result<usize, Fault> {
        let mut at = self.main_header()?;
        if !self.main.packed.is_empty() {
            let packed = markers::packed_by_part(std::mem::take(&mut self.main.packed));
            self.packed = Some(packed.ok_or((Message::Damaged, at))?);
        }
        loop {
            match self.u16_at(at)? {
                markers::SOT => at = self.part(at)?,
                markers::EOC => return Ok(at),
                _ => return Err((Message::Damaged, at)),
            }
        }
    }

    /// Reads the main header; answers the place of the first SOT.
    fn main_header(&mut self) -> Result<usize, Fault> {
        if self.u16_at(0)? != markers::SOC || self.u16_at(2)? != markers::SIZ {
            return Err((Message::Damaged, 0));
        }
        let (segment, mut at) = self.segment(2)?;
        self.size = Size::parse(segment).ok_or((Message::Damaged, 2))?;
        loop {
            match self.u16_at(at)? {
                markers::SOT => return Ok(at),
                marker => {
                    let (segment, end) = self.segment(at)?;
                    self.main.take(marker, segment, self.size.steps.len()).ok_or((Message::Damaged, at))?;
                    at = end;
                }
            }
        }
    }

    /// Reads the tile-part whose SOT is at `at`; answers the place after it.
    fn part(&mut self, at: usize) -> Result<usize, Fault> {
        let part = self.part_header(at)?;
        let (number, end, cut) = (part.tile, part.end, part.cut);
        let in_file = |range: Range<usize>| self.base + range.start..self.base + range.end;
        let (header, data) = (in_file(at..part.body.start), in_file(part.body.clone()));
        self.visitor.tile_part(&TilePart { stream: self.base, tile: number, header, data });
        let mut tile = self.tiles.remove(&number).unwrap_or_default();
        if let Some(packed) = &mut self.packed {
            tile.add_packed(packed.pop_front().unwrap_or_default());
        }
        if !tile.lost {
            let read = self.packets(&mut tile, &part);
            if let Err(note) = read {
                tile.lost = true;
                self.visitor.note(note);
            }
        }
        self.tiles.insert(number, tile);
        if cut {
            return Err((Message::Cut, self.data.len()));
        }
        Ok(end)
    }

    /// Reads SOT and the segments up to SOD.
    fn part_header(&mut self, at: usize) -> Result<Part, Fault> {
        let (segment, mut here) = self.segment(at)?;
        let mut f = Fields::new(segment);
        let (Some(number), Some(length)) = (f.u16(), f.u32()) else { return Err((Message::Damaged, at)) };
        let number = u32::from(number);
        if u64::from(number) >= self.size.tiles() {
            return Err((Message::Damaged, at));
        }
        while self.u16_at(here)? != markers::SOD {
            let (segment, end) = self.segment(here)?;
            let marker = self.u16_at(here)?;
            let tile = self.tiles.entry(number).or_default();
            tile.take(marker, segment, self.size.steps.len()).ok_or((Message::Damaged, here))?;
            here = end;
        }
        let body = here + 2;
        let end = self.part_end(at, length);
        if end < body {
            return Err((Message::Damaged, at));
        }
        let have = end.min(self.data.len());
        Ok(Part { tile: number, body: body..have, end, cut: end > have })
    }

    /// The place after a tile-part; length 0 says that it goes up to EOC.
    fn part_end(&self, at: usize, length: u32) -> usize {
        let ends = self.data.ends_with(&markers::EOC.to_be_bytes());
        match length {
            0 if ends => self.data.len() - 2,
            0 => self.data.len(),
            _ => at + length as usize,
        }
    }

    /// Reads the packets of one tile-part.
    fn packets(&mut self, tile: &mut Tile, part: &Part) -> Result<(), Note> {
        let mut at = part.body.start;
        if tile.started.is_none() {
            tile.started = Some(self.lay_out(tile, part.tile).map_err(|message| self.note_at(part, at, message))?);
        }
        while at < part.body.end || tile.packed.as_ref().is_some_and(|packed| !packed.is_empty()) {
            at = self.packet(tile, part, at)?;
        }
        if let Some(started) = &mut tile.started {
            started.end = at;
        }
        Ok(())
    }

    fn note_at(&self, part: &Part, at: usize, message: Message) -> Note {
        Note { tile: Some(part.tile), turn: None, offset: self.base + at, message }
    }

    fn lay_out(&mut self, tile: &Tile, number: u32) -> Result<Started, Message> {
        let settings = Settings { main: &self.main, tile: &tile.header };
        let started = start(&self.size, &settings, number, geometry::MOST_PRECINCTS - self.precincts)?;
        self.precincts += started.opened.len() as u64;
        Ok(started)
    }

    /// Reads the packet at `at`; answers the place after it.
    fn packet(&mut self, tile: &mut Tile, part: &Part, at: usize) -> Result<usize, Note> {
        let settings = Settings { main: &self.main, tile: &tile.header };
        let started = tile.started.as_mut().expect("laid out before");
        let turn = started.turns.next().ok_or_else(|| self.note_at(part, at, Message::Left))?;
        let precinct = started.turns.precincts()[turn.precinct];
        let refused = |message| Note { turn: Some((precinct, turn.layer)), ..self.note_at(part, at, message) };
        let read = read(started, &settings, turn, &self.data[at..part.body.end], &mut tile.packed).map_err(refused)?;
        let end = at as u64 + read.before as u64 + read.packet.body();
        if end > part.body.end as u64 {
            return Err(refused(if part.cut { Message::Cut } else { Message::BodyPast }));
        }
        let bands = &started.opened[turn.precinct].as_ref().expect("read above").bands;
        self.visitor.packet(&Seen {
            tile: part.tile,
            layer: turn.layer,
            precinct,
            place: turn.precinct,
            count: started.count,
            offset: self.base + at,
            markers: read.markers,
            packet: &read.packet,
            bytes: self.base + at..self.base + end as usize,
            packed: read.packed.as_deref(),
            message: remark(&read.packet, bands),
        });
        started.count += 1;
        Ok(end as usize)
    }

    /// Says which tiles have no tile-part, with one note for all that follow each other.
    fn say_absent_tiles(&mut self, end: usize) {
        let mut before = false;
        for number in 0..self.size.tiles() as u32 {
            let absent = !self.tiles.contains_key(&number);
            if absent && !before {
                self.visitor.note(Note { tile: Some(number), turn: None, offset: self.base + end, message: Message::Missing });
            }
            before = absent;
        }
    }

    /// Says which tiles lack packets, and hands on the precincts of all.
    fn end(&mut self) {
        for (number, tile) in std::mem::take(&mut self.tiles) {
            let Some(started) = tile.started else { continue };
            if !tile.lost && started.turns.left() > 0 {
                let offset = self.base + started.end;
                self.visitor.note(Note { tile: Some(number), turn: None, offset, message: Message::Missing });
            }
            self.visitor.tile_end(number, &started.opened);
        }
    }
}

/// The most precincts that all progressions of a tile may have to sort.
const MOST_SORTED: u64 = 1 << 28;

/// Lays out a tile of at most `most` precincts: resolutions of each component, precincts, order of packets.
fn start(size: &Size, settings: &Settings, number: u32, most: u64) -> Result<Started, Message> {
    let area = geometry::tile(size, number);
    let general = settings.general().ok_or(Message::Damaged)?;
    let mut components = Vec::new();
    for (c, &steps) in size.steps.iter().enumerate() {
        let coding = settings.coding(c as u16).ok_or(Message::Damaged)?;
        let part = geometry::tile_component(area, steps);
        components.push((0..=coding.levels).map(|r| Resolution::new(part, coding, r)).collect::<Vec<_>>());
    }
    let total: u64 = components.iter().flatten().map(Resolution::precincts).sum();
    let volumes = settings.volumes().ok_or(Message::Damaged)?;
    if total > most || total * volumes.len() as u64 > MOST_SORTED {
        return Err(Message::TooMany);
    }
    let precincts = precincts(&components, area, size);
    let opened = precincts.iter().map(|_| None).collect();
    let turns = Turns::new(precincts, general.layers, volumes);
    Ok(Started { general, components, turns, opened, count: 0, end: 0 })
}

fn precincts(components: &[Vec<Resolution>], area: Rect, size: &Size) -> Vec<Precinct> {
    let mut list = Vec::new();
    for (c, resolutions) in components.iter().enumerate() {
        for resolution in resolutions {
            for number in 0..resolution.precincts() as u32 {
                let position = resolution.position(number, area, size.steps[c]);
                list.push(Precinct { component: c as u16, resolution: resolution.number, number, position });
            }
        }
    }
    list
}

/// A packet that was read, and how many bytes stand before its body.
struct Read {
    packet: Packet,
    markers: Markers,
    before: usize,
    packed: Option<Vec<u8>>,
}

/// Reads the packet whose turn it is from the front of `src`, its header from `packed` where that is used. A header that is not all there
/// tells nothing; the reader's words behind it are no packet's.
fn read(started: &mut Started, settings: &Settings, turn: Turn, src: &[u8], packed: &mut Option<VecDeque<u8>>) -> Result<Read, Message> {
    let precinct = started.turns.precincts()[turn.precinct];
    let opened = match &mut started.opened[turn.precinct] {
        Some(opened) => opened,
        slot => {
            let resolution = &started.components[usize::from(precinct.component)][usize::from(precinct.resolution)];
            slot.insert(Box::new(open(settings, precinct, resolution)?))
        }
    };
    let markers = Markers { sop: started.general.sop, eph: started.general.eph };
    let read = match packed {
        Some(packed) => read_packed(&mut opened.reader, markers, src, packed)?,
        None => {
            let src = if markers.sop && is_cut_sop(src) { &[] } else { src };
            let packet = opened.reader.read(src, markers).map_err(Message::Refused)?;
            Read { before: packet.taken, packet, markers, packed: None }
        }
    };
    match read.packet.bits_past_end {
        0 => Ok(read),
        bits => Err(Message::HeaderPast(Some(bits))),
    }
}

/// A part of SOP and nothing behind it. No header is so: behind its byte FF a high bit is 0, and behind a last FF there is a byte.
fn is_cut_sop(src: &[u8]) -> bool {
    src == [0xff] || (src.len() < 6 && src.starts_with(&[0xff, 0x91]))
}

/// Reads a header from `packed` and takes it away; SOP, if used, stands before the body in `src`, the tile-part's data. The bytes that the
/// packet has taken are the header's.
fn read_packed(reader: &mut Reader, markers: Markers, src: &[u8], packed: &mut VecDeque<u8>) -> Result<Read, Message> {
    if packed.is_empty() {
        return Err(Message::Packed);
    }
    let Gathered { header, mut packet } = reader.read_gathered(packed.make_contiguous(), src, markers).map_err(Message::Refused)?;
    let before = std::mem::replace(&mut packet.taken, header);
    Ok(Read { before, packet, markers, packed: Some(packed.drain(..header).collect()) })
}

fn open(settings: &Settings, precinct: Precinct, resolution: &Resolution) -> Result<Opened, Message> {
    let coding = settings.coding(precinct.component).ok_or(Message::Damaged)?;
    let quantization = settings.quantization(precinct.component).ok_or(Message::Damaged)?;
    let first = match precinct.resolution {
        0 => 0,
        r => 3 * (usize::from(r) - 1) + 1,
    };
    let mut bands = Vec::new();
    for (b, (across, down)) in resolution.blocks(precinct.number).into_iter().enumerate() {
        let planes = quantization.planes(first + b).ok_or(Message::Damaged)?;
        bands.push(Band { across, down, planes: planes + settings.shift(precinct.component) });
    }
    let reader = Reader::new(&bands, coding.style).map_err(Message::Refused)?;
    Ok(Opened { bands, style: coding.style, reader })
}

/// What is to be said of a packet that was read.
fn remark(packet: &Packet, bands: &[Band]) -> Option<Message> {
    if has_too_many_zero_planes(packet, bands) {
        return Some(Message::ZeroPlanes);
    }
    match (packet.sop, packet.eph) {
        (_, Mark::NotFound | Mark::TooFewBytes) => Some(Message::Eph),
        (Mark::NotFound | Mark::TooFewBytes, _) => Some(Message::Sop),
        _ => None,
    }
}

fn has_too_many_zero_planes(packet: &Packet, bands: &[Band]) -> bool {
    let planes = bands.iter().flat_map(|band| vec![band.planes; (band.across * band.down) as usize]);
    let above = |(block, planes): (&Block, u32)| matches!(block, Block::First { zero_planes, .. } if *zero_planes > planes);
    packet.blocks.iter().zip(planes).any(above)
}
