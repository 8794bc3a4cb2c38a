//! Writes every packet again with the engine's writer and compares the bytes.
use crate::catalogue::Catalogue;
use crate::message::Message;
use crate::order::Precinct;
use crate::rows::{self, json_string, quoted, Form};
use crate::walk::{Note, Opened, Seen, Visitor};
use std::collections::BTreeMap;
use std::fmt::Write;
use std::ops::Range;
use tonkelvi::{Band, Contribution, Mark, Markers, Refusal, Segment, Writer};

pub const HEAD: &str = "file,tile,layer,resolution,component,precinct,offset,differs at,message,sentence\n";

/// A packet that is kept until its tile's end, when the planes of all blocks are known. Its segments tell the passes of its blocks; a list
/// of all blocks for each layer could be many times the file.
struct Kept {
    precinct: Precinct,
    layer: u16,
    count: u32,
    markers: Markers,
    bytes: Range<usize>,
    packed: Option<Vec<u8>>,
    present: bool,
    segments: Vec<Segment>,
}

/// The check of one file: a row for each packet that is not written the same.
pub struct Check<'a> {
    name: &'a str,
    form: Form,
    catalogue: &'a Catalogue,
    file: &'a [u8],
    kept: BTreeMap<(u32, usize), Vec<Kept>>,
    /// Each row with its offset, in the file's order.
    rows: Vec<(usize, String)>,
    pub packets: u64,
    pub same: u64,
    pub full_headers: u64,
    pub whole: bool,
}

impl<'a> Check<'a> {
    /// Checks a file's bytes, or says that there are none.
    pub fn of(name: &'a str, form: Form, catalogue: &'a Catalogue, file: Option<&'a [u8]>) -> Check<'a> {
        let kept = BTreeMap::new();
        let bytes = file.unwrap_or_default();
        let mut check =
            Check { name, form, catalogue, file: bytes, kept, rows: Vec::new(), packets: 0, same: 0, full_headers: 0, whole: true };
        match file {
            Some(file) => rows::visit(file, &mut check),
            None => check.note(Note { tile: None, turn: None, offset: 0, message: Message::Unread }),
        }
        check.rows.sort_by_key(|row| row.0);
        check
    }

    /// The rows, one a line.
    pub fn text(&self) -> String {
        self.rows.iter().map(|row| row.1.as_str()).collect()
    }

    fn row(&mut self, note: Note, differs: Option<usize>) {
        self.whole &= !note.message.is_fault();
        self.rows.push((note.offset, row(self.name, self.form, self.catalogue, note, differs)));
    }

    /// Writes a precinct's packets again, layer by layer.
    fn precinct(&mut self, tile: u32, opened: &Opened, kept: &[Kept]) {
        let planes = planes(&opened.bands, opened.reader.state());
        let mut writer = Writer::new(&opened.bands, opened.style, &planes);
        for one in kept {
            let answer = match &mut writer {
                Ok(writer) => again(writer, &opened.bands, one, self.file),
                Err(refusal) => Err((Message::Refused(*refusal), None)),
            };
            match answer {
                Ok(()) => self.same += 1,
                Err((message, differs)) => {
                    self.full_headers += u64::from(message == Message::FullHeader);
                    let turn = Some((one.precinct, one.layer));
                    self.row(Note { tile: Some(tile), turn, offset: one.bytes.start, message }, differs);
                }
            }
        }
    }
}

impl Visitor for Check<'_> {
    fn packet(&mut self, seen: &Seen) {
        self.packets += 1;
        let turn = Some((seen.precinct, seen.layer));
        if let Some(message) = seen.message {
            self.row(Note { tile: Some(seen.tile), turn, offset: seen.offset, message }, None);
        }
        self.kept.entry((seen.tile, seen.place)).or_default().push(Kept {
            precinct: seen.precinct,
            layer: seen.layer,
            count: seen.count,
            markers: used(seen),
            bytes: seen.bytes.clone(),
            packed: seen.packed.map(<[u8]>::to_vec),
            present: seen.packet.present,
            segments: seen.packet.segments.clone(),
        });
    }

    fn note(&mut self, note: Note) {
        self.row(note, None);
    }

    fn tile_end(&mut self, tile: u32, precincts: &[Option<Box<Opened>>]) {
        for (place, opened) in precincts.iter().enumerate() {
            if let (Some(opened), Some(kept)) = (opened, self.kept.remove(&(tile, place))) {
                self.precinct(tile, opened, &kept);
            }
        }
    }
}

/// A row with a note.
pub fn row(name: &str, form: Form, catalogue: &Catalogue, note: Note, differs: Option<usize>) -> String {
    let number = |n: Option<u64>| n.map(|n| n.to_string()).unwrap_or_default();
    let fields = [
        number(note.tile.map(u64::from)),
        number(note.turn.map(|t| t.1.into())),
        number(note.turn.map(|t| t.0.resolution.into())),
        number(note.turn.map(|t| t.0.component.into())),
        number(note.turn.map(|t| t.0.number.into())),
        note.offset.to_string(),
        number(differs.map(|n| n as u64)),
        note.message.number().to_string(),
    ];
    let sentence = catalogue.sentence(note.message);
    match form {
        Form::Csv => format!("{},{},{}\n", quoted(name), fields.join(","), quoted(&sentence)),
        Form::Json => json_row(name, &fields, &sentence),
    }
}

/// The markers that the packet really has.
fn used(seen: &Seen) -> Markers {
    Markers {
        sop: seen.packed.is_none() && seen.markers.sop && seen.packet.sop == Mark::InOrder,
        eph: seen.markers.eph && seen.packet.eph == Mark::InOrder,
    }
}

/// Writes a packet again; the error says what is different and from which place of the file on.
fn again(writer: &mut Writer, bands: &[Band], kept: &Kept, file: &[u8]) -> Result<(), (Message, Option<usize>)> {
    let bytes = &file[kept.bytes.clone()];
    let body: usize = kept.segments.iter().map(|segment| segment.bytes as usize).sum();
    let (before, body) = bytes.split_at(bytes.len() - body);
    let header = kept.packed.as_deref().unwrap_or(before);
    let full = kept.present && kept.segments.is_empty();
    let told = full.then(|| full_header(bands, writer.state()));
    let blocks = bands.iter().map(|band| (band.across * band.down) as usize).sum();
    let (counts, lengths, marks) = contribution(blocks, &kept.segments);
    let layer = Contribution { counts: &counts, lengths: &lengths, marks: &marks };
    let mut written = writer.write(layer, body, kept.markers, kept.count).map_err(refused)?;
    written.truncate(written.len() - body.len());
    if let Some((header, state)) = told {
        // The writer's one byte stands where the file has more.
        let at = if kept.markers.sop { 6 } else { 0 };
        written.splice(at..at + 1, header);
        *writer = Writer::from_state(state).map_err(refused)?;
    }
    if written == header {
        return if full { Err((Message::FullHeader, None)) } else { Ok(()) };
    }
    let place = written.iter().zip(header).take_while(|(a, b)| a == b).count();
    Err((Message::Differs, Some(kept.bytes.start + if kept.packed.is_some() { 0 } else { place })))
}

fn refused(refusal: Refusal) -> (Message, Option<usize>) {
    (Message::Refused(refusal), None)
}

/// The value of an inclusion tree's node that no packet has told.
const NOT_YET_INCLUDED: u32 = 65_535;

/// The header, with a first bit 1, that tells each block absent from the next packet of a writer's state (B.10), and the words after it.
/// All other bits are 0: one for each block that was there before, and those of the inclusion trees.
fn full_header(bands: &[Band], state: &[u32]) -> (Vec<u8>, Vec<u32>) {
    let mut words = state.to_vec();
    words[3] += 1;
    let (next, mut bits, mut at) = (words[3], 1, 13);
    for band in bands {
        let levels = levels(band.across as usize, band.down as usize);
        let nodes: usize = levels.iter().map(|(across, down)| across * down).sum();
        bits += tell_absent(&levels, &mut words[at..at + 3 * nodes], next);
        at += 6 * nodes;
        let blocks = (band.across * band.down) as usize;
        bits += words[at..at + 4 * blocks].chunks_exact(4).filter(|block| block[0] > 0).count();
        at += 4 * blocks;
    }
    let mut header = vec![0; bits.div_ceil(8)];
    header[0] = 0x80;
    (header, words)
}

/// Raises the low of each node without a told value to the next layer; answers how many bits that takes. Below a node without one there is
/// no more to say.
fn tell_absent(levels: &[(usize, usize)], tree: &mut [u32], next: u32) -> usize {
    let (mut bits, mut first) = (0, 0);
    for (level, &(across, down)) in levels.iter().enumerate() {
        let above = first + across * down;
        for place in 0..across * down {
            let node = 3 * (first + place);
            if tree[node] != NOT_YET_INCLUDED {
                continue;
            }
            let parent = levels.get(level + 1).map(|(wide, _)| 3 * (above + place / across / 2 * wide + place % across / 2));
            let low = match parent {
                Some(parent) if tree[parent] == NOT_YET_INCLUDED => next,
                Some(parent) => tree[parent + 1].max(tree[node + 1]),
                None => tree[node + 1],
            };
            bits += next.saturating_sub(low) as usize;
            tree[node + 1] = next;
        }
        first = above;
    }
    bits
}

/// Passes of each block, then bytes and mark of each pass: a segment's bytes are all given to its last pass.
fn contribution(blocks: usize, segments: &[Segment]) -> (Vec<u32>, Vec<u32>, Vec<u8>) {
    let (mut counts, mut lengths, mut marks) = (vec![0; blocks], Vec::new(), Vec::new());
    for (number, segment) in segments.iter().enumerate() {
        let before = segment.passes.saturating_sub(1) as usize;
        lengths.resize(lengths.len() + before, 0);
        marks.resize(marks.len() + before, 0);
        let goes_on = segments.get(number + 1).is_some_and(|next| next.block == segment.block);
        counts[segment.block] += segment.passes;
        lengths.push(segment.bytes);
        marks.push(u8::from(goes_on));
    }
    (counts, lengths, marks)
}

/// The value of a zero-plane tree's node that no packet has told.
const UNTOLD: u32 = 999;

/// The bit-planes of each block, from the zero-plane trees of a reader's state.
fn planes(bands: &[Band], state: &[u32]) -> Vec<u32> {
    let mut planes = Vec::new();
    let mut at = 13;
    for band in bands {
        let levels = levels(band.across as usize, band.down as usize);
        let nodes: usize = levels.iter().map(|(across, down)| across * down).sum();
        let tree: Vec<u32> = state[at + 3 * nodes..at + 6 * nodes].chunks_exact(3).map(|node| node[0]).collect();
        planes.extend(zero_planes(&levels, &tree, band.planes).into_iter().map(|zero| band.planes.saturating_sub(zero)));
        at += 6 * nodes + 4 * (band.across * band.down) as usize;
    }
    planes
}

/// A tag tree's levels, leaves first.
fn levels(across: usize, down: usize) -> Vec<(usize, usize)> {
    let mut levels = Vec::new();
    let mut sides = (across, down);
    while sides.0 * sides.1 > 0 {
        levels.push(sides);
        if sides == (1, 1) {
            break;
        }
        sides = (sides.0.div_ceil(2), sides.1.div_ceil(2));
    }
    levels
}

/// The zero planes of each leaf; a block that never came takes the value of the nearest node above it that was told.
fn zero_planes(levels: &[(usize, usize)], tree: &[u32], most: u32) -> Vec<u32> {
    let Some(&(across, down)) = levels.first() else { return Vec::new() };
    let value = |leaf: usize| {
        let (mut x, mut y, mut first) = (leaf % across, leaf / across, 0);
        for &(wide, high) in levels {
            let told = tree[first + y * wide + x];
            if told != UNTOLD {
                return told;
            }
            (x, y, first) = (x / 2, y / 2, first + wide * high);
        }
        most
    };
    (0..across * down).map(value).collect()
}

const NAMES: [&str; 8] = ["tile", "layer", "resolution", "component", "precinct", "offset", "differs_at", "message"];

fn json_row(name: &str, fields: &[String; 8], sentence: &str) -> String {
    let mut out = format!("{{\"file\":{}", json_string(name));
    for (key, value) in NAMES.iter().zip(fields).filter(|(_, value)| !value.is_empty()) {
        let _ = write!(out, ",\"{key}\":{value}");
    }
    let _ = writeln!(out, ",\"sentence\":{}}}", json_string(sentence));
    out
}

#[cfg(test)]
mod tests {
    use super::*;

    #[test]
    fn untold_blocks_take_the_node_above() {
        let levels = levels(3, 1);
        assert_eq!(levels, [(3, 1), (2, 1), (1, 1)]);
        assert_eq!(zero_planes(&levels, &[4, 999, 999, 2, 999, 1], 9), [4, 2, 1]);
        assert_eq!(zero_planes(&levels, &[999; 6], 9), [9, 9, 9]);
        assert!(zero_planes(&super::levels(0, 0), &[], 9).is_empty());
    }

    /// The header's bytes, and the writer after it.
    fn full(bands: &[Band], writer: &Writer) -> (Vec<u8>, Writer) {
        let (header, state) = full_header(bands, writer.state());
        (header, Writer::from_state(state).unwrap())
    }

    fn write(writer: &mut Writer, counts: &[u32]) -> Vec<u8> {
        let passes = counts.iter().sum::<u32>() as usize;
        let layer = Contribution { counts, lengths: &vec![0; passes], marks: &vec![0; passes] };
        writer.write(layer, &[], Markers::NONE, 0).unwrap()
    }

    #[test]
    fn full_headers_of_one_block() {
        let bands = [Band { across: 1, down: 1, planes: 5 }];
        let fresh = Writer::new(&bands, 0, &[5]).unwrap();
        let (header, mut later) = full(&bands, &fresh);
        assert_eq!(header, [0x80]);
        assert_eq!(write(&mut later, &[1]), [0xe0]);
        assert_eq!(full(&bands, &later).0, [0x80]);
        // One bit for each of 23 layers: with the first bit 24.
        let mut late = fresh.clone();
        for _ in 0..22 {
            assert_eq!(write(&mut late, &[0]), [0]);
        }
        assert_eq!(full(&bands, &late).0, [0x80, 0, 0]);
        write(&mut late, &[0]);
        assert_eq!(full(&bands, &late).0, [0x80, 0, 0, 0]);
    }

    /// Two bands of 3 × 2 and 2 × 3 blocks, of which one has come, the last of the first row.
    #[test]
    fn full_headers_of_bands() {
        let [a, b, c] = [(3, 2), (0, 4), (2, 3)].map(|(across, down)| Band { across, down, planes: 5 });
        let bands = [a, b, c];
        let mut writer = Writer::new(&bands, 0, &[5; 12]).unwrap();
        let mut counts = [0; 12];
        counts[2] = 1;
        write(&mut writer, &counts);
        for layers in 1..40usize {
            // Three nodes are told: that of the four blocks on the left, the block below the one that came, and the second band's root.
            let (header, mut told) = full(&bands, &writer);
            assert_eq!(header.len(), (1 + 1 + 3 * layers).div_ceil(8));
            assert_eq!(full(&bands, &told).0.len(), 1);
            assert_eq!(write(&mut writer, &[0; 12]), [0]);
            let mut direct = writer.clone();
            (counts[0], counts[11]) = (2, 1);
            write(&mut direct, &counts);
            write(&mut told, &counts);
            assert_eq!(direct.state(), told.state());
        }
    }

    #[test]
    fn passes_of_segments() {
        let segment = |block, passes, bytes, start| Segment { block, opens: true, passes, bytes, start };
        let segments = [segment(0, 2, 7, 0), segment(0, 1, 5, 7), segment(2, 2, 9, 12)];
        assert_eq!(contribution(3, &segments), (vec![3, 0, 2], vec![0, 7, 5, 0, 9], vec![0, 1, 0, 0, 0]));
    }
}
