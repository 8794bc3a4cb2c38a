//! Codestreams taken apart by the lengths in their headers alone, changed, and put together again.
use std::collections::VecDeque;
use std::path::{Path, PathBuf};
use tonkelvi::Markers;
use tonkelvi_cli::boxes;
use tonkelvi_cli::rows;
use tonkelvi_cli::walk::{Note, Seen, TilePart, Visitor};

/// The drawings that the engine reads.
pub fn drawings() -> Vec<(PathBuf, Vec<u8>)> {
    let files = tonkelvi_cli::files::collect(&[Path::new(env!("CARGO_MANIFEST_DIR")).join("tests/drawings")]);
    let known = files.into_iter().filter(|path| !path.to_string_lossy().contains("high_throughput"));
    known.map(|path| (path.clone(), std::fs::read(path).unwrap())).collect()
}

pub fn drawing(name: &str) -> Vec<u8> {
    std::fs::read(Path::new(env!("CARGO_MANIFEST_DIR")).join("tests/drawings").join(name)).unwrap()
}

pub fn number(bytes: &[u8]) -> usize {
    bytes.iter().fold(0, |sum, &byte| sum << 8 | usize::from(byte))
}

/// A marker segment.
pub fn segment(marker: u8, content: &[u8]) -> Vec<u8> {
    [&[0xff, marker], &(content.len() as u16 + 2).to_be_bytes()[..], content].concat()
}

/// SOP, header with EPH, and body of a packet; the header is empty where it is packed.
#[derive(Clone, PartialEq, Eq, Debug)]
pub struct Packet {
    pub sop: Vec<u8>,
    pub header: Vec<u8>,
    pub body: Vec<u8>,
}

impl Packet {
    pub fn len(&self) -> usize {
        self.sop.len() + self.header.len() + self.body.len()
    }
}

#[derive(Clone, PartialEq, Eq, Debug)]
pub struct Part {
    pub tile: usize,
    /// From SOT on, without SOD.
    pub segments: Vec<Vec<u8>>,
    pub packets: Vec<Packet>,
}

/// A codestream: marker segments of its main header, with SOC, its tile-parts, and what follows them.
#[derive(Clone, PartialEq, Eq, Debug)]
pub struct Codestream {
    pub main: Vec<Vec<u8>>,
    pub parts: Vec<Part>,
    pub end: Vec<u8>,
}

/// Start and sizes of the packets that the walk finds in each tile-part.
#[derive(Default)]
struct Packets {
    parts: VecDeque<Vec<(usize, [usize; 3])>>,
}

impl Visitor for Packets {
    fn tile_part(&mut self, _: &TilePart) {
        self.parts.push_back(Vec::new());
    }

    fn packet(&mut self, seen: &Seen) {
        assert_eq!(seen.message, None);
        let Markers { sop, .. } = seen.markers;
        let (sop, body) = (if sop { 6 } else { 0 }, seen.packet.body() as usize);
        let sizes = [sop, seen.bytes.len() - sop - body, body];
        self.parts.back_mut().unwrap().push((seen.bytes.start, sizes));
    }

    fn note(&mut self, note: Note) {
        panic!("{note:?}");
    }
}

impl Codestream {
    /// The first codestream of a whole file, each of whose packets has the markers that are used.
    pub fn of(file: &[u8]) -> Codestream {
        let stream = boxes::codestreams(file).unwrap().streams[0].clone();
        let mut packets = Packets::default();
        rows::visit(file, &mut packets);
        let (mut at, mut main, mut parts) = (stream.start, Vec::new(), Vec::new());
        while file[at..at + 2] != [0xff, 0xd9] {
            if file[at..at + 2] != [0xff, 0x90] {
                main.push(one_segment(file, &mut at));
                continue;
            }
            let end = match number(&file[at + 6..at + 10]) {
                0 => stream.end - 2,
                length => at + length,
            };
            let mut part = Part { tile: number(&file[at + 4..at + 6]), segments: Vec::new(), packets: Vec::new() };
            while file[at..at + 2] != [0xff, 0x93] {
                part.segments.push(one_segment(file, &mut at));
            }
            at += 2;
            for (start, sizes) in packets.parts.pop_front().unwrap() {
                assert_eq!(start, at);
                let [sop, header, body] = sizes.map(|size| {
                    at += size;
                    file[at - size..at].to_vec()
                });
                part.packets.push(Packet { sop, header, body });
            }
            assert_eq!(at, end);
            parts.push(part);
        }
        Codestream { main, parts, end: file[at..stream.end].to_vec() }
    }

    /// The bytes, with each Psot that is not 0 corrected.
    pub fn bytes(&self) -> Vec<u8> {
        [self.main.concat(), self.parts.iter().flat_map(Part::bytes).collect(), self.end.clone()].concat()
    }

    /// The contents of the main header's segments with this marker.
    pub fn contents(&self, marker: u8) -> Vec<&[u8]> {
        contents(&self.main, marker)
    }
}

impl Part {
    pub fn bytes(&self) -> Vec<u8> {
        let packets = self.packets.iter().flat_map(|packet| [&packet.sop[..], &packet.header, &packet.body].concat());
        let mut bytes = [self.segments.concat(), vec![0xff, 0x93], packets.collect()].concat();
        if bytes[6..10] != [0; 4] {
            let length = bytes.len() as u32;
            bytes[6..10].copy_from_slice(&length.to_be_bytes());
        }
        bytes
    }

    pub fn contents(&self, marker: u8) -> Vec<&[u8]> {
        contents(&self.segments, marker)
    }

    /// The headers of its packets, taken out of them.
    pub fn take_headers(&mut self) -> Vec<u8> {
        self.packets.iter_mut().flat_map(|packet| std::mem::take(&mut packet.header)).collect()
    }
}

/// The marker segment at a place, which goes on behind it; SOC stands alone.
fn one_segment(file: &[u8], at: &mut usize) -> Vec<u8> {
    let begin = *at;
    *at += if file[begin + 1] == 0x4f { 2 } else { 2 + number(&file[begin + 2..begin + 4]) };
    file[begin..*at].to_vec()
}

fn contents(segments: &[Vec<u8>], marker: u8) -> Vec<&[u8]> {
    let mut own: Vec<&[u8]> = segments.iter().filter(|segment| segment[1] == marker).map(|segment| &segment[4..]).collect();
    own.sort_by_key(|content| content[0]);
    own
}
