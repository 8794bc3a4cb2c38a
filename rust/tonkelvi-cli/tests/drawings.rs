//! Whole, cut and damaged drawings of three encoders; tools/make_drawings.sh makes them.
use std::path::{Path, PathBuf};
use tonkelvi::Segment;
use tonkelvi_cli::boxes;
use tonkelvi_cli::catalogue::Catalogue;
use tonkelvi_cli::check::Check;
use tonkelvi_cli::message::Message;
use tonkelvi_cli::rows::{self, Form, Sheet};
use tonkelvi_cli::walk::{Note, Seen, Visitor};

fn drawings() -> Vec<PathBuf> {
    let files = tonkelvi_cli::files::collect(&[Path::new(env!("CARGO_MANIFEST_DIR")).join("tests/drawings")]);
    assert!(files.len() >= 20, "{} drawings", files.len());
    files
}

/// The drawings that the engine reads.
fn whole() -> Vec<(PathBuf, Vec<u8>)> {
    let known = drawings().into_iter().filter(|path| !path.to_string_lossy().contains("high_throughput"));
    known.map(|path| (path.clone(), std::fs::read(path).unwrap())).collect()
}

/// Where packets were found, and what was said.
#[derive(Default)]
struct Found {
    packets: Vec<std::ops::Range<usize>>,
    headers: Vec<usize>,
    segments: Vec<Vec<Segment>>,
    notes: Vec<Note>,
    messages: Vec<Message>,
}

impl Visitor for Found {
    fn packet(&mut self, seen: &Seen) {
        self.packets.push(seen.bytes.clone());
        self.headers.push(seen.packet.taken);
        self.segments.push(seen.packet.segments.clone());
        self.messages.extend(seen.message);
    }

    fn note(&mut self, note: Note) {
        self.notes.push(note);
    }
}

fn found(file: &[u8]) -> Found {
    let mut found = Found::default();
    rows::visit(file, &mut found);
    found
}

fn number(bytes: &[u8]) -> usize {
    bytes.iter().fold(0, |sum, &byte| sum << 8 | usize::from(byte))
}

/// The bytes between SOD and the end of each tile-part, by the lengths in the headers alone.
fn tile_parts(file: &[u8]) -> Vec<std::ops::Range<usize>> {
    let mut parts = Vec::new();
    for stream in boxes::codestreams(file).unwrap().streams {
        let mut at = stream.start + 2;
        while file[at..at + 2] != [0xff, 0xd9] {
            if file[at..at + 2] != [0xff, 0x90] {
                at += 2 + number(&file[at + 2..at + 4]);
                continue;
            }
            let end = match number(&file[at + 6..at + 10]) {
                0 => stream.end - 2,
                length => at + length,
            };
            while file[at..at + 2] != [0xff, 0x93] {
                at += 2 + number(&file[at + 2..at + 4]);
            }
            parts.push(at + 2..end);
            at = end;
        }
    }
    parts
}

#[test]
fn every_byte_is_accounted_for() {
    for (path, file) in whole() {
        let found = found(&file);
        assert!(found.notes.is_empty() && found.messages.is_empty(), "{path:?} {:?} {:?}", found.notes, found.messages);
        let mut packets = found.packets.into_iter().peekable();
        for part in tile_parts(&file) {
            let mut at = part.start;
            while let Some(packet) = packets.next_if(|packet| packet.start == at && packet.end <= part.end) {
                at = packet.end;
            }
            assert_eq!(at, part.end, "{path:?}");
        }
        assert_eq!(packets.next(), None, "{path:?}");
    }
}

#[test]
fn segments_fill_each_body_one_after_another() {
    for (path, file) in whole() {
        let found = found(&file);
        for ((packet, header), segments) in found.packets.iter().zip(&found.headers).zip(&found.segments) {
            let mut at = 0;
            for segment in segments {
                assert_eq!(segment.start, at, "{path:?}");
                at += u64::from(segment.bytes);
            }
            assert_eq!(at, (packet.len() - header) as u64, "{path:?}");
        }
    }
}

/// The packet lengths that PLT gives in the tile-part headers, in the file's order.
fn told_lengths(file: &[u8]) -> Vec<usize> {
    let mut lengths = Vec::new();
    let mut end = 0;
    for part in tile_parts(file) {
        let mut at = end + file[end..].windows(4).position(|four| four == [0xff, 0x90, 0, 10]).unwrap() + 12;
        while at < part.start - 2 {
            let next = at + 2 + number(&file[at + 2..at + 4]);
            if file[at + 1] == 0x58 {
                let mut sum = 0;
                for byte in &file[at + 5..next] {
                    sum = sum << 7 | usize::from(byte & 127);
                    if byte & 128 == 0 {
                        lengths.push(std::mem::take(&mut sum));
                    }
                }
            }
            at = next;
        }
        end = part.end;
    }
    lengths
}

#[test]
fn packets_have_the_lengths_that_encoders_tell() {
    for name in ["openjpeg_lengths.j2k", "grok_lossy.jp2"] {
        let file = std::fs::read(Path::new(env!("CARGO_MANIFEST_DIR")).join("tests/drawings").join(name)).unwrap();
        let lengths: Vec<usize> = found(&file).packets.iter().map(ExactSizeIterator::len).collect();
        assert!(!lengths.is_empty());
        assert_eq!(told_lengths(&file), lengths, "{name}");
    }
}

/// OpenJPEG and Grok write full headers for packets without contributions, ffmpeg a single 0 bit.
#[test]
fn every_packet_is_written_the_same() {
    let english = Catalogue::of("en").unwrap();
    let mut full_headers = [0; 3];
    for (path, file) in whole() {
        let check = Check::of("drawing", Form::Csv, &english, Some(&file));
        assert!(check.whole && check.packets > 0, "{path:?}");
        assert_eq!(check.same + check.full_headers, check.packets, "{path:?}");
        assert_eq!(check.text().lines().filter(|row| row.contains(",122,")).count() as u64, check.full_headers, "{path:?}");
        let encoder = ["openjpeg", "grok", "ffmpeg"].iter().position(|name| path.to_string_lossy().contains(name)).unwrap();
        full_headers[encoder] += check.full_headers;
        let empty = found(&file).segments.iter().filter(|segments| segments.is_empty()).count() as u64;
        assert_eq!(check.full_headers, if encoder == 2 { 0 } else { empty }, "{path:?}");
        assert!(encoder != 2 || empty > 0, "{path:?}");
    }
    assert!(full_headers[0] > 2000 && full_headers[1] > 200, "{full_headers:?}");
}

#[test]
fn high_throughput_is_told() {
    let path = drawings().into_iter().find(|path| path.to_string_lossy().contains("high_throughput")).unwrap();
    let found = found(&std::fs::read(path).unwrap());
    assert_eq!(found.notes.iter().map(|note| note.message.number()).collect::<Vec<_>>(), [2]);
}

#[test]
fn a_cut_file_is_never_whole() {
    let english = Catalogue::of("en").unwrap();
    for (path, file) in whole() {
        for end in (0..file.len()).step_by(97).chain([file.len() - 2, file.len() - 1]) {
            let mut sheet = Sheet::new("cut", Form::Csv, &english);
            sheet.read(Ok(file[..end].to_vec()));
            assert!(!sheet.whole, "{path:?} {end}");
        }
    }
}

#[test]
fn damaged_files_are_read_to_an_end() {
    let english = Catalogue::of("en").unwrap();
    for (_, file) in whole() {
        for place in (0..file.len().min(200)).chain((200..file.len()).step_by(101)) {
            let mut damaged = file.clone();
            damaged[place] ^= 1 << (place % 8);
            rows::visit(&damaged, &mut Found::default());
            Check::of("damaged", Form::Json, &english, Some(&damaged));
        }
    }
}

#[test]
fn a_missing_tile_part_is_told() {
    let file = std::fs::read(Path::new(env!("CARGO_MANIFEST_DIR")).join("tests/drawings/openjpeg_LRCP.j2k")).unwrap();
    let parts = tile_parts(&file);
    let mut shorter = file[..parts[0].end].to_vec();
    shorter.extend(&file[parts[1].end..]);
    let notes = found(&shorter).notes;
    assert_eq!(notes.iter().map(|note| (note.tile, note.message)).collect::<Vec<_>>(), [(Some(1), Message::Missing)]);
}

#[test]
fn a_byte_more_is_told() {
    let file = std::fs::read(Path::new(env!("CARGO_MANIFEST_DIR")).join("tests/drawings/openjpeg_style1.j2k")).unwrap();
    let part = tile_parts(&file)[0].clone();
    let sot = file.windows(2).position(|two| two == [0xff, 0x90]).unwrap();
    let mut longer = file.clone();
    longer.insert(part.end, 0);
    let length = (part.end + 1 - sot) as u32;
    longer[sot + 6..sot + 10].copy_from_slice(&length.to_be_bytes());
    let notes = found(&longer).notes;
    assert_eq!(notes.iter().map(|note| (note.offset, note.message)).collect::<Vec<_>>(), [(part.end, Message::Left)]);
}

/// The place and the content of the first segment with this marker.
fn segment(file: &[u8], marker: u8) -> (usize, Vec<u8>) {
    let at = file.windows(2).position(|two| two == [0xff, marker]).unwrap();
    (at, file[at + 4..at + 2 + number(&file[at + 2..at + 4])].to_vec())
}

/// A marker segment's bytes.
fn marked(marker: u8, content: &[u8]) -> Vec<u8> {
    [&[0xff, marker, 0, content.len() as u8 + 2], content].concat()
}

#[test]
fn components_with_segments_of_their_own() {
    let file = std::fs::read(Path::new(env!("CARGO_MANIFEST_DIR")).join("tests/drawings/openjpeg_RPCL.j2k")).unwrap();
    let (cod_at, cod) = segment(&file, 0x52);
    let (qcd_at, qcd) = segment(&file, 0x5c);
    let mut own = vec![0xff, 0x30];
    for component in 0..3 {
        own.extend(marked(0x53, &[&[component, cod[0] & 1], &cod[5..]].concat()));
        own.extend(marked(0x5d, &[&[component], &qcd[..]].concat()));
    }
    // COD now says no level, other blocks and no precincts, and QCD one band alone.
    let general = marked(0x52, &[&[cod[0] & !1], &cod[1..5], &[0, 4, 4, 0, 1]].concat());
    assert_eq!(qcd_at, cod_at + 4 + cod.len());
    let other = [&file[..cod_at], &own, &general, &marked(0x5c, &[0x20, 8]), &file[qcd_at + 4 + qcd.len()..]].concat();
    let (before, after) = (found(&file), found(&other));
    assert!(after.notes.is_empty() && after.messages.is_empty(), "{:?}", after.notes);
    let moved = other.len() - file.len();
    let expected: Vec<_> = before.packets.iter().map(|packet| packet.start + moved..packet.end + moved).collect();
    assert_eq!(after.packets, expected);
}

#[test]
fn several_codestreams_in_boxes() {
    let file = std::fs::read(Path::new(env!("CARGO_MANIFEST_DIR")).join("tests/drawings/openjpeg_poc.j2k")).unwrap();
    let mut boxed = vec![0, 0, 0, 12, b'j', b'P', b' ', b' ', 0x0d, 0x0a, 0x87, 0x0a];
    for _ in 0..2 {
        boxed.extend((file.len() as u32 + 8).to_be_bytes());
        boxed.extend(b"jp2c");
        boxed.extend(&file);
    }
    let (one, two) = (found(&file), found(&boxed));
    assert!(two.notes.is_empty());
    assert_eq!(two.packets.len(), 2 * one.packets.len());
}

/// A codestream whose packets have SOP, with the headers moved to PPM, or else to PPT; those of each tile-part lack so many last bytes.
fn packed(file: &[u8], in_main: bool, missing: usize) -> Vec<u8> {
    let found = found(file);
    let mut packets = found.packets.iter().zip(&found.headers).peekable();
    let first = file.windows(4).position(|four| four == [0xff, 0x90, 0, 10]).unwrap();
    let (mut main, mut parts, mut at) = (Vec::new(), Vec::new(), first);
    for part in tile_parts(file) {
        let (mut headers, mut bodies) = (Vec::new(), Vec::new());
        while let Some((packet, header)) = packets.next_if(|(packet, _)| packet.start < part.end) {
            headers.extend(&file[packet.start + 6..packet.start + header]);
            bodies.extend(&file[packet.start..packet.start + 6]);
            bodies.extend(&file[packet.start + header..packet.end]);
        }
        headers.truncate(headers.len().saturating_sub(missing));
        let mut head = file[at..part.start - 2].to_vec();
        if in_main {
            main.extend((headers.len() as u32).to_be_bytes());
            main.extend(headers);
        } else {
            for (index, some) in headers.chunks(200).enumerate() {
                head.extend(marked(0x61, &[&[index as u8], some].concat()));
            }
        }
        let length = (head.len() + 2 + bodies.len()) as u32;
        head[6..10].copy_from_slice(&length.to_be_bytes());
        parts.extend([&head[..], &[0xff, 0x93], &bodies].concat());
        at = part.end;
    }
    let segments = main.chunks(200).enumerate().flat_map(|(index, some)| marked(0x60, &[&[index as u8], some].concat()));
    [&file[..first], &segments.collect::<Vec<u8>>(), &parts, &file[at..]].concat()
}

#[test]
fn packed_headers() {
    let english = Catalogue::of("en").unwrap();
    for name in ["openjpeg_RPCL.j2k", "grok_LRCP.j2k", "ffmpeg_cprl.j2k"] {
        let file = std::fs::read(Path::new(env!("CARGO_MANIFEST_DIR")).join("tests/drawings").join(name)).unwrap();
        for in_main in [true, false] {
            let packed = packed(&file, in_main, 0);
            let (before, after) = (found(&file), found(&packed));
            assert!(after.notes.is_empty() && after.messages.is_empty(), "{name} {in_main} {:?} {:?}", after.notes, after.messages);
            let headers: Vec<usize> = before.headers.iter().map(|header| header - 6).collect();
            assert_eq!(after.headers, headers, "{name} {in_main}");
            let check = Check::of(name, Form::Csv, &english, Some(&packed));
            assert_eq!((check.whole, check.same + check.full_headers), (true, check.packets), "{name} {in_main}");
            assert_eq!(check.full_headers > 0, !name.contains("ffmpeg"), "{name} {in_main}");
            for place in (0..packed.len()).step_by(37) {
                let mut damaged = packed.clone();
                damaged[place] ^= 0x11;
                Check::of(name, Form::Csv, &english, Some(&damaged));
            }
        }
    }
}

/// Without SOP in front of a packed packet's body, that is told, and no byte of the body is taken for it.
#[test]
fn packed_headers_without_sop() {
    for name in ["openjpeg_RPCL.j2k", "grok_LRCP.j2k", "ffmpeg_cprl.j2k"] {
        let file = std::fs::read(Path::new(env!("CARGO_MANIFEST_DIR")).join("tests/drawings").join(name)).unwrap();
        for in_main in [true, false] {
            let packed = packed(&file, in_main, 0);
            let whole = found(&packed);
            let place = whole.packets.iter().position(|packet| packet.len() > 6).unwrap();
            let packet = &whole.packets[place];
            let mut without = packed.clone();
            without.drain(packet.start..packet.start + 6);
            let part = packed.windows(4).position(|four| four == [0xff, 0x90, 0, 10]).unwrap() + 6;
            let length = number(&packed[part..part + 4]) as u32 - 6;
            without[part..part + 4].copy_from_slice(&length.to_be_bytes());
            let after = found(&without);
            assert_eq!((after.messages, after.notes), (vec![Message::Sop], vec![]), "{name} {in_main}");
            assert_eq!((after.headers, after.segments), (whole.headers, whole.segments), "{name} {in_main}");
            assert_eq!(after.packets[place], packet.start..packet.end - 6, "{name} {in_main}");
            let moved = whole.packets[place + 1..].iter().map(|packet| packet.start - 6..packet.end - 6);
            assert_eq!(after.packets[place + 1..], moved.collect::<Vec<_>>(), "{name} {in_main}");
        }
    }
}

/// Packed headers that end in a header: it is told, and of the other packets nothing else.
#[test]
fn packed_headers_that_are_cut() {
    for name in ["openjpeg_RPCL.j2k", "grok_LRCP.j2k", "ffmpeg_cprl.j2k"] {
        let file = std::fs::read(Path::new(env!("CARGO_MANIFEST_DIR")).join("tests/drawings").join(name)).unwrap();
        for in_main in [true, false] {
            let whole = found(&packed(&file, in_main, 0));
            let mut cut_headers = 0;
            for missing in 1..40 {
                let cut = found(&packed(&file, in_main, missing));
                assert!(cut.packets.len() < whole.packets.len() || !cut.messages.is_empty(), "{name} {in_main} {missing}");
                cut_headers += cut.notes.iter().filter(|note| matches!(note.message, Message::HeaderPast(Some(1..)))).count();
                for told in cut.headers.iter().zip(&cut.segments) {
                    // EPH is cut off where the mark says so
                    let full =
                        |(header, segments)| (header, segments) == told || (header - 2..*header).contains(told.0) && segments == told.1;
                    assert!(whole.headers.iter().zip(&whole.segments).any(full), "{name} {in_main} {missing}");
                }
            }
            assert!(cut_headers > 0, "{name} {in_main}");
        }
    }
}
