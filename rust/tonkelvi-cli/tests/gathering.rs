//! Packet headers of whole files gathered in front, and spread again.
mod apart;
mod made;
use apart::{drawing, drawings, number, segment, Codestream, Packet};
use std::collections::BTreeMap;
use std::io::Write;
use std::path::Path;
use std::process::Command;
use tonkelvi::{Band, Contribution, Markers, Refusal, Writer};
use tonkelvi_cli::catalogue::Catalogue;
use tonkelvi_cli::check::Check;
use tonkelvi_cli::message::Message;
use tonkelvi_cli::moves::{moved, Way};
use tonkelvi_cli::rows::{Form, Sheet};

fn gathered(file: &[u8]) -> Vec<u8> {
    moved(file, Way::Gather).unwrap().file
}

fn spread(file: &[u8]) -> Vec<u8> {
    moved(file, Way::Spread).unwrap().file
}

fn said(file: &[u8], way: Way) -> Message {
    moved(file, way).unwrap_err().message
}

// ---- what is right of a gathered file

/// The lengths that PLT tells of a tile's packets, tile by tile.
fn told_by_plt(stream: &Codestream) -> BTreeMap<usize, Vec<usize>> {
    let mut tiles = BTreeMap::<usize, Vec<usize>>::new();
    for part in &stream.parts {
        for content in part.contents(0x58) {
            let fields = content[1..].split_inclusive(|byte| byte & 0x80 == 0);
            let lengths = fields.map(|field| field.iter().fold(0, |sum, byte| sum << 7 | usize::from(byte & 0x7f)));
            tiles.entry(part.tile).or_default().extend(lengths);
        }
    }
    tiles
}

/// TLM and PLT tell the lengths that tile-parts and packets have.
fn lengths_are_right(stream: &Codestream) {
    let mut parts = stream.parts.iter();
    for content in stream.contents(0x55) {
        let (tile, length) = (usize::from(content[1] >> 4 & 3), if content[1] & 0x40 == 0 { 2 } else { 4 });
        for entry in content[2..].chunks(tile + length) {
            let part = parts.next().unwrap();
            assert!(tile == 0 || number(&entry[..tile]) == part.tile);
            assert_eq!(number(&entry[tile..]), part.bytes().len());
        }
    }
    assert!(stream.contents(0x55).is_empty() || parts.next().is_none());
    for (tile, lengths) in told_by_plt(stream) {
        let parts = stream.parts.iter().filter(|part| part.tile == tile);
        assert_eq!(lengths, parts.flat_map(|part| part.packets.iter().map(Packet::len)).collect::<Vec<_>>());
    }
}

/// The codestream gathered by hand: PPT behind the other segments, full but for the last, with indexes that go on in their tile as long as
/// there are any. TLM and PLT are those of the other file.
fn by_hand(stream: &Codestream, other: &Codestream) -> Codestream {
    let mut made = stream.clone();
    let (mut indexes, mut counts) = (BTreeMap::new(), BTreeMap::new());
    for part in &stream.parts {
        let bytes = part.packets.iter().map(|packet| packet.header.len()).sum::<usize>();
        *counts.entry(part.tile).or_insert(0) += bytes.div_ceil(65_532);
    }
    let take = |list: &mut Vec<Vec<u8>>, from: &[Vec<u8>]| {
        let corrected = |segment: &Vec<u8>| [0x55, 0x58].contains(&segment[1]);
        let mut others = from.iter().filter(|segment| corrected(segment));
        list.iter_mut().filter(|segment| corrected(segment)).for_each(|own| *own = others.next().unwrap().clone());
    };
    take(&mut made.main, &other.main);
    for (part, other) in made.parts.iter_mut().zip(&other.parts) {
        take(&mut part.segments, &other.segments);
        if counts[&part.tile] > 256 {
            indexes.remove(&part.tile);
        }
        for headers in part.take_headers().chunks(65_532) {
            let index = indexes.entry(part.tile).or_insert(0);
            part.segments.push(segment(0x61, &[&[*index as u8], headers].concat()));
            *index += 1;
        }
    }
    made
}

/// The columns of the sheet's rows, but for the offset and SOP.
fn rows(file: &[u8], sop: usize) -> Vec<Vec<String>> {
    let english = Catalogue::of("en").unwrap();
    let mut sheet = Sheet::new("drawing", Form::Csv, &english);
    sheet.read(Ok(file.to_vec()));
    let row = |row: &str| {
        let mut columns: Vec<String> = row.split(',').map(str::to_string).collect();
        columns[6].clear();
        columns[7] = (columns[7].parse::<usize>().unwrap() - sop).to_string();
        columns
    };
    sheet.rows.lines().map(row).collect()
}

/// Gathers a file and looks at all of it; answers the gathered one.
fn there_and_back(name: &str, file: &[u8]) -> Vec<u8> {
    let (there, stream) = (moved(file, Way::Gather).unwrap(), Codestream::of(file));
    let gathered = Codestream::of(&there.file);
    lengths_are_right(&stream);
    lengths_are_right(&gathered);
    assert!(gathered.bytes() == by_hand(&stream, &gathered).bytes(), "{name}");
    let back = moved(&there.file, Way::Spread).unwrap();
    assert!(back.file == file, "{name}");
    assert_eq!((back.packets, back.header_bytes, back.tile_parts), (there.packets, there.header_bytes, there.tile_parts), "{name}");
    let english = Catalogue::of("en").unwrap();
    let check = |file| Check::of("drawing", Form::Csv, &english, Some(file));
    let (before, after) = (check(file), check(&there.file));
    assert!(after.whole && after.packets == there.packets, "{name}");
    assert_eq!((after.packets, after.same, after.full_headers), (before.packets, before.same, before.full_headers), "{name}");
    assert_eq!(after.same + after.full_headers, after.packets, "{name}");
    let sop = stream.parts.iter().flat_map(|part| &part.packets).map(|packet| packet.sop.len()).max().unwrap();
    assert_eq!(rows(&there.file, 0), rows(file, sop), "{name}");
    there.file
}

#[test]
fn every_drawing_there_and_back() {
    let drawings = drawings();
    assert!(drawings.len() >= 20);
    let several_parts = |file: &[u8]| {
        let parts = Codestream::of(file).parts;
        parts.iter().map(|part| part.tile).collect::<std::collections::BTreeSet<_>>().len() < parts.len()
    };
    assert!(drawings.iter().filter(|(_, file)| several_parts(file)).count() >= 3);
    for (path, file) in drawings {
        there_and_back(&path.to_string_lossy(), &file);
    }
}

// ---- files made of drawings

/// A codestream with these lengths of its tile-parts in TLM, as two segments that are not in order: the tile's number of `tile` bytes, the
/// length of `length`.
fn with_tlm(mut stream: Codestream, tile: usize, length: usize) -> Vec<u8> {
    let entry = |part: &apart::Part| {
        let (number, bytes) = (part.tile.to_be_bytes(), part.bytes().len().to_be_bytes());
        [&number[8 - tile..], &bytes[8 - length..]].concat()
    };
    let entries: Vec<Vec<u8>> = stream.parts.iter().map(entry).collect();
    let form = (tile << 4) as u8 | if length == 4 { 0x40 } else { 0 };
    let (first, second) = entries.split_at(entries.len() / 2);
    stream.main.push(segment(0x55, &[&[1, form], &second.concat()[..]].concat()));
    stream.main.push(segment(0x55, &[&[0, form], &first.concat()[..]].concat()));
    stream.bytes()
}

/// A length as PLT has it, in at least so many bytes.
fn field(length: usize, width: usize) -> Vec<u8> {
    let bytes = (1..9).find(|bytes| length >> (7 * bytes) == 0).unwrap().max(width);
    (0..bytes).rev().map(|place| (length >> (7 * place) & 0x7f) as u8 | if place > 0 { 0x80 } else { 0 }).collect()
}

/// A codestream with the lengths of each tile-part's packets in PLT, in two segments that are not in order.
fn with_plt(mut stream: Codestream, width: usize) -> Vec<u8> {
    for part in &mut stream.parts {
        let fields: Vec<Vec<u8>> = part.packets.iter().map(|packet| field(packet.len(), width)).collect();
        let (first, second) = fields.split_at(fields.len() / 3);
        part.segments.push(segment(0x58, &[&[5], &second.concat()[..]].concat()));
        part.segments.insert(1, segment(0x58, &[&[2], &first.concat()[..]].concat()));
    }
    stream.bytes()
}

/// A codestream whose last tile-part tells no length.
fn with_open_end(mut stream: Codestream) -> Vec<u8> {
    stream.parts.last_mut().unwrap().segments[0][6..10].fill(0);
    stream.bytes()
}

#[test]
fn lengths_in_headers() {
    let mut made = 0;
    for (path, file) in drawings() {
        let stream = Codestream::of(&file);
        let name = path.to_string_lossy();
        // Numbers of tiles are left out where each has one tile-part, in order.
        let in_order = stream.parts.iter().enumerate().all(|(count, part)| part.tile == count);
        let mut forms = vec![with_tlm(stream.clone(), 1, 4), with_tlm(stream.clone(), 2, 2), with_open_end(stream.clone())];
        if in_order {
            forms.extend([with_tlm(stream.clone(), 0, 4), with_tlm(stream.clone(), 0, 2)]);
        }
        if told_by_plt(&stream).is_empty() {
            forms.extend([with_plt(stream.clone(), 1), with_plt(stream.clone(), 3)]);
        }
        for form in forms {
            there_and_back(&name, &form);
            made += 1;
        }
    }
    assert!(made > 100, "{made} files");
}

/// A header's PLT tells of packets in later tile-parts too, and may leave out those of earlier ones.
#[test]
fn lengths_of_other_tile_parts() {
    let stream = Codestream::of(&drawing("openjpeg_lossy.jp2"));
    assert!(stream.parts.len() == 3 && stream.parts.iter().all(|part| part.packets.len() == 9));
    let fields: Vec<Vec<u8>> = stream.parts.iter().flat_map(|part| &part.packets).map(|packet| field(packet.len(), 1)).collect();
    let with = |told: [std::ops::Range<usize>; 3]| {
        let mut stream = stream.clone();
        for (part, told) in stream.parts.iter_mut().zip(told).filter(|(_, told)| !told.is_empty()) {
            part.segments.push(segment(0x58, &[&[0], &fields[told].concat()[..]].concat()));
        }
        stream.bytes()
    };
    there_and_back("ahead", &with([0..13, 13..20, 20..27]));
    there_and_back("all in the first", &with([0..27, 0..0, 0..0]));
    // Of the first tile-part, or of its last packet, nothing is told.
    for told in [[0..0, 9..18, 18..27], [0..0, 9..27, 0..0], [0..8, 9..10, 18..20]] {
        let (file, lengths) = (with(told.clone()), told.map(|some| some.collect::<Vec<_>>()).concat());
        let there = gathered(&file);
        let packets: Vec<usize> = Codestream::of(&there).parts.iter().flat_map(|part| &part.packets).map(Packet::len).collect();
        let told: Vec<usize> = lengths.iter().map(|&packet| packets[packet]).collect();
        assert_eq!(told_by_plt(&Codestream::of(&there))[&0], told);
        assert!(spread(&there) == file);
    }
    assert_eq!(said(&with([0..13, 12..20, 20..27]), Way::Gather), Message::Damaged);
}

fn boxed(kind: &[u8; 4], content: &[u8]) -> Vec<u8> {
    [&(content.len() as u32 + 8).to_be_bytes(), &kind[..], content].concat()
}

const SIGNATURE: &[u8] = b"\0\0\0\x0cjP  \x0d\x0a\x87\x0a";

#[test]
fn codestreams_in_boxes() {
    let (one, two) = (drawing("openjpeg_poc.j2k"), drawing("openjpeg_LRCP.j2k"));
    let long = |content: &[u8]| [&[0, 0, 0, 1], &b"jp2c"[..], &(content.len() as u64 + 16).to_be_bytes(), content].concat();
    let open = |content: &[u8]| [&[0, 0, 0, 0], &b"jp2c"[..], content].concat();
    let file = |one: &[u8], two: &[u8]| {
        let boxes = [boxed(b"ftyp", b"jpx 0000"), boxed(b"jp2c", one), boxed(b"xml ", b"<a/>"), long(two), boxed(b"free", b""), open(one)];
        [SIGNATURE, &boxes.concat()].concat()
    };
    let whole = file(&one, &two);
    let there = moved(&whole, Way::Gather).unwrap();
    assert!(there.file == file(&gathered(&one), &gathered(&two)));
    assert!(spread(&there.file) == whole);
    let each = [&one, &two, &one].map(|file| moved(file, Way::Gather).unwrap());
    assert_eq!(there.packets, each.iter().map(|one| one.packets).sum::<u64>());
    assert_eq!(there.tile_parts, each.iter().map(|one| one.tile_parts).sum::<u64>());
    // Gathered is told of any codestream, and so is a box with places in the file.
    let half = file(&one, &gathered(&two));
    assert_eq!(said(&half, Way::Gather), Message::AlreadyGathered);
    assert!(spread(&half) == whole);
    let mut listed = whole.clone();
    let at = whole.windows(4).position(|kind| kind == b"xml ").unwrap();
    listed[at..at + 4].copy_from_slice(b"flst");
    let note = moved(&listed, Way::Gather).unwrap_err();
    assert_eq!((note.message, note.offset), (Message::Uncorrected, at));
}

/// Bytes behind EOC stay.
#[test]
fn what_follows_the_end() {
    for name in ["openjpeg_style1.j2k", "openjpeg_lossy.jp2"] {
        let file = drawing(name);
        let longer = [&Codestream::of(&file).bytes()[..], b"and more"].concat();
        let there = gathered(&longer);
        assert!(there.ends_with(b"\xff\xd9and more") && spread(&there) == longer, "{name}");
    }
}

/// No marker, one and both, with packets of the engine's writer.
#[test]
fn every_choice_of_markers() {
    for markers in [Markers::NONE, Markers { sop: true, eph: false }, Markers { sop: false, eph: true }, Markers::BOTH] {
        let mut writer = Writer::new(&[Band { across: 3, down: 2, planes: 9 }], 0, &[9, 8, 7, 6, 5, 0]).unwrap();
        let mut packet = |number: u32| {
            let counts: Vec<u32> = (0..6).map(|block| (number + block) % 4).collect();
            let passes = counts.iter().sum::<u32>() as usize;
            let layer = Contribution { counts: &counts, lengths: &vec![9 * number; passes], marks: &vec![0; passes] };
            writer.write(layer, &vec![7; 9 * number as usize * passes], markers, number).unwrap()
        };
        let packets: Vec<Vec<u8>> = (0..20).map(&mut packet).collect();
        there_and_back(&format!("{markers:?}"), &made::codestream(3, 2, &packets, markers));
    }
}

// ---- headers packed by others

/// Headers in PPM, with the tile-parts' lengths in segments of 200 bytes.
fn in_ppm(mut stream: Codestream) -> Vec<u8> {
    let mut all = Vec::new();
    for part in &mut stream.parts {
        let headers = part.take_headers();
        all.extend((headers.len() as u32).to_be_bytes());
        all.extend(headers);
    }
    for (index, some) in all.chunks(200).enumerate() {
        stream.main.insert(2, segment(0x60, &[&[index as u8], some].concat()));
    }
    stream.bytes()
}

/// Headers in PPT segments of so many bytes, in front of each tile-part's other segments, with indexes from `first` on.
fn in_ppt(mut stream: Codestream, bytes: usize, first: u8) -> Codestream {
    for part in &mut stream.parts {
        let headers = part.take_headers();
        let segments =
            headers.chunks(bytes).enumerate().map(|(index, some)| segment(0x61, &[&[first.wrapping_add(index as u8)], some].concat()));
        part.segments.splice(1..1, segments);
    }
    stream
}

#[test]
fn from_other_forms() {
    for (path, file) in drawings().into_iter().filter(|(path, _)| path.extension().unwrap() == "j2k") {
        let stream = Codestream::of(&file);
        if !told_by_plt(&stream).is_empty() {
            continue;
        }
        let forms = [in_ppm(stream.clone()), in_ppt(stream.clone(), 20, 0).bytes(), in_ppt(stream.clone(), 300, 9).bytes()];
        for form in forms {
            assert!(spread(&form) == file, "{path:?}");
            assert_eq!(said(&form, Way::Gather), Message::AlreadyGathered, "{path:?}");
        }
    }
}

/// PLT grows with the lengths that it tells.
#[test]
fn fields_that_grow() {
    let stream = Codestream::of(&drawing("openjpeg_style1.j2k"));
    let mut packed = in_ppt(stream.clone(), 1000, 0);
    let fields: Vec<u8> = packed.parts[0].packets.iter().flat_map(|packet| field(packet.len(), 1)).collect();
    packed.parts[0].segments.push(segment(0x58, &[&[0], &fields[..]].concat()));
    let back = Codestream::of(&spread(&packed.bytes()));
    lengths_are_right(&back);
    assert!(back.parts[0].contents(0x58)[0].len() > 1 + fields.len());
    let mut without = back;
    without.parts[0].segments.retain(|segment| segment[1] != 0x58);
    assert!(without.bytes() == stream.bytes());
}

// ---- files that are turned away

#[test]
fn what_is_not_moved() {
    let plain = drawing("openjpeg_RPCL.j2k");
    let stream = Codestream::of(&plain);
    let packed = gathered(&plain);
    assert_eq!((said(&packed, Way::Gather), said(&plain, Way::Spread)), (Message::AlreadyGathered, Message::NotGathered));
    assert_eq!(said(b"\x89PNG", Way::Gather), Message::Foreign);
    assert_eq!(said(&plain[..plain.len() - 1], Way::Gather), Message::Cut);
    assert_eq!(said(&packed[..packed.len() - 9], Way::Spread), Message::Cut);
    assert_eq!(said(&drawing("grok_high_throughput.j2k"), Way::Gather), Message::Refused(Refusal::Style));
    // PLM and the segments of Parts 8 and 11, in the main header or in a tile-part's.
    for marker in [0x57, 0x65, 0x66, 0x67, 0x68, 0x69] {
        let (mut in_main, mut in_part) = (stream.clone(), stream.clone());
        in_main.main.push(segment(marker, &[0, 0]));
        in_part.parts[1].segments.push(segment(marker, &[0, 0]));
        for other in [in_main, in_part] {
            assert_eq!(said(&other.bytes(), Way::Gather), Message::Uncorrected);
            assert_eq!(said(&in_ppt(other, 100, 0).bytes(), Way::Spread), Message::Uncorrected);
        }
    }
}

/// Lengths that were wrong before are not made wrong otherwise.
#[test]
fn wrong_lengths() {
    let stream = Codestream::of(&drawing("openjpeg_RPCL.j2k"));
    for (file, marker) in [(with_tlm(stream.clone(), 1, 4), 0x55), (with_plt(stream.clone(), 1), 0x58)] {
        let at = file.windows(2).position(|two| two == [0xff, marker]).unwrap();
        let end = at + 1 + number(&file[at + 2..at + 4]);
        let mut wrong = file.clone();
        wrong[end] ^= 1;
        let note = moved(&wrong, Way::Gather).unwrap_err();
        assert_eq!((note.message, note.offset), (Message::Damaged, at));
        assert_eq!(note.tile, if marker == 0x58 { Some(0) } else { None });
    }
    let mut fewer = stream.clone();
    fewer.main.push(segment(0x55, &[0, 0x50, 0, 0, 0, 1, 2]));
    assert_eq!(said(&fewer.bytes(), Way::Gather), Message::Damaged);
}

/// A tile-part's length of two bytes in TLM, with and without room for five bytes more.
#[test]
fn narrow_fields() {
    let mut writer = Writer::new(&[Band { across: 1, down: 1, planes: 9 }], 0, &[9]).unwrap();
    let layer = Contribution { counts: &[1], lengths: &[65_400], marks: &[0] };
    let packet = writer.write(layer, &[7; 65_400], Markers::NONE, 0).unwrap();
    let stream = Codestream::of(&made::codestream(1, 1, &[packet], Markers::NONE));
    let of_length = |length: usize| {
        let mut stream = stream.clone();
        let more = length - 4 - stream.parts[0].bytes().len();
        stream.parts[0].segments.push(segment(0x64, &vec![0; more]));
        with_tlm(stream, 1, 2)
    };
    there_and_back("65,535 bytes", &of_length(65_530));
    assert_eq!(said(&of_length(65_531), Way::Gather), Message::Narrow);
}

/// Two packets of which the first has no SOP: PPT can't tell whose it is.
#[test]
fn without_a_sop() {
    let markers = Markers { sop: true, eph: false };
    let with = [0xff, 0x91, 0, 4, 0, 1, 0x00];
    let ambiguous = made::codestream(1, 1, &[vec![0x00], with.to_vec()], markers);
    let note = moved(&ambiguous, Way::Gather).unwrap_err();
    assert_eq!((note.message, note.tile), (Message::NotRestored, Some(0)));
    let last = made::codestream(1, 1, &[with.to_vec(), vec![0x00]], markers);
    let there = gathered(&last);
    assert!(there.ends_with(b"\xff\x61\0\x05\0\0\0\xff\x93\xff\x91\0\x04\0\x01\xff\xd9") && spread(&there) == last);
    let eph = Markers { sop: false, eph: true };
    assert_eq!(said(&made::codestream(1, 1, &[vec![0x00], vec![0x00, 0xff, 0x92]], eph), Way::Gather), Message::Eph);
}

/// PPT segments out of order, an index twice, packets of one tile with and without their headers, PPT beside PPM, and segments that belong
/// in another header.
#[test]
fn wrong_segments() {
    let stream = Codestream::of(&drawing("openjpeg_style1.j2k"));
    let packed = in_ppt(stream.clone(), 100, 1);
    assert!(packed.parts[0].contents(0x61).len() > 2);
    for (place, index) in [(1, 7), (2, 0), (2, 1), (3, 5)] {
        let mut wrong = packed.clone();
        wrong.parts[0].segments[place][4] = index;
        assert_eq!(said(&wrong.bytes(), Way::Spread), Message::Refused(Refusal::Packed), "{place} {index}");
    }
    assert_eq!(said(&in_ppt(stream.clone(), 100, 254).bytes(), Way::Spread), Message::Refused(Refusal::Packed));
    let several = Codestream::of(&drawing("openjpeg_lossy.jp2"));
    let mut mixed = in_ppt(several.clone(), 1000, 0);
    mixed.parts[0] = several.parts[0].clone();
    assert_eq!(said(&mixed.bytes(), Way::Spread), Message::Damaged);
    let (mut both, mut one) = (stream.clone(), stream);
    one.parts[0].packets.truncate(1);
    let (first, all) = (one.parts[0].take_headers(), both.parts[0].take_headers());
    both.parts[0].segments.push(segment(0x61, &[&[0], &first[..]].concat()));
    let rest = &all[first.len()..];
    both.main.push(segment(0x60, &[&[0], &(rest.len() as u32).to_be_bytes()[..], rest].concat()));
    assert_eq!(said(&both.bytes(), Way::Spread), Message::Damaged);
    // In the other header.
    for marker in [0x55, 0x58] {
        let (mut plain, in_main) = (several.clone(), marker == 0x58);
        let list = if in_main { &mut plain.main } else { &mut plain.parts[1].segments };
        list.push(segment(marker, &[0, 0x40]));
        assert_eq!(said(&plain.bytes(), Way::Gather), Message::Damaged);
        assert_eq!(said(&in_ppt(plain, 1000, 0).bytes(), Way::Spread), Message::Damaged);
    }
    let mut swapped = in_ppt(several.clone(), 1000, 0);
    swapped.parts[0].segments[1][1] = 0x60;
    assert_eq!(said(&swapped.bytes(), Way::Spread), Message::Damaged);
    // Headers of a tile-part that is not there.
    let mut more = Codestream::of(&in_ppm(several));
    more.main.push(segment(0x60, &[200, 0, 0, 0, 1, 0]));
    assert_eq!(said(&more.bytes(), Way::Spread), Message::Damaged);
}

/// A codestream of one block, with so many packets in its first tile-part and in a second one, and the header bytes of its last packet: 21
/// bits for each of 164 passes.
fn long_headers(first: usize, second: usize) -> (Codestream, usize) {
    let mut writer = Writer::new(&[Band { across: 1, down: 1, planes: 9 }], 0x04, &[9]).unwrap();
    let wide = Contribution { counts: &[1], lengths: &[1 << 20], marks: &[1] };
    let mut all = vec![writer.write(wide, &vec![7; 1 << 20], Markers::NONE, 0).unwrap()];
    let many = Contribution { counts: &[164], lengths: &[0; 164], marks: &[1; 164] };
    all.extend((1..first + second).map(|_| writer.write(many, &[], Markers::NONE, 0).unwrap()));
    let bytes = all.last().unwrap().len();
    let mut file = made::codestream(1, 1, &all, Markers::NONE);
    let cod = file.windows(2).position(|two| two == [0xff, 0x52]).unwrap();
    file[cod + 12] = 0x04;
    let mut stream = Codestream::of(&file);
    let packets = stream.parts[0].packets.split_off(first);
    if second > 0 {
        stream.parts.push(apart::Part { packets, ..stream.parts[0].clone() });
        stream.parts[1].segments[0][10] = 1;
    }
    (stream, bytes)
}

/// 256 segments in a tile, in one tile-part or in two, and one more: in two tile-parts their indexes then begin anew.
#[test]
fn as_many_segments_as_there_can_be() {
    let (least, bytes) = long_headers(2, 0);
    // The first header has fewer bytes than the others.
    let most = 1 + (256 * 65_532 - least.parts[0].packets[0].header.len()) / bytes;
    let half = 128 * 65_532 / bytes;
    for (first, second, last) in [(most, 0, Some(255)), (most + 1, 0, None), (half, half, Some(255)), (half + 2, half - 2, Some(127))] {
        let (stream, _) = long_headers(first, second);
        let file = stream.bytes();
        let Some(last) = last else {
            let note = moved(&file, Way::Gather).unwrap_err();
            let at = file.len() - 2 - stream.parts[0].bytes().len();
            assert_eq!((note.message, note.tile, note.offset), (Message::Refused(Refusal::Segments), Some(0), at));
            continue;
        };
        let there = gathered(&file);
        let parts = Codestream::of(&there);
        assert!(there == by_hand(&stream, &parts).bytes() && spread(&there) == file, "{first} {second}");
        assert_eq!(parts.parts.last().unwrap().segments.last().unwrap()[4], last, "{first} {second}");
    }
}

#[test]
fn cut_and_damaged_files() {
    let english = Catalogue::of("en").unwrap();
    let (mut cut, mut damaged) = (0, [0, 0]);
    for (path, file) in drawings() {
        let packed = gathered(&file);
        for (file, way) in [(&file, Way::Gather), (&packed, Way::Spread)] {
            for end in (0..file.len()).step_by(211).chain([file.len() - 2, file.len() - 1]) {
                let mut sheet = Sheet::new("cut", Form::Csv, &english);
                sheet.read(Ok(file[..end].to_vec()));
                let message = said(&file[..end], way).number();
                assert!(sheet.rows.contains(&format!(",{message},")), "{path:?} {end}");
                cut += 1;
            }
            for place in (0..file.len().min(300)).chain((300..file.len()).step_by(97)) {
                let mut other = file.clone();
                other[place] ^= 1 << (place % 8);
                match moved(&other, way) {
                    Ok(there) if way == Way::Gather => assert!(spread(&there.file) == other, "{path:?} {place}"),
                    Ok(_) => {}
                    Err(_) => damaged[1] += 1,
                }
                damaged[0] += 1;
            }
        }
    }
    assert!(cut > 1000 && damaged[1] > 1000 && damaged[0] > damaged[1] + 1000, "{cut} {damaged:?}");
}

// ---- pictures

/// The picture that OpenJPEG's program makes of a file.
fn picture(name: &str, file: &[u8]) -> Vec<u8> {
    let folder = Path::new(env!("CARGO_TARGET_TMPDIR"));
    let (from, to) = (folder.join(name), folder.join(format!("{name}.ppm")));
    std::fs::write(&from, file).unwrap();
    let _ = std::fs::remove_file(&to);
    let output = Command::new("opj_decompress").arg("-i").arg(&from).arg("-o").arg(&to).output().unwrap();
    assert!(output.status.success(), "{name}: {}", String::from_utf8_lossy(&output.stderr));
    let picture = std::fs::read(&to).unwrap();
    std::fs::remove_file(&from).and_then(|()| std::fs::remove_file(&to)).unwrap();
    picture
}

#[test]
fn openjpeg_decodes_the_same_picture_where_it_is_installed() {
    if Command::new("opj_decompress").arg("-h").output().is_err() {
        // Past the test's own output, which is shown only where it fails.
        let _ = writeln!(std::io::stderr(), "left out: pictures of gathered drawings (there is no opj_decompress)");
        return;
    }
    let mut decoded = 0;
    for (path, file) in drawings() {
        let name = path.file_name().unwrap().to_string_lossy().into_owned();
        let whole = picture(&name, &file);
        assert!(picture(&name, &gathered(&file)) == whole, "{name}");
        decoded += 1;
        if name.ends_with(".j2k") {
            let stream = Codestream::of(&file);
            let forms = [with_tlm(stream.clone(), 1, 4), with_open_end(stream.clone())];
            for form in forms {
                assert!(picture(&name, &gathered(&form)) == whole, "{name}");
                decoded += 1;
            }
        }
    }
    assert!(decoded > 40, "{decoded} pictures");
}
