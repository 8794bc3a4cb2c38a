//! Where the codestreams of a file stand: the whole file, or the jp2c boxes of a JP2 or JPX file.
#![allow(clippy::single_range_in_vec_init)]
use std::ops::Range;

const SIGNATURE: [u8; 12] = [0, 0, 0, 12, b'j', b'P', b' ', b' ', 0x0d, 0x0a, 0x87, 0x0a];
const START: [u8; 4] = [0xff, 0x4f, 0xff, 0x51];

/// The codestreams found, and whether the boxes end where the file ends.
#[derive(Clone, PartialEq, Eq, Debug)]
pub struct Found {
    pub streams: Vec<Range<usize>>,
    pub whole: bool,
}

/// The codestreams of a file, or `None` if it is neither a codestream nor a file of boxes.
pub fn codestreams(file: &[u8]) -> Option<Found> {
    if file.starts_with(&START) {
        return Some(Found { streams: vec![0..file.len()], whole: true });
    }
    file.starts_with(&SIGNATURE).then(|| in_boxes(file))
}

fn in_boxes(file: &[u8]) -> Found {
    let mut streams = Vec::new();
    let mut at = 0;
    while at < file.len() {
        let Some(found) = one_box(file, at) else { return Found { streams, whole: false } };
        let end = found.content.end.min(file.len());
        if &found.kind == b"jp2c" {
            streams.push(found.content.start..end);
        }
        if found.content.end > file.len() {
            return Found { streams, whole: false };
        }
        at = end;
    }
    Found { streams, whole: true }
}

/// Kinds of boxes that hold places in the file: fragment lists of T.801, indexes of T.808.
const WITH_PLACES: [&[u8]; 4] = [b"flst", b"fidx", b"iptr", b"cidx"];

/// Where the name of such a box stands outside of the codestreams.
pub fn holds_places(file: &[u8], streams: &[Range<usize>]) -> Option<usize> {
    let outside = |at: &usize| streams.iter().all(|stream| !stream.contains(at));
    file.windows(4).enumerate().filter(|(_, name)| WITH_PLACES.contains(name)).map(|(at, _)| at).find(outside)
}

/// A whole file with other codestreams in the place of its own; `None` if the length of one has no room in its box.
pub fn with_streams(file: &[u8], streams: &[Vec<u8>]) -> Option<Vec<u8>> {
    if file.starts_with(&START) {
        return streams.first().cloned();
    }
    let (mut made, mut at, mut streams) = (Vec::new(), 0, streams.iter());
    while let Some(found) = one_box(file, at).filter(|found| found.content.end <= file.len()) {
        let head = &file[at..found.content.start];
        match streams.as_slice() {
            [stream, ..] if &found.kind == b"jp2c" => {
                made.extend(with_length(head, head.len() + stream.len())?);
                made.extend(stream);
                streams.next();
            }
            _ => made.extend(&file[at..found.content.end]),
        }
        at = found.content.end;
    }
    Some(made)
}

/// The first bytes of a box, with its length; one that goes on to the file's end keeps 0.
fn with_length(head: &[u8], length: usize) -> Option<Vec<u8>> {
    let mut head = head.to_vec();
    match u32::from_be_bytes(array(&head, 0)?) {
        0 => {}
        1 => head[8..16].copy_from_slice(&(length as u64).to_be_bytes()),
        _ => head[..4].copy_from_slice(&u32::try_from(length).ok()?.to_be_bytes()),
    }
    Some(head)
}

struct OneBox {
    kind: [u8; 4],
    content: Range<usize>,
}

/// The box that begins at `at`; its end may lie after the file's.
fn one_box(file: &[u8], at: usize) -> Option<OneBox> {
    let short = u32::from_be_bytes(array(file, at)?);
    let kind = array(file, at + 4)?;
    let (head, length) = match short {
        0 => (8, (file.len() - at) as u64),
        1 => (16, u64::from_be_bytes(array(file, at + 8)?)),
        _ => (8, u64::from(short)),
    };
    let end = usize::try_from(length).ok()?.checked_add(at)?;
    (end >= at + head).then_some(OneBox { kind, content: at + head..end })
}

fn array<const N: usize>(file: &[u8], at: usize) -> Option<[u8; N]> {
    file.get(at..at + N)?.try_into().ok()
}

#[cfg(test)]
mod tests {
    use super::*;

    fn boxed(kind: &[u8; 4], content: &[u8]) -> Vec<u8> {
        let mut bytes = (content.len() as u32 + 8).to_be_bytes().to_vec();
        bytes.extend(kind);
        bytes.extend(content);
        bytes
    }

    #[test]
    fn finds_streams() {
        let mut file = SIGNATURE.to_vec();
        file.extend(boxed(b"ftyp", b"jp2 0000"));
        file.extend(boxed(b"jp2c", b"abc"));
        assert_eq!(codestreams(&file), Some(Found { streams: vec![36..39], whole: true }));
        file.extend([0, 0, 0, 0, b'j', b'p', b'2', b'c', 1, 2]);
        assert_eq!(codestreams(&file), Some(Found { streams: vec![36..39, 47..49], whole: true }));
    }

    #[test]
    fn long_and_cut_boxes() {
        let mut file = SIGNATURE.to_vec();
        file.extend([0, 0, 0, 1, b'j', b'p', b'2', b'c', 0, 0, 0, 0, 0, 0, 0, 18, 7, 8]);
        assert_eq!(codestreams(&file), Some(Found { streams: vec![28..30], whole: true }));
        file.pop();
        assert_eq!(codestreams(&file), Some(Found { streams: vec![28..29], whole: false }));
        file.truncate(14);
        assert_eq!(codestreams(&file), Some(Found { streams: vec![], whole: false }));
    }

    #[test]
    fn other_streams() {
        let long = |length: u8, content: &[u8]| [&[0, 0, 0, 1], &b"jp2c"[..], &[0, 0, 0, 0, 0, 0, 0, length], content].concat();
        let to_the_end = |content: &[u8]| [&[0, 0, 0, 0], &b"jp2c"[..], content].concat();
        let file = |one: &[u8], long: Vec<u8>, last: &[u8]| {
            [&SIGNATURE[..], &boxed(b"jp2c", one), &boxed(b"xml ", b"jp2c"), &long, &to_the_end(last)].concat()
        };
        let (before, after) = (file(b"abc", long(18, b"de"), b"fg"), file(b"a", long(21, b"defgh"), b""));
        assert_eq!(with_streams(&before, &[b"a".to_vec(), b"defgh".to_vec(), vec![]]), Some(after));
        let own = codestreams(&before).unwrap().streams;
        let own: Vec<Vec<u8>> = own.into_iter().map(|stream| before[stream].to_vec()).collect();
        assert_eq!(with_streams(&before, &own), Some(before));
        assert_eq!(with_streams(&START, &[vec![7]]), Some(vec![7]));
        assert_eq!(with_length(&boxed(b"jp2c", b""), 1 << 32), None);
    }

    #[test]
    fn boxes_with_places() {
        let file = [&SIGNATURE[..], &boxed(b"jp2c", b"flst"), &boxed(b"ftbl", &boxed(b"flst", b""))].concat();
        let streams = codestreams(&file).unwrap().streams;
        assert_eq!(holds_places(&file, &streams), Some(12 + 12 + 8 + 4));
        assert_eq!(holds_places(&file[..24], &streams), None);
    }

    #[test]
    fn foreign_files() {
        assert_eq!(codestreams(b""), None);
        assert_eq!(codestreams(b"\x89PNG"), None);
        assert_eq!(codestreams(&START), Some(Found { streams: vec![0..4], whole: true }));
    }
}
