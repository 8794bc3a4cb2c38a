//! Rows of the sheet, as CSV or as one JSON object a line.
use crate::boxes;
use crate::catalogue::Catalogue;
use crate::message::Message;
use crate::order::Precinct;
use crate::walk::{self, Note, Seen, Visitor};
use std::fmt::Write;
use tonkelvi::{Block, Packet, Segment};

pub const HEAD: &str =
    "file,tile,layer,resolution,component,precinct,offset,header bytes,body bytes,blocks,passes,lengths,starts,message,sentence\n";

#[derive(Clone, Copy, PartialEq, Eq, Debug)]
pub enum Form {
    Csv,
    Json,
}

/// The rows of one file.
pub struct Sheet<'a> {
    pub name: &'a str,
    pub form: Form,
    pub catalogue: &'a Catalogue,
    pub rows: String,
    pub packets: u64,
    pub whole: bool,
}

impl<'a> Sheet<'a> {
    pub fn new(name: &'a str, form: Form, catalogue: &'a Catalogue) -> Sheet<'a> {
        Sheet { name, form, catalogue, rows: String::new(), packets: 0, whole: true }
    }

    /// Reads a file's bytes, or says that there are none.
    pub fn read(&mut self, file: std::io::Result<Vec<u8>>) {
        match file {
            Ok(file) => visit(&file, self),
            Err(_) => self.note(Note { tile: None, turn: None, offset: 0, message: Message::Unread }),
        }
    }

    fn row(&mut self, tile: Option<u32>, turn: Option<(Precinct, u16)>, offset: usize, packet: Option<&Packet>, message: Option<Message>) {
        self.whole &= !message.is_some_and(Message::is_fault);
        let number = |n: Option<u64>| n.map(|n| n.to_string()).unwrap_or_default();
        let fields = [
            number(tile.map(u64::from)),
            number(turn.map(|t| t.1.into())),
            number(turn.map(|t| t.0.resolution.into())),
            number(turn.map(|t| t.0.component.into())),
            number(turn.map(|t| t.0.number.into())),
            offset.to_string(),
            number(packet.map(|p| p.taken as u64)),
            number(packet.map(Packet::body)),
        ];
        let lists = packet.map(lists).unwrap_or_default();
        let sentence = message.map(|m| self.catalogue.sentence(m)).unwrap_or_default();
        let message = number(message.map(|m| m.number().into()));
        match self.form {
            Form::Csv => {
                let lists = lists.map(|list| list.join(" "));
                let _ =
                    writeln!(self.rows, "{},{},{},{message},{}", quoted(self.name), fields.join(","), lists.join(","), quoted(&sentence));
            }
            Form::Json => json_row(&mut self.rows, self.name, &fields, &lists, &message, &sentence),
        }
    }
}

impl Visitor for Sheet<'_> {
    fn packet(&mut self, seen: &Seen) {
        self.packets += 1;
        self.row(Some(seen.tile), Some((seen.precinct, seen.layer)), seen.offset, Some(seen.packet), seen.message);
    }

    fn note(&mut self, note: Note) {
        self.row(note.tile, note.turn, note.offset, None, Some(note.message));
    }
}

/// Walks every codestream of a file.
pub fn visit(file: &[u8], visitor: &mut dyn Visitor) {
    let say = |offset, message| Note { tile: None, turn: None, offset, message };
    let Some(found) = boxes::codestreams(file) else {
        return visitor.note(say(0, Message::Foreign));
    };
    for stream in &found.streams {
        walk::walk(file, stream.clone(), visitor);
    }
    if !found.whole {
        visitor.note(say(file.len(), Message::Cut));
    } else if found.streams.is_empty() {
        visitor.note(say(file.len(), Message::Foreign));
    }
}

/// Numbers of the blocks that contribute, the passes of each, and the lengths and starts of each one's segments with + between.
fn lists(packet: &Packet) -> [Vec<String>; 4] {
    let [mut blocks, mut passes, mut lengths, mut starts] = [vec![], vec![], vec![], vec![]];
    let mut segments = packet.segments.iter().peekable();
    for (number, block) in packet.blocks.iter().enumerate() {
        if let Block::First { passes: count, .. } | Block::Again { passes: count } = block {
            let own: Vec<&Segment> = std::iter::from_fn(|| segments.next_if(|s| s.block == number)).collect();
            blocks.push(number.to_string());
            passes.push(count.to_string());
            lengths.push(joined(&own, |s| s.bytes.into()));
            starts.push(joined(&own, |s| s.start));
        }
    }
    [blocks, passes, lengths, starts]
}

/// A number of each segment, with + between.
fn joined(segments: &[&Segment], number: fn(&Segment) -> u64) -> String {
    segments.iter().map(|s| number(s).to_string()).collect::<Vec<_>>().join("+")
}

/// A CSV field, in quotes where it must be.
pub fn quoted(field: &str) -> String {
    if field.contains([',', '"', '\n', '\r']) {
        format!("\"{}\"", field.replace('"', "\"\""))
    } else {
        field.to_string()
    }
}

/// A JSON string.
pub fn json_string(text: &str) -> String {
    let mut out = String::from("\"");
    for c in text.chars() {
        match c {
            '"' => out.push_str("\\\""),
            '\\' => out.push_str("\\\\"),
            c if (c as u32) < 32 => {
                let _ = write!(out, "\\u{:04x}", c as u32);
            }
            c => out.push(c),
        }
    }
    out.push('"');
    out
}

const NAMES: [&str; 8] = ["tile", "layer", "resolution", "component", "precinct", "offset", "header_bytes", "body_bytes"];

fn json_row(out: &mut String, name: &str, fields: &[String; 8], lists: &[Vec<String>; 4], message: &str, sentence: &str) {
    let _ = write!(out, "{{\"file\":{}", json_string(name));
    for (key, value) in NAMES.iter().zip(fields).filter(|(_, value)| !value.is_empty()) {
        let _ = write!(out, ",\"{key}\":{value}");
    }
    if !fields[6].is_empty() {
        let [blocks, passes, lengths, starts] = lists;
        let _ = write!(out, ",\"blocks\":[{}],\"passes\":[{}]", blocks.join(","), passes.join(","));
        let _ = write!(out, ",\"lengths\":[{}],\"starts\":[{}]", nested(lengths), nested(starts));
    }
    if !message.is_empty() {
        let _ = write!(out, ",\"message\":{message},\"sentence\":{}", json_string(sentence));
    }
    out.push_str("}\n");
}

/// A JSON list for each block of its segments' numbers.
fn nested(joined: &[String]) -> String {
    joined.iter().map(|own| format!("[{}]", own.replace('+', ","))).collect::<Vec<_>>().join(",")
}
