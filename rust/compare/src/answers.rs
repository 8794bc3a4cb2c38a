//! Crate openjp2's answers, a line for a line: tools/make_vectors.py and tools/compare_definitions.py ask them of `crate_answers`.
//! There is one precinct, made by `start` or `load`. Numbers are decimal, bytes are hexadecimal, `-` stands for no bytes.
//!
//! | line | answer |
//! |---|---|
//! | `start writer E COUNT (ACROSS DOWN PLANES).. STYLE BLOCK-PLANES..` | `ok` |
//! | `start reader E COUNT (ACROSS DOWN PLANES).. STYLE` | `ok` |
//! | `load E WORDS..` | `ok` |
//! | `dump` | `ok WORDS..` |
//! | `write SOP EPH NUMBER ROOM / COUNTS.. / LENGTHS.. / MARKS.. / BODY` | `ok BYTES FRONT body=`, `failed`, `panic` |
//! | `read SOP EPH BYTES` | `ok PRESENT TAKEN SEGMENTS SOP EPH / REPORTS.. / RECORDS..`, `failed width`, `failed align`, `panic` |
//!
//! E says how the crate is shown a band without blocks: 0 as an empty band, 1 as one with an area. WORDS are those of a state: the crate's
//! own "not yet", 999, is 65,535 in its inclusion trees, and 999 in one of them is answered `bad`. From layer 999 on the crate takes what
//! is not yet included for included. BODY is `*` for (7 i + 3) mod 256 at each place i, or `!` for no body: then only the header is made.
//! FRONT is the packet less its body; `body!` in place of `body=` says that the body is not what was given. `panic` is an assertion of the
//! crate. After a call that fails the precinct is what it was before. A line that is none of these, or whose lists have other lengths than
//! the precinct asks, is answered `bad`.
use crate::model;
use crate::openjp2::t2::precinct::{come_back, Failed, Precinct};
use std::panic::{catch_unwind, AssertUnwindSafe};

/// The longest body that `*` makes.
const LONGEST_BODY: u64 = 1 << 28;

#[derive(Default)]
pub struct Answers {
    precinct: Option<Precinct>,
    empty: bool,
}

impl Answers {
    pub fn answer(&mut self, line: &str) -> String {
        let (name, rest) = line.trim().split_once(' ').unwrap_or((line.trim(), ""));
        let answer = match name {
            "start" => self.start(rest),
            "load" => self.load(rest),
            "dump" => self.precinct.as_ref().map(|precinct| format!("ok {}", spaced(&precinct.words()))),
            "write" => self.write(rest),
            "read" => self.read(rest),
            _ => None,
        };
        answer.unwrap_or("bad".to_string())
    }

    fn start(&mut self, rest: &str) -> Option<String> {
        let (role, rest) = rest.split_once(' ')?;
        let writer = match role {
            "writer" => true,
            "reader" => false,
            _ => return None,
        };
        let numbers = numbers(rest)?;
        let (empty, count, rest) = (*numbers.first()?, *numbers.get(1)? as usize, &numbers[2..]);
        if !(1..=3).contains(&count) || rest.len() < 3 * count + 1 {
            return None;
        }
        let bands: Vec<[u32; 3]> = rest[..3 * count].chunks_exact(3).map(|b| [b[0], b[1], b[2]]).collect();
        let (style, planes) = (rest[3 * count], &rest[3 * count + 1..]);
        if bands.iter().any(|band| band[0] > 64 || band[1] > 64) || planes.len() != if writer { model::layout(&bands).2 } else { 0 } {
            return None;
        }
        self.empty = empty == 0;
        self.precinct = Some(Precinct::started(writer, &bands, style, planes, self.empty));
        Some("ok".to_string())
    }

    fn load(&mut self, rest: &str) -> Option<String> {
        let numbers = numbers(rest)?;
        let (empty, words) = numbers.split_first()?;
        if words.len() < 13 || !(1..=2).contains(&words[0]) || !(1..=3).contains(&words[1]) {
            return None;
        }
        let bands = model::bands_of(words);
        if bands.iter().any(|band| band[0] > 64 || band[1] > 64) || words.len() != model::layout(&bands).1 || !come_back(words) {
            return None;
        }
        self.empty = *empty == 0;
        self.precinct = Some(Precinct::from_words(words, self.empty));
        Some("ok".to_string())
    }

    /// Makes a call that may panic; where it fails the precinct is made again from its words before.
    fn call<T>(&mut self, call: impl FnOnce(&mut Precinct) -> Result<T, &'static str>) -> Option<Result<T, &'static str>> {
        let precinct = self.precinct.as_mut()?;
        let before = precinct.words();
        let done = catch_unwind(AssertUnwindSafe(|| call(precinct))).unwrap_or(Err("panic"));
        if done.is_err() {
            *precinct = Precinct::from_words(&before, self.empty);
        }
        Some(done)
    }

    fn write(&mut self, rest: &str) -> Option<String> {
        let parts: Vec<&str> = rest.split('/').collect();
        let [first, counts, lengths, marks, body] = parts[..] else { return None };
        let (first, counts, lengths, marks) = (numbers(first)?, numbers(counts)?, numbers(lengths)?, numbers(marks)?);
        let [sop, eph, number, room] = first[..] else { return None };
        let words = self.precinct.as_ref()?.words();
        let passes: u64 = counts.iter().map(|n| u64::from(*n)).sum();
        if words[0] != 1
            || counts.len() != model::layout(&model::bands_of(&words)).2
            || lengths.len() as u64 != passes
            || marks.len() as u64 != passes
        {
            return None;
        }
        let bytes: u64 = lengths.iter().map(|n| u64::from(*n)).sum();
        let body: Option<Vec<u8>> = match body.trim() {
            "!" => None,
            "*" if bytes <= LONGEST_BODY => Some((0..bytes).map(|i| (7 * i + 3) as u8).collect()),
            _ => return None,
        };
        let marks: Vec<u8> = marks.iter().map(|mark| u8::from(*mark != 0)).collect();
        let done = self.call(|precinct| {
            precinct.give(&counts, &lengths, &marks, body.as_deref());
            let mut output = vec![0xa5; room as usize];
            let bytes = precinct.write(sop != 0, eph != 0, number, &mut output).ok_or("failed")?;
            output.truncate(bytes);
            Ok(output)
        })?;
        Some(match done {
            Err(why) => why.to_string(),
            Ok(packet) => {
                let body = body.unwrap_or_default();
                let (front, last) = packet.split_at(packet.len() - body.len());
                format!("ok {} {} {}", packet.len(), hexadecimal(front), if last == body { "body=" } else { "body!" })
            }
        })
    }

    fn read(&mut self, rest: &str) -> Option<String> {
        let words: Vec<&str> = rest.split_whitespace().collect();
        let [sop, eph, bytes] = words[..] else { return None };
        let (sop, eph, bytes) = (sop.parse::<u32>().ok()?, eph.parse::<u32>().ok()?, bytes_of(bytes)?);
        if self.precinct.as_ref()?.words()[0] != 2 {
            return None;
        }
        let done = self.call(|precinct| {
            precinct.read(sop != 0, eph != 0, &bytes).map_err(|failed| match failed {
                Failed::Width => "failed width",
                Failed::HeaderEnd => "failed align",
            })
        })?;
        Some(match done {
            Err(why) => why.to_string(),
            Ok(told) => format!("ok {} / {} / {}", spaced(&told.answer), spaced(&told.reports), spaced(&told.records)),
        })
    }
}

fn numbers(text: &str) -> Option<Vec<u32>> {
    text.split_whitespace().map(|word| word.parse().ok()).collect()
}

fn spaced<T: ToString>(numbers: &[T]) -> String {
    numbers.iter().map(|n| n.to_string()).collect::<Vec<_>>().join(" ")
}

fn hexadecimal(bytes: &[u8]) -> String {
    match bytes {
        [] => "-".to_string(),
        _ => bytes.iter().map(|byte| format!("{byte:02x}")).collect(),
    }
}

fn bytes_of(text: &str) -> Option<Vec<u8>> {
    match text {
        "-" => Some(Vec::new()),
        _ if text.len() % 2 == 0 && text.is_ascii() => {
            (0..text.len()).step_by(2).map(|i| u8::from_str_radix(&text[i..i + 2], 16).ok()).collect()
        }
        _ => None,
    }
}
