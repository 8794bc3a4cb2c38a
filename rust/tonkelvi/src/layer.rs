//! Writing a layer of several precincts, whole or not at all.
use crate::refusal::checked;
use crate::writer::Words;
use crate::{described, words, Contribution, Markers, Measured, Refusal, Writer, WRITER};
use std::fmt;
use std::ops::Range;

/// The most precincts that one call writes.
const MOST_PRECINCTS: usize = 16;

/// What one precinct brings to a layer. `number` goes into its packet's SOP, by its low 16 bits.
#[derive(Clone, Copy, Debug, Default)]
pub struct Part<'a> {
    pub contribution: Contribution<'a>,
    pub body: &'a [u8],
    pub number: u32,
}

/// A layer's packets behind one another, and where each begins.
#[derive(Clone, PartialEq, Eq, Debug, Default)]
pub struct Packets {
    pub bytes: Vec<u8>,
    pub begins: Vec<usize>,
}

impl Packets {
    /// Each packet's bytes, in order.
    pub fn iter(&self) -> impl Iterator<Item = &[u8]> {
        let ends = self.begins.iter().skip(1).copied().chain([self.bytes.len()]);
        self.begins.iter().zip(ends).map(|(begin, end)| &self.bytes[*begin..end])
    }
}

/// The first refusal, and the place of its precinct, from 0; with `Refusal::Precincts` the place is 0.
#[derive(Clone, Copy, PartialEq, Eq, Debug)]
pub struct LayerRefused {
    pub refusal: Refusal,
    pub place: usize,
}

impl fmt::Display for LayerRefused {
    fn fmt(&self, f: &mut fmt::Formatter<'_>) -> fmt::Result {
        match self.refusal {
            Refusal::Precincts => self.refusal.fmt(f),
            refusal => write!(f, "Precinct {}: {refusal}", self.place),
        }
    }
}

impl std::error::Error for LayerRefused {
    fn source(&self) -> Option<&(dyn std::error::Error + 'static)> {
        Some(&self.refusal)
    }
}

/// The next layer of several precincts, of any shapes, whose packets are all written in one call or none of them: a refused call leaves
/// every precinct as it was. A precinct's packets may also be written one by one, so that its next layer is another than its neighbours'.
///
/// It is made from writers. It may hold more than 16, but a call that gives more than 16 parts is refused.
///
/// ```
/// use tonkelvi::{Band, Contribution, Layer, LayerRefused, Markers, Part, Reader, Refusal, Writer};
///
/// let shapes = [[Band { across: 1, down: 1, planes: 5 }], [Band { across: 2, down: 1, planes: 5 }]];
/// let planes: [&[u32]; 2] = [&[5], &[5, 4]];
/// let writers = shapes.iter().zip(planes).map(|(bands, planes)| Writer::new(bands, 0, planes));
/// let mut layer = writers.collect::<Result<Layer, Refusal>>()?;
///
/// let one = Contribution { counts: &[1], lengths: &[5], marks: &[0] };
/// let two = Contribution { counts: &[1, 1], lengths: &[5, 6], marks: &[0, 0] };
/// let parts = [Part { contribution: one, body: b"first", number: 0 }, Part { contribution: two, body: b"hello world", number: 1 }];
/// let mut short = [7; 10];
/// assert_eq!(layer.write_to(&parts, Markers::NONE, &mut short), Err(LayerRefused { refusal: Refusal::Space, place: 1 }));
/// assert_eq!((short, layer.next_layer(0)), ([0; 10], 0));
///
/// let packets = layer.write(&parts, Markers::NONE)?;
/// assert_eq!(packets.bytes, b"\xe5first\xf9\x69\x80hello world");
/// assert_eq!(packets.begins, [0, 6]);
/// for (bands, packet) in shapes.iter().zip(packets.iter()) {
///     let read = Reader::new(bands, 0)?.read(packet, Markers::NONE)?;
///     assert_eq!(read.taken + read.body() as usize, packet.len());
/// }
/// # Ok::<(), Box<dyn std::error::Error>>(())
/// ```
#[derive(Clone, PartialEq, Eq, Debug, Default)]
pub struct Layer {
    states: Vec<u32>,
    scratch: Vec<u32>,
    precincts: Vec<Precinct>,
}

/// Where a precinct's state stands, and its blocks.
#[derive(Clone, PartialEq, Eq, Debug)]
struct Precinct {
    words: Range<usize>,
    blocks: usize,
}

impl FromIterator<Writer> for Layer {
    fn from_iter<T: IntoIterator<Item = Writer>>(writers: T) -> Layer {
        let mut layer = Layer::default();
        for writer in writers {
            let begin = layer.states.len();
            layer.states.extend(writer.state());
            layer.precincts.push(Precinct { words: begin..layer.states.len(), blocks: writer.blocks() });
        }
        layer.scratch = vec![0; layer.states.len()];
        layer
    }
}

/// Methods that take a place panic if there is no precinct at it.
impl Layer {
    /// The number of precincts.
    pub fn len(&self) -> usize {
        self.precincts.len()
    }

    pub fn is_empty(&self) -> bool {
        self.precincts.is_empty()
    }

    /// The words of one precinct's state.
    pub fn state(&self, place: usize) -> &[u32] {
        &self.states[self.precincts[place].words.clone()]
    }

    /// The layer that one precinct's next packet is of.
    pub fn next_layer(&self, place: usize) -> u32 {
        described(self.state(place), WRITER).expect("a writer has filled it, and calls keep it in range").0
    }

    /// The number of blocks of one precinct.
    pub fn blocks(&self, place: usize) -> usize {
        self.precincts[place].blocks
    }

    /// The precincts as single writers.
    pub fn into_writers(self) -> Vec<Writer> {
        let writer = |place| Writer::from_state(self.state(place).to_vec()).expect("a writer has filled it, and calls keep it in range");
        (0..self.len()).map(writer).collect()
    }

    // ---- one precinct

    fn precinct(&mut self, words: Range<usize>) -> Words<'_> {
        Words { state: &mut self.states[words.clone()], scratch: &mut self.scratch[words] }
    }

    /// The bytes of one precinct's next packet, which is not written.
    pub fn measure_one(&mut self, place: usize, contribution: Contribution, markers: Markers) -> Result<Measured, Refusal> {
        let words = self.precincts[place].words.clone();
        self.precinct(words).measure(contribution, markers)
    }

    /// One precinct's next packet.
    pub fn write_one(&mut self, place: usize, part: Part, markers: Markers) -> Result<Vec<u8>, Refusal> {
        let words = self.precincts[place].words.clone();
        self.precinct(words).write(part.contribution, part.body, markers, part.number)
    }

    // ---- the whole layer

    /// The bytes of each precinct's next packet, none of which is written. Refused as `write` is.
    pub fn measure(&mut self, parts: &[Part], markers: Markers) -> Result<Vec<Measured>, LayerRefused> {
        few_enough(parts)?;
        let mut sizes = Vec::new();
        for (place, part) in parts.iter().enumerate() {
            let words = self.lent(place, parts.len());
            let size = self.precinct(words).measure_with_body(part.contribution, part.body, markers);
            sizes.push(size.map_err(|refusal| LayerRefused { refusal, place })?);
        }
        Ok(sizes)
    }

    /// The next packet of each precinct, behind one another. There is to be a part for each: with fewer or more the last one, or the first
    /// without a precinct, is refused with `Refusal::State`. No parts at all write nothing.
    pub fn write(&mut self, parts: &[Part], markers: Markers) -> Result<Packets, LayerRefused> {
        let mut packets = Packets::default();
        let mut total = 0;
        for size in self.measure(parts, markers)? {
            packets.begins.push(total);
            total += (size.header + size.body) as usize;
        }
        packets.bytes = vec![0; total];
        self.write_to(parts, markers, &mut packets.bytes)?;
        Ok(packets)
    }

    /// The same into the front of `output`; answers the bytes of all packets. Refused, it leaves zeros in `output`, but with
    /// `Refusal::Precincts`. `measure` tells where each packet begins.
    pub fn write_to(&mut self, parts: &[Part], markers: Markers, output: &mut [u8]) -> Result<usize, LayerRefused> {
        few_enough(parts)?;
        // Joined, what one part has too little or too much would be taken for the next one's: the first part that does not fit its precinct
        // is made the last of the list, and refused there unless one before it is.
        let misfit = parts.iter().enumerate().position(|(place, part)| !self.fits(place, part));
        let end = misfit.map_or(self.states.len(), |place| self.lent(place, parts.len()).end);
        let parts = misfit.map_or(parts, |place| &parts[..=place]);
        let numbers: Vec<u32> = parts.iter().map(|part| part.number).collect();
        let mut answer = [0; 2];
        let number = words::write_layer(
            &mut self.states[..end],
            &mut self.scratch[..end],
            &numbers,
            &joined(parts, |part| part.contribution.counts),
            &joined(parts, |part| part.contribution.lengths),
            &joined(parts, |part| part.contribution.marks),
            &joined(parts, |part| part.body),
            markers.sop,
            markers.eph,
            output,
            &mut answer,
        );
        checked(number).map_err(|refusal| LayerRefused { refusal, place: answer[0] as usize })?;
        Ok(answer[1] as usize)
    }

    /// The words for the part at a place among so many: the last has those of all precincts from it on.
    fn lent(&self, place: usize, parts: usize) -> Range<usize> {
        let all = self.states.len();
        match self.precincts.get(place) {
            None => all..all,
            Some(precinct) if place + 1 == parts => precinct.words.start..all,
            Some(precinct) => precinct.words.clone(),
        }
    }

    /// A part's lists have the lengths that its precinct and its own numbers ask.
    fn fits(&self, place: usize, part: &Part) -> bool {
        let Contribution { counts, lengths, marks } = part.contribution;
        let sum = |numbers: &[u32]| numbers.iter().map(|n| u64::from(*n)).sum::<u64>();
        let passes = sum(counts);
        self.precincts.get(place).is_some_and(|precinct| precinct.blocks == counts.len())
            && lengths.len() as u64 == passes
            && marks.len() as u64 == passes
            && part.body.len() as u64 == sum(lengths)
    }
}

fn few_enough(parts: &[Part]) -> Result<(), LayerRefused> {
    match parts.len() > MOST_PRECINCTS {
        true => Err(LayerRefused { refusal: Refusal::Precincts, place: 0 }),
        false => Ok(()),
    }
}

/// One list of all parts, behind one another.
fn joined<'a, T: Copy + 'a>(parts: &[Part<'a>], list: impl Fn(&Part<'a>) -> &'a [T]) -> Vec<T> {
    parts.iter().map(list).collect::<Vec<_>>().concat()
}
