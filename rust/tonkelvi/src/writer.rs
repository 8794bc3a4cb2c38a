//! Writing packets.
use crate::refusal::checked;
use crate::{band_words, described, words, Band, Markers, Refusal, WRITER};

/// What a layer brings: a pass count for each block, band by band and row by row; then, block by block, for each pass its bytes and a
/// mark, other than 0 if the pass is terminated. If all counts are 0 the packet is one byte, 00, and its markers.
#[derive(Clone, Copy, Debug, Default)]
pub struct Contribution<'a> {
    pub counts: &'a [u32],
    pub lengths: &'a [u32],
    pub marks: &'a [u8],
}

/// The bytes of a packet that has not been written: header with its markers, and body.
#[derive(Clone, Copy, PartialEq, Eq, Debug)]
pub struct Measured {
    pub header: u64,
    pub body: u64,
}

/// A writer of one precinct's packets, the next layer at each call. A refused call leaves it as it was.
///
/// ```
/// use tonkelvi::{Band, Contribution, Markers, Refusal, Writer};
///
/// let mut writer = Writer::new(&[Band { across: 2, down: 1, planes: 5 }], 0, &[5, 4])?;
/// let layer = Contribution { counts: &[1, 1], lengths: &[5, 5], marks: &[0, 0] };
/// let size = writer.measure(layer, Markers::NONE)?;
/// assert_eq!((size.header, size.body), (3, 10));
/// assert_eq!(writer.write(layer, &[0; 9], Markers::NONE, 0), Err(Refusal::Body));
/// assert_eq!(writer.write(layer, &[0; 10], Markers::NONE, 0)?[..3], [0xf9, 0x69, 0x40]);
/// assert_eq!((writer.next_layer(), writer.blocks()), (1, 2));
/// let nothing_new = Contribution { counts: &[0, 0], ..Contribution::default() };
/// assert_eq!(writer.write(nothing_new, &[], Markers::NONE, 0)?, [0]);
/// # Ok::<(), Refusal>(())
/// ```
#[derive(Clone, PartialEq, Eq, Debug)]
pub struct Writer {
    state: Vec<u32>,
    scratch: Vec<u32>,
}

impl Writer {
    /// A writer at layer 0. `planes` has each block's bit-planes; a block that is never included is given 0.
    pub fn new(bands: &[Band], style: u8, planes: &[u32]) -> Result<Writer, Refusal> {
        let (count, bands) = band_words(bands);
        let mut state = vec![0; words::state_length(count, &bands)];
        checked(words::start_writer(count, &bands, style, planes, &mut state))?;
        Writer::from_state(state)
    }

    /// A writer that goes on from a state kept earlier; refused unless that is a writer's in range.
    pub fn from_state(state: Vec<u32>) -> Result<Writer, Refusal> {
        described(&state, WRITER)?;
        let scratch = vec![0; state.len()];
        Ok(Writer { state, scratch })
    }

    /// The state's words.
    pub fn state(&self) -> &[u32] {
        &self.state
    }

    /// The layer that the next packet is of.
    pub fn next_layer(&self) -> u32 {
        self.described().0
    }

    /// The number of blocks.
    pub fn blocks(&self) -> usize {
        self.described().1
    }

    fn described(&self) -> (u32, usize) {
        described(&self.state, WRITER).expect("a start or from_state has filled it, and calls keep it in range")
    }

    /// The state's words, and as many of scratch.
    pub(crate) fn words(&mut self) -> Words<'_> {
        Words { state: &mut self.state, scratch: &mut self.scratch }
    }

    /// The bytes of the next packet, which is not written.
    pub fn measure(&mut self, layer: Contribution, markers: Markers) -> Result<Measured, Refusal> {
        self.words().measure(layer, markers)
    }

    /// The next packet. `number` goes into SOP, by its low 16 bits.
    pub fn write(&mut self, layer: Contribution, body: &[u8], markers: Markers, number: u32) -> Result<Vec<u8>, Refusal> {
        self.words().write(layer, body, markers, number)
    }

    /// The next packet, into the front of `output`; answers its bytes. Refused for want of space, it leaves zeros in `output`.
    pub fn write_to(
        &mut self,
        layer: Contribution,
        body: &[u8],
        markers: Markers,
        number: u32,
        output: &mut [u8],
    ) -> Result<usize, Refusal> {
        self.words().write_to(layer, body, markers, number, output)
    }
}

/// A writer's state, and as many words of scratch.
pub(crate) struct Words<'a> {
    pub state: &'a mut [u32],
    pub scratch: &'a mut [u32],
}

impl Words<'_> {
    pub fn measure(&mut self, layer: Contribution, markers: Markers) -> Result<Measured, Refusal> {
        let mut answer = [0; 2];
        let Contribution { counts, lengths, marks } = layer;
        checked(words::measure(self.state, self.scratch, counts, lengths, marks, markers.sop, markers.eph, &mut answer))?;
        Ok(Measured { header: answer[0], body: answer[1] })
    }

    /// Measured, with a body as long as measured.
    pub fn measure_with_body(&mut self, layer: Contribution, body: &[u8], markers: Markers) -> Result<Measured, Refusal> {
        let size = self.measure(layer, markers)?;
        match size.body == body.len() as u64 {
            true => Ok(size),
            false => Err(Refusal::Body),
        }
    }

    pub fn write(&mut self, layer: Contribution, body: &[u8], markers: Markers, number: u32) -> Result<Vec<u8>, Refusal> {
        let size = self.measure_with_body(layer, body, markers)?;
        let mut packet = vec![0; size.header as usize + body.len()];
        let bytes = self.write_to(layer, body, markers, number, &mut packet)?;
        packet.truncate(bytes);
        Ok(packet)
    }

    pub fn write_to(
        &mut self,
        layer: Contribution,
        body: &[u8],
        markers: Markers,
        number: u32,
        output: &mut [u8],
    ) -> Result<usize, Refusal> {
        let mut answer = [0; 1];
        let Contribution { counts, lengths, marks } = layer;
        checked(words::write(
            self.state,
            self.scratch,
            counts,
            lengths,
            marks,
            body,
            markers.sop,
            markers.eph,
            number,
            output,
            &mut answer,
        ))?;
        Ok(answer[0] as usize)
    }
}
