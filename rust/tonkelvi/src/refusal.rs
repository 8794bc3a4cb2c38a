//! The refusals.
use std::fmt;

/// Why a call was turned away. The number is the one that the C functions answer.
#[non_exhaustive]
#[derive(Clone, Copy, PartialEq, Eq, PartialOrd, Ord, Hash, Debug)]
#[repr(u32)]
pub enum Refusal {
    Shape = 1,
    Style = 2,
    List = 3,
    Planes = 4,
    State = 5,
    Layers = 6,
    Passes = 7,
    Length = 8,
    Width = 9,
    Body = 10,
    Space = 11,
    HeaderEnd = 12,
    Records = 13,
    Precincts = 14,
    Segments = 15,
    Packed = 16,
}

impl Refusal {
    /// All of them, in the order of their numbers.
    pub const ALL: &'static [Refusal] = &[
        Refusal::Shape,
        Refusal::Style,
        Refusal::List,
        Refusal::Planes,
        Refusal::State,
        Refusal::Layers,
        Refusal::Passes,
        Refusal::Length,
        Refusal::Width,
        Refusal::Body,
        Refusal::Space,
        Refusal::HeaderEnd,
        Refusal::Records,
        Refusal::Precincts,
        Refusal::Segments,
        Refusal::Packed,
    ];

    /// Its number, from 1 on.
    pub fn number(self) -> u32 {
        self as u32
    }

    /// The refusal with this number, if there is one.
    pub fn from_number(number: u32) -> Option<Refusal> {
        Refusal::ALL.iter().copied().find(|r| r.number() == number)
    }

    /// One sentence that says when it is given.
    pub fn sentence(self) -> &'static str {
        match self {
            Refusal::Shape => "The band count is not 1 to 3, or a band has more than 64 blocks across or down.",
            Refusal::Style => "The style has a high-throughput bit, 0x40 or 0x80.",
            Refusal::List => "A list has another length than the call asks.",
            Refusal::Planes => "A band has more than 998 bit-planes, or a block has more than its band.",
            Refusal::State => "The state is of the other role, or its length or one of its words is out of range.",
            Refusal::Layers => "All 65,535 layers have been coded.",
            Refusal::Passes => "A block has more than 164 passes in one layer.",
            Refusal::Length => "A segment has 2^31 bytes or more.",
            Refusal::Width => "A length field is wider than 32 bits.",
            Refusal::Body => "The body has another length than the pass lengths add up to.",
            Refusal::Space => "The packet is longer than the output.",
            Refusal::HeaderEnd => "The input ends with a byte FF that the header ends in.",
            Refusal::Records => "The packet has more segments than records were lent.",
            Refusal::Precincts => "More than 16 precincts were given for one layer.",
            Refusal::Segments => "The packet headers need more than 256 marker segments.",
            Refusal::Packed => "A PPT marker segment is cut short, too short or without its marker, or its index is out of order.",
        }
    }
}

impl fmt::Display for Refusal {
    fn fmt(&self, f: &mut fmt::Formatter<'_>) -> fmt::Result {
        f.write_str(self.sentence())
    }
}

impl std::error::Error for Refusal {}

/// What a C function's result says.
pub(crate) fn checked(number: u32) -> Result<(), Refusal> {
    match number {
        0 => Ok(()),
        _ => Err(Refusal::from_number(number).expect("the engine answers 0 or a refusal's number")),
    }
}
