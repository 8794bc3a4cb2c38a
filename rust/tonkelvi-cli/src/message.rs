//! The numbers of all messages; their sentences stand in the catalogue. Numbers below 100 are the engine's, those above the command's own.
use tonkelvi::Refusal;

/// What a row can say.
#[derive(Clone, Copy, PartialEq, Eq, Debug)]
pub enum Message {
    /// The engine turned the packet away; the number is the refusal's.
    Refused(Refusal),
    /// The SOP mark is not in order.
    Sop,
    /// The EPH mark is not in order.
    Eph,
    /// The file can't be opened or read.
    Unread,
    /// Neither a codestream nor a JP2 file.
    Foreign,
    /// The file ends early.
    Cut,
    /// A marker segment is damaged, missing or out of place.
    Damaged,
    /// A body is longer than what is left of its tile-part.
    BodyPast,
    /// A tile ends before its last packet.
    Missing,
    /// Bytes are left after a tile's last packet.
    Left,
    /// A block has more zero planes than its band has planes.
    ZeroPlanes,
    /// The packet headers packed in PPM or PPT end early.
    Packed,
    /// A tile has more precincts than are read here.
    TooMany,
    /// The writer gives other bytes.
    Differs,
    /// A packet without contributions has a full header, with a first bit 1.
    FullHeader,
    /// A packet's header goes past its tile-part or its packed headers, by so many bits; `None` where it is about no packet.
    HeaderPast(Option<u64>),
    /// There are PPM or PPT already, so that no header can be gathered.
    AlreadyGathered,
    /// There is neither PPM nor PPT, so that no header can be spread.
    NotGathered,
    /// A marker segment or box that a move of headers would make wrong, and that is not corrected.
    Uncorrected,
    /// A length field is too narrow for what a move of headers makes of it.
    Narrow,
    /// Headers moved and moved back would not restore the tile-part.
    NotRestored,
}

impl Message {
    /// All of them, in the order of their numbers.
    pub fn all() -> Vec<Message> {
        use Message::*;
        let own = [Sop, Eph, Unread, Foreign, Cut, Damaged, BodyPast, Missing, Left, ZeroPlanes, Packed, TooMany, Differs, FullHeader];
        let of_moves = [AlreadyGathered, NotGathered, Uncorrected, Narrow, NotRestored];
        Refusal::ALL.iter().copied().map(Refused).chain(own).chain([HeaderPast(None)]).chain(of_moves).collect()
    }

    pub fn number(self) -> u32 {
        match self {
            Message::Refused(refusal) => refusal.number(),
            Message::Sop => 101,
            Message::Eph => 102,
            Message::Unread => 110,
            Message::Foreign => 111,
            Message::Cut => 112,
            Message::Damaged => 113,
            Message::BodyPast => 114,
            Message::Missing => 115,
            Message::Left => 116,
            Message::ZeroPlanes => 117,
            Message::Packed => 118,
            Message::TooMany => 119,
            // 120 is not used: rows that archives keep have it for a single 0 bit.
            Message::Differs => 121,
            Message::FullHeader => 122,
            Message::HeaderPast(_) => 123,
            Message::AlreadyGathered => 124,
            Message::NotGathered => 125,
            Message::Uncorrected => 126,
            Message::Narrow => 127,
            Message::NotRestored => 128,
        }
    }

    pub fn from_number(number: u32) -> Option<Message> {
        Message::all().into_iter().find(|m| m.number() == number)
    }

    /// Whether a file with this message is not whole: all but a missing SOP and a full header without contributions, which are allowed.
    pub fn is_fault(self) -> bool {
        !matches!(self, Message::Sop | Message::FullHeader)
    }
}

#[cfg(test)]
mod tests {
    use super::*;

    #[test]
    fn numbers_rise() {
        let numbers: Vec<u32> = Message::all().into_iter().map(Message::number).collect();
        assert!(numbers.windows(2).all(|two| two[0] < two[1]));
        assert!(Message::all().into_iter().all(|m| matches!(m, Message::Refused(_)) == (m.number() < 100)));
        assert!(numbers.iter().all(|&n| Message::from_number(n).map(Message::number) == Some(n)));
    }
}
