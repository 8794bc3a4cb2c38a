//! Packet lengths in PLT and tile-part lengths in TLM, as they become when packets change their lengths.
use crate::message::Message;

/// The most bytes of a marker segment behind its length field.
const MOST_CONTENT: usize = 65_533;

/// A length as it is told, and as it becomes.
#[derive(Clone, Copy, PartialEq, Eq, Debug)]
pub struct Length {
    pub is: usize,
    pub becomes: usize,
}

/// The places of these segments by rising index, which is the first byte of each.
fn by_index(contents: &[&[u8]]) -> Vec<usize> {
    let mut order: Vec<usize> = (0..contents.len()).collect();
    order.sort_by_key(|&place| contents[place].first());
    order
}

/// The contents of a tile-part header's PLT segments (A.7.3) after a change of the packets' lengths; what they tell is taken off `packets`.
/// A field stays as wide as it is where that is enough, so that a change and its opposite restore each byte. Damaged if they tell other
/// lengths than the packets have.
pub fn of_packets(contents: &[&[u8]], packets: &mut &[Length]) -> Result<Vec<Vec<u8>>, Message> {
    let mut changed = vec![Vec::new(); contents.len()];
    for place in by_index(contents) {
        let (index, fields) = contents[place].split_first().ok_or(Message::Damaged)?;
        changed[place].push(*index);
        for field in fields.split_inclusive(|byte| byte & 0x80 == 0) {
            let (length, later) = packets.split_first().filter(|(length, _)| told(field) == Some(length.is)).ok_or(Message::Damaged)?;
            changed[place].extend(coded(length.becomes, field.len()));
            *packets = later;
        }
        if changed[place].len() > MOST_CONTENT {
            return Err(Message::Narrow);
        }
    }
    Ok(changed)
}

/// The number in a field of PLT: seven bits a byte, and the high bit of each byte but the last is 1.
fn told(field: &[u8]) -> Option<usize> {
    let whole = field.last().is_some_and(|last| last & 0x80 == 0);
    let shifted = |sum: usize, byte: &u8| Some(sum.checked_mul(128)? | usize::from(byte & 0x7f));
    field.iter().try_fold(0, shifted).filter(|_| whole)
}

/// The number in a field of so many bytes, or more where these are too few.
fn coded(number: usize, width: usize) -> Vec<u8> {
    let mut field = vec![(number & 0x7f) as u8];
    let mut rest = number >> 7;
    while rest > 0 || field.len() < width {
        field.push(0x80 | (rest & 0x7f) as u8);
        rest >>= 7;
    }
    field.reverse();
    field
}

/// The contents of a main header's TLM segments (A.7.1) after a change of the tile-parts' lengths; each tile-part comes with its tile's
/// number. Damaged if they tell other tile-parts than there are.
pub fn of_tile_parts(contents: &[&[u8]], parts: &[(u32, Length)]) -> Result<Vec<Vec<u8>>, Message> {
    let mut parts = parts.iter().enumerate();
    let mut changed: Vec<Vec<u8>> = contents.iter().map(|content| content.to_vec()).collect();
    for place in by_index(contents) {
        let [_, form, entries @ ..] = &mut changed[place][..] else { return Err(Message::Damaged) };
        let (tile_bytes, length_bytes) = (usize::from(*form >> 4 & 3), if *form & 0x40 == 0 { 2 } else { 4 });
        if tile_bytes == 3 || entries.len() % (tile_bytes + length_bytes) != 0 {
            return Err(Message::Damaged);
        }
        for entry in entries.chunks_exact_mut(tile_bytes + length_bytes) {
            let (count, (tile, length)) = parts.next().ok_or(Message::Damaged)?;
            let (own_tile, field) = entry.split_at_mut(tile_bytes);
            // Without numbers of tiles each tile has one tile-part, in order.
            let told_tile = if tile_bytes == 0 { count } else { number(own_tile) };
            if told_tile != *tile as usize || number(field) != length.is {
                return Err(Message::Damaged);
            }
            put(field, length.becomes)?;
        }
    }
    match contents.is_empty() || parts.len() == 0 {
        true => Ok(changed),
        false => Err(Message::Damaged),
    }
}

fn number(bytes: &[u8]) -> usize {
    bytes.iter().fold(0, |sum, &byte| sum << 8 | usize::from(byte))
}

/// Puts a number into a field of at most four bytes.
pub fn put(field: &mut [u8], value: usize) -> Result<(), Message> {
    let value = u32::try_from(value).map_err(|_| Message::Narrow)?.to_be_bytes();
    let (high, low) = value.split_at(4 - field.len());
    if high.iter().any(|&byte| byte != 0) {
        return Err(Message::Narrow);
    }
    field.copy_from_slice(low);
    Ok(())
}

#[cfg(test)]
mod tests {
    use super::*;

    fn lengths<const N: usize>(pairs: [(usize, usize); N]) -> [Length; N] {
        pairs.map(|(is, becomes)| Length { is, becomes })
    }

    #[test]
    fn packets_by_hand() {
        let contents: [&[u8]; 2] = [&[1, 0x80, 0x05, 0x00], &[0, 0x81, 0x00, 0x7f]];
        let packets = lengths([(128, 5), (127, 128), (5, 300), (0, 0), (9, 1)]);
        let mut left = &packets[..];
        let changed = of_packets(&contents, &mut left).unwrap();
        assert_eq!(left, &packets[4..]);
        assert_eq!(changed, [vec![1, 0x82, 0x2c, 0x00], vec![0, 0x80, 0x05, 0x81, 0x00]]);
        // Narrower numbers keep their width, so that the way back restores them.
        let contents: [&[u8]; 1] = [&[0, 0x81, 0x00, 0x80, 0x05, 0x03]];
        let (there, back) = (lengths([(128, 1), (5, 4), (3, 0)]), lengths([(1, 128), (4, 5), (0, 3)]));
        let changed = of_packets(&contents, &mut &there[..]).unwrap();
        assert_eq!(changed, [[0, 0x80, 0x01, 0x80, 0x04, 0x00]]);
        assert_eq!(of_packets(&[&changed[0]], &mut &back[..]).unwrap(), [contents[0]]);
    }

    #[test]
    fn wrong_packets() {
        let three = lengths([(1, 1), (2, 2), (3, 3)]);
        assert_eq!(of_packets(&[], &mut &three[..]), Ok(vec![]));
        for content in [&[][..], &[0, 1, 2, 4], &[0, 1, 2, 3, 0], &[0, 1, 2, 0x83], &[0, 1, 2, 3, 0x80]] {
            assert_eq!(of_packets(&[content], &mut &three[..]), Err(Message::Damaged), "{content:?}");
        }
        let longest = [&[0][..], &[1; 65_532]].concat();
        for (becomes, answer) in [(2, None), (200, Some(Message::Narrow))] {
            assert_eq!(of_packets(&[&longest], &mut &[Length { is: 1, becomes }; 65_532][..]).err(), answer);
        }
        assert_eq!(told(&[0xff; 12]), None);
    }

    #[test]
    fn tile_parts_by_hand() {
        let parts = [(0, Length { is: 258, becomes: 3 }), (1, Length { is: 7, becomes: 65_535 }), (1, Length { is: 9, becomes: 9 })];
        let contents: [&[u8]; 2] = [&[1, 0x10, 1, 0, 7, 1, 0, 9], &[0, 0x60, 0, 0, 0, 0, 1, 2]];
        let changed = of_tile_parts(&contents, &parts).unwrap();
        assert_eq!(changed, [vec![1, 0x10, 1, 255, 255, 1, 0, 9], vec![0, 0x60, 0, 0, 0, 0, 0, 3]]);
        assert_eq!(of_tile_parts(&[&[0, 0x40, 0, 0, 1, 2, 0, 0, 0, 7]], &parts[..2]).map(|changed| changed[0][5]), Ok(3));
        assert_eq!(of_tile_parts(&[], &parts), Ok(vec![]));
    }

    #[test]
    fn wrong_tile_parts() {
        let parts = [(0, Length { is: 258, becomes: 3 }), (2, Length { is: 7, becomes: 65_536 })];
        let damaged: [&[u8]; 7] = [
            &[0],
            &[0, 0x10, 0, 1, 2],
            &[0, 0x10, 0, 1, 2, 1, 0, 7],
            &[0, 0x10, 0, 1, 2, 2, 0, 8],
            &[0, 0x10, 0, 1, 2, 2, 0],
            &[0, 0x00, 1, 2, 0, 7],
            &[0, 0x50, 0, 0, 0, 1, 2, 2, 0, 0, 0, 7, 3, 0, 0, 0, 1],
        ];
        for content in damaged {
            assert_eq!(of_tile_parts(&[content], &parts), Err(Message::Damaged), "{content:?}");
        }
        assert_eq!(of_tile_parts(&[&[0, 0x10, 0, 1, 2, 2, 0, 7]], &parts), Err(Message::Narrow));
        assert!(of_tile_parts(&[&[0, 0x50, 0, 0, 0, 1, 2, 2, 0, 0, 0, 7]], &parts).is_ok());
    }
}
