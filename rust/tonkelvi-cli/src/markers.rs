//! Marker segments of T.800 Annex A, as far as the walk needs them.
use std::collections::{BTreeMap, VecDeque};

pub const SOC: u16 = 0xff4f;
pub const SIZ: u16 = 0xff51;
pub const COD: u16 = 0xff52;
pub const COC: u16 = 0xff53;
pub const RGN: u16 = 0xff5e;
pub const QCD: u16 = 0xff5c;
pub const QCC: u16 = 0xff5d;
pub const POC: u16 = 0xff5f;
pub const TLM: u16 = 0xff55;
pub const PLM: u16 = 0xff57;
pub const PLT: u16 = 0xff58;
pub const PPM: u16 = 0xff60;
pub const PPT: u16 = 0xff61;
pub const SOT: u16 = 0xff90;
pub const SOD: u16 = 0xff93;
pub const EOC: u16 = 0xffd9;

/// Numbers taken from the front of a segment, most significant byte first.
pub struct Fields<'a> {
    bytes: &'a [u8],
}

impl<'a> Fields<'a> {
    pub fn new(bytes: &'a [u8]) -> Fields<'a> {
        Fields { bytes }
    }

    pub fn is_empty(&self) -> bool {
        self.bytes.is_empty()
    }

    pub fn u8(&mut self) -> Option<u8> {
        let (first, rest) = self.bytes.split_first()?;
        self.bytes = rest;
        Some(*first)
    }

    pub fn u16(&mut self) -> Option<u16> {
        Some(u16::from(self.u8()?) << 8 | u16::from(self.u8()?))
    }

    pub fn u32(&mut self) -> Option<u32> {
        Some(u32::from(self.u16()?) << 16 | u32::from(self.u16()?))
    }

    /// A component's number, of two bytes where there are more than 256.
    fn component(&mut self, components: usize) -> Option<u16> {
        if components <= 256 {
            self.u8().map(u16::from)
        } else {
            self.u16()
        }
    }
}

/// A rectangle: its first column and row, and those after its last.
#[derive(Clone, Copy, PartialEq, Eq, Debug, Default)]
pub struct Rect {
    pub x0: u32,
    pub y0: u32,
    pub x1: u32,
    pub y1: u32,
}

impl Rect {
    pub fn is_empty(&self) -> bool {
        self.x1 <= self.x0 || self.y1 <= self.y0
    }
}

/// Image, tiles and the components' sampling steps.
#[derive(Clone, PartialEq, Eq, Debug, Default)]
pub struct Size {
    pub image: Rect,
    pub tile_width: u32,
    pub tile_height: u32,
    pub tile_x: u32,
    pub tile_y: u32,
    pub steps: Vec<(u32, u32)>,
}

impl Size {
    /// Reads SIZ and holds it to the ranges of A.5.1 and B.3.
    pub fn parse(segment: &[u8]) -> Option<Size> {
        let mut f = Fields::new(segment);
        f.u16()?;
        let (x1, y1, x0, y0) = (f.u32()?, f.u32()?, f.u32()?, f.u32()?);
        let (tile_width, tile_height, tile_x, tile_y) = (f.u32()?, f.u32()?, f.u32()?, f.u32()?);
        let mut steps = Vec::new();
        for _ in 0..f.u16()? {
            f.u8()?;
            steps.push((u32::from(f.u8()?), u32::from(f.u8()?)));
        }
        let size = Size { image: Rect { x0, y0, x1, y1 }, tile_width, tile_height, tile_x, tile_y, steps };
        size.in_range().then_some(size)
    }

    fn in_range(&self) -> bool {
        let first_tile_meets = |at: u32, side: u32, image: u32| at <= image && u64::from(at) + u64::from(side) > u64::from(image);
        !self.image.is_empty()
            && first_tile_meets(self.tile_x, self.tile_width, self.image.x0)
            && first_tile_meets(self.tile_y, self.tile_height, self.image.y0)
            && (1..=16384).contains(&self.steps.len())
            && self.steps.iter().all(|&(x, y)| x > 0 && y > 0)
            && self.tiles() <= 65535
    }

    pub fn tiles_across(&self) -> u32 {
        (self.image.x1 - self.tile_x).div_ceil(self.tile_width)
    }

    pub fn tiles_down(&self) -> u32 {
        (self.image.y1 - self.tile_y).div_ceil(self.tile_height)
    }

    pub fn tiles(&self) -> u64 {
        u64::from(self.tiles_across()) * u64::from(self.tiles_down())
    }
}

/// The five progression orders.
#[derive(Clone, Copy, PartialEq, Eq, Debug)]
pub enum Order {
    Lrcp,
    Rlcp,
    Rpcl,
    Pcrl,
    Cprl,
}

impl Order {
    fn from_number(number: u8) -> Option<Order> {
        [Order::Lrcp, Order::Rlcp, Order::Rpcl, Order::Pcrl, Order::Cprl].get(usize::from(number)).copied()
    }
}

/// What COD says of a whole tile.
#[derive(Clone, Copy, PartialEq, Eq, Debug)]
pub struct General {
    pub order: Order,
    pub layers: u16,
    pub sop: bool,
    pub eph: bool,
}

/// What COD or COC says of a component: decomposition levels, exponents of block sides, style, exponents of precinct sides by resolution.
#[derive(Clone, PartialEq, Eq, Debug)]
pub struct Coding {
    pub levels: u8,
    pub block: (u8, u8),
    pub style: u8,
    pub precincts: Vec<(u8, u8)>,
}

impl Coding {
    fn parse(f: &mut Fields, own_precincts: bool) -> Option<Coding> {
        let levels = f.u8()?;
        let block = ((f.u8()? & 15) + 2, (f.u8()? & 15) + 2);
        let style = f.u8()?;
        f.u8()?;
        if levels > 32 || block.0 > 10 || block.1 > 10 || block.0 + block.1 > 12 {
            return None;
        }
        let mut precincts = vec![(15, 15); usize::from(levels) + 1];
        if own_precincts {
            for (r, sides) in precincts.iter_mut().enumerate() {
                let byte = f.u8()?;
                *sides = (byte & 15, byte >> 4);
                if r > 0 && (sides.0 == 0 || sides.1 == 0) {
                    return None;
                }
            }
        }
        Some(Coding { levels, block, style, precincts })
    }
}

/// What QCD or QCC says: guard bits and the bands' exponents, one alone where the others follow from it.
#[derive(Clone, PartialEq, Eq, Debug)]
pub struct Quantization {
    pub guard: u8,
    pub derived: bool,
    pub exponents: Vec<u8>,
}

impl Quantization {
    fn parse(f: &mut Fields) -> Option<Quantization> {
        let style = f.u8()?;
        let mut exponents = Vec::new();
        while !f.is_empty() {
            exponents.push(match style & 31 {
                0 => f.u8()? >> 3,
                1 | 2 => (f.u16()? >> 11) as u8,
                _ => return None,
            });
        }
        Some(Quantization { guard: style >> 5, derived: style & 31 == 1, exponents })
    }

    /// The bit-planes of a band: number 0 for LL, then three for each resolution; `None` if it isn't named.
    pub fn planes(&self, band: usize) -> Option<u32> {
        let exponent = if self.derived {
            let below = band.saturating_sub(1) / 3;
            i64::from(*self.exponents.first()?) - below as i64
        } else {
            i64::from(*self.exponents.get(band)?)
        };
        Some((exponent + i64::from(self.guard) - 1).max(0) as u32)
    }
}

/// One progression of POC: resolutions and components from a first to before an end, layers before an end.
#[derive(Clone, Copy, PartialEq, Eq, Debug)]
pub struct Volume {
    pub resolutions: (u8, u8),
    pub components: (u16, u16),
    pub layers: u16,
    pub order: Order,
}

fn parse_volumes(f: &mut Fields, components: usize) -> Option<Vec<Volume>> {
    let mut volumes = Vec::new();
    while !f.is_empty() {
        let first_resolution = f.u8()?;
        let first_component = f.component(components)?;
        let layers = f.u16()?;
        let end_resolution = f.u8()?;
        let end_component = match f.component(components)? {
            0 => components as u16,
            end => end,
        };
        let order = Order::from_number(f.u8()?)?;
        let resolutions = (first_resolution, end_resolution);
        volumes.push(Volume { resolutions, components: (first_component, end_component), layers, order });
    }
    Some(volumes)
}

/// What a main header or the tile-part headers of one tile say.
#[derive(Clone, PartialEq, Eq, Debug, Default)]
pub struct Header {
    pub general: Option<General>,
    pub coding: Option<Coding>,
    pub own_coding: BTreeMap<u16, Coding>,
    pub quantization: Option<Quantization>,
    pub own_quantization: BTreeMap<u16, Quantization>,
    pub shifts: BTreeMap<u16, u8>,
    pub volumes: Vec<Volume>,
    /// Index and content of each PPM or PPT.
    pub packed: Vec<(u8, Vec<u8>)>,
}

impl Header {
    /// Takes up a segment; `None` if it is damaged, and segments that the walk doesn't need are passed over.
    pub fn take(&mut self, marker: u16, segment: &[u8], components: usize) -> Option<()> {
        let f = &mut Fields::new(segment);
        match marker {
            COD => self.take_cod(f)?,
            COC => {
                let component = f.component(components)?;
                let own_precincts = f.u8()? & 1 != 0;
                self.own_coding.insert(component, Coding::parse(f, own_precincts)?);
            }
            QCD => self.quantization = Some(Quantization::parse(f)?),
            QCC => {
                let component = f.component(components)?;
                self.own_quantization.insert(component, Quantization::parse(f)?);
            }
            RGN => {
                let component = f.component(components)?;
                f.u8()?;
                self.shifts.insert(component, f.u8()?);
            }
            POC => self.volumes.extend(parse_volumes(f, components)?),
            PPM | PPT => self.packed.push((f.u8()?, f.bytes.to_vec())),
            _ => {}
        }
        Some(())
    }

    fn take_cod(&mut self, f: &mut Fields) -> Option<()> {
        let flags = f.u8()?;
        let order = Order::from_number(f.u8()?)?;
        let layers = f.u16()?;
        f.u8()?;
        self.general = Some(General { order, layers, sop: flags & 2 != 0, eph: flags & 4 != 0 });
        self.coding = Some(Coding::parse(f, flags & 1 != 0)?);
        Some(())
    }
}

/// The packet headers of each tile-part, from a main header's PPM segments; `None` if a length is wrong (A.7.4).
pub fn packed_by_part(mut segments: Vec<(u8, Vec<u8>)>) -> Option<VecDeque<Vec<u8>>> {
    segments.sort_by_key(|segment| segment.0);
    let all: Vec<u8> = segments.into_iter().flat_map(|segment| segment.1).collect();
    let mut f = Fields::new(&all);
    let mut parts = VecDeque::new();
    while !f.is_empty() {
        let length = f.u32()? as usize;
        parts.push_back(f.bytes.get(..length)?.to_vec());
        f.bytes = &f.bytes[length..];
    }
    Some(parts)
}

/// Main header and tile header together: what the tile says goes first, and a component's own segment before the general one.
pub struct Settings<'a> {
    pub main: &'a Header,
    pub tile: &'a Header,
}

impl Settings<'_> {
    pub fn general(&self) -> Option<General> {
        self.tile.general.or(self.main.general)
    }

    pub fn coding(&self, component: u16) -> Option<&Coding> {
        let of = |header: &'_ Header| header.own_coding.contains_key(&component);
        let (main, tile) = (self.main, self.tile);
        match (of(tile), &tile.coding, of(main)) {
            (true, _, _) => tile.own_coding.get(&component),
            (false, Some(coding), _) => Some(coding),
            (false, None, true) => main.own_coding.get(&component),
            (false, None, false) => main.coding.as_ref(),
        }
    }

    pub fn quantization(&self, component: u16) -> Option<&Quantization> {
        let own = self.tile.own_quantization.get(&component).or(self.tile.quantization.as_ref());
        own.or(self.main.own_quantization.get(&component)).or(self.main.quantization.as_ref())
    }

    /// The bit-planes that a region of interest adds.
    pub fn shift(&self, component: u16) -> u32 {
        let shift = self.tile.shifts.get(&component).or(self.main.shifts.get(&component));
        u32::from(shift.copied().unwrap_or(0))
    }

    /// The progressions: POC's of the tile, or of the main header, or the one that COD names.
    pub fn volumes(&self) -> Option<Vec<Volume>> {
        let general = self.general()?;
        let whole = Volume { resolutions: (0, 33), components: (0, u16::MAX), layers: general.layers, order: general.order };
        Some(match (&self.tile.volumes[..], &self.main.volumes[..]) {
            ([], []) => vec![whole],
            ([], volumes) | (volumes, _) => volumes.to_vec(),
        })
    }
}

#[cfg(test)]
mod tests {
    use super::*;

    #[test]
    fn cod_by_hand() {
        let mut header = Header::default();
        let segment = [0x07, 2, 0, 5, 1, 1, 4, 3, 0x24, 1, 0x65, 0x87];
        assert_eq!(header.take(COD, &segment, 3), Some(()));
        assert_eq!(header.general, Some(General { order: Order::Rpcl, layers: 5, sop: true, eph: true }));
        let coding = Coding { levels: 1, block: (6, 5), style: 0x24, precincts: vec![(5, 6), (7, 8)] };
        assert_eq!(header.coding, Some(coding));
        assert_eq!(header.take(COD, &segment[..11], 3), None);
        assert_eq!(header.take(COD, &[0, 5, 0, 1, 0, 0, 4, 4, 0, 1], 3), None);
    }

    #[test]
    fn planes_by_hand() {
        let mut header = Header::default();
        header.take(QCD, &[0x40, 0x48, 0x48, 0x50], 1).unwrap();
        let quantization = header.quantization.take().unwrap();
        assert_eq!([0, 1, 2, 3].map(|b| quantization.planes(b)), [Some(10), Some(10), Some(11), None]);
        header.take(QCD, &[0x21, 0x68, 0], 1).unwrap();
        let quantization = header.quantization.take().unwrap();
        assert_eq!([0, 1, 3, 4, 7].map(|b| quantization.planes(b)), [Some(13), Some(13), Some(13), Some(12), Some(11)]);
    }

    #[test]
    fn tile_goes_before_main() {
        let coding = |levels| Coding { levels, block: (6, 6), style: 0, precincts: vec![(15, 15); usize::from(levels) + 1] };
        let mut main = Header { coding: Some(coding(1)), ..Header::default() };
        main.own_coding.insert(1, coding(2));
        let mut tile = Header::default();
        let levels = |main: &Header, tile: &Header| [0, 1, 2].map(|c| Settings { main, tile }.coding(c).unwrap().levels);
        assert_eq!(levels(&main, &tile), [1, 2, 1]);
        tile.coding = Some(coding(3));
        assert_eq!(levels(&main, &tile), [3, 3, 3]);
        tile.own_coding.insert(2, coding(4));
        assert_eq!(levels(&main, &tile), [3, 3, 4]);
    }

    #[test]
    fn packed_headers_by_hand() {
        let segments = vec![(1, vec![0, 2, 7, 8]), (0, vec![0, 0, 0, 1, 9, 0, 0])];
        assert_eq!(packed_by_part(segments), Some(VecDeque::from([vec![9], vec![7, 8]])));
        assert_eq!(packed_by_part(vec![(0, vec![0, 0, 0, 2, 9])]), None);
    }

    #[test]
    fn poc_by_hand() {
        let mut header = Header::default();
        header.take(POC, &[0, 0, 0, 1, 3, 2, 1, 1, 0, 0, 9, 6, 0, 4], 2).unwrap();
        let first = Volume { resolutions: (0, 3), components: (0, 2), layers: 1, order: Order::Rlcp };
        let second = Volume { resolutions: (1, 6), components: (0, 2), layers: 9, order: Order::Cprl };
        assert_eq!(header.volumes, [first, second]);
    }
}
