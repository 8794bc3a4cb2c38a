//! Tiles, resolutions, precincts and code-blocks, after T.800 Annex B.
use crate::markers::{Coding, Rect, Size};

/// The most precincts that the tiles of a codestream may have here.
pub const MOST_PRECINCTS: u64 = 1 << 23;

/// The least whole number that is not below `value / 2^shift`.
fn ceil_shift(value: u32, shift: u32) -> u32 {
    let value = u64::from(value);
    ((value + (1 << shift) - 1) >> shift) as u32
}

/// `value / 2^shift` rounded down, for shifts up to 63.
fn floor_shift(value: u32, shift: u32) -> u32 {
    (u64::from(value) >> shift) as u32
}

/// A tile on the reference grid (B-7 to B-10).
pub fn tile(size: &Size, number: u32) -> Rect {
    let (p, q) = (number % size.tiles_across(), number / size.tiles_across());
    let edge = |first: u32, side: u32, count: u32| u64::from(first) + u64::from(side) * u64::from(count);
    Rect {
        x0: edge(size.tile_x, size.tile_width, p).max(size.image.x0.into()) as u32,
        y0: edge(size.tile_y, size.tile_height, q).max(size.image.y0.into()) as u32,
        x1: edge(size.tile_x, size.tile_width, p + 1).min(size.image.x1.into()) as u32,
        y1: edge(size.tile_y, size.tile_height, q + 1).min(size.image.y1.into()) as u32,
    }
}

/// A tile's part of a component, by its sampling steps (B-12).
pub fn tile_component(tile: Rect, (across, down): (u32, u32)) -> Rect {
    Rect { x0: tile.x0.div_ceil(across), y0: tile.y0.div_ceil(down), x1: tile.x1.div_ceil(across), y1: tile.y1.div_ceil(down) }
}

/// A tile-component at a resolution, `below` levels under the full one (B-14).
fn reduced(area: Rect, below: u32) -> Rect {
    let cut = |side| ceil_shift(side, below);
    Rect { x0: cut(area.x0), y0: cut(area.y0), x1: cut(area.x1), y1: cut(area.y1) }
}

/// A band of level `level`: `right` and `low` say whether it is the high one across and down (B-15).
fn band_area(area: Rect, level: u32, right: bool, low: bool) -> Rect {
    let cut = |side: u32, high: bool| {
        let half = if high { 1u64 << (level - 1) } else { 0 };
        let value = u64::from(side) + (1u64 << level) - 1;
        (value.saturating_sub(half) >> level) as u32
    };
    Rect { x0: cut(area.x0, right), y0: cut(area.y0, low), x1: cut(area.x1, right), y1: cut(area.y1, low) }
}

/// One resolution of a tile-component and its precincts.
#[derive(Clone, PartialEq, Eq, Debug)]
pub struct Resolution {
    pub number: u8,
    /// Levels under the full resolution.
    pub below: u32,
    pub area: Rect,
    pub across: u32,
    pub down: u32,
    precinct: (u8, u8),
    block: (u32, u32),
    bands: Vec<Rect>,
}

impl Resolution {
    pub fn new(area: Rect, coding: &Coding, number: u8) -> Resolution {
        let below = u32::from(coding.levels - number);
        let at = reduced(area, below);
        let precinct = coding.precincts[usize::from(number)];
        let inset = u8::from(number > 0);
        let count = |from: u32, to: u32, side: u8| ceil_shift(to, side.into()) - floor_shift(from, side.into());
        let empty = at.is_empty();
        Resolution {
            number,
            below,
            area: at,
            across: if empty { 0 } else { count(at.x0, at.x1, precinct.0) },
            down: if empty { 0 } else { count(at.y0, at.y1, precinct.1) },
            precinct,
            block: (u32::from(coding.block.0.min(precinct.0 - inset)), u32::from(coding.block.1.min(precinct.1 - inset))),
            bands: match number {
                0 => vec![at],
                _ => [(true, false), (false, true), (true, true)].map(|(right, low)| band_area(area, below + 1, right, low)).to_vec(),
            },
        }
    }

    pub fn precincts(&self) -> u64 {
        u64::from(self.across) * u64::from(self.down)
    }

    /// Column and row of a precinct, counted from the grid's origin.
    fn place(&self, precinct: u32) -> (u32, u32) {
        let first = (floor_shift(self.area.x0, self.precinct.0.into()), floor_shift(self.area.y0, self.precinct.1.into()));
        (first.0 + precinct % self.across, first.1 + precinct / self.across)
    }

    /// Where on the reference grid the progressions by position meet a precinct: row, then column (B.12.1.3).
    pub fn position(&self, precinct: u32, tile: Rect, steps: (u32, u32)) -> (u32, u32) {
        let (column, row) = self.place(precinct);
        let at = |count: u32, side: u8, step: u32, least: u32| {
            let corner = (u128::from(count) << (u32::from(side) + self.below)) * u128::from(step);
            corner.max(least.into()) as u32
        };
        (at(row, self.precinct.1, steps.1, tile.y0), at(column, self.precinct.0, steps.0, tile.x0))
    }

    /// Blocks across and down of each band in a precinct; 0 and 0 where the band has nothing there.
    pub fn blocks(&self, precinct: u32) -> Vec<(u32, u32)> {
        let (column, row) = self.place(precinct);
        let inset = u8::from(self.number > 0);
        let sides = (self.precinct.0 - inset, self.precinct.1 - inset);
        self.bands
            .iter()
            .map(|band| {
                let across = blocks_between(band.x0, band.x1, column, sides.0, self.block.0);
                let down = blocks_between(band.y0, band.y1, row, sides.1, self.block.1);
                if across == 0 || down == 0 {
                    (0, 0)
                } else {
                    (across, down)
                }
            })
            .collect()
    }
}

/// Blocks on one axis of the part of `from..to` that lies in a precinct.
fn blocks_between(from: u32, to: u32, precinct: u32, side: u8, block: u32) -> u32 {
    let start = u64::from(from).max(u64::from(precinct) << side);
    let end = u64::from(to).min((u64::from(precinct) + 1) << side);
    if start >= end {
        return 0;
    }
    let (start, end) = (start as u32, end as u32);
    ceil_shift(end, block) - floor_shift(start, block)
}

#[cfg(test)]
mod tests {
    use super::*;

    fn size() -> Size {
        let image = Rect { x0: 5, y0: 3, x1: 70, y1: 50 };
        Size { image, tile_width: 32, tile_height: 40, tile_x: 2, tile_y: 1, steps: vec![(1, 1), (2, 2)] }
    }

    #[test]
    fn tiles_by_hand() {
        let size = size();
        assert_eq!((size.tiles_across(), size.tiles_down()), (3, 2));
        assert_eq!(tile(&size, 0), Rect { x0: 5, y0: 3, x1: 34, y1: 41 });
        assert_eq!(tile(&size, 4), Rect { x0: 34, y0: 41, x1: 66, y1: 50 });
        assert_eq!(tile(&size, 5), Rect { x0: 66, y0: 41, x1: 70, y1: 50 });
        assert_eq!(tile_component(tile(&size, 0), (2, 2)), Rect { x0: 3, y0: 2, x1: 17, y1: 21 });
    }

    #[test]
    fn bands_by_hand() {
        let area = Rect { x0: 5, y0: 3, x1: 34, y1: 41 };
        assert_eq!(reduced(area, 2), Rect { x0: 2, y0: 1, x1: 9, y1: 11 });
        assert_eq!(band_area(area, 1, true, false), Rect { x0: 2, y0: 2, x1: 17, y1: 21 });
        assert_eq!(band_area(area, 2, true, true), Rect { x0: 1, y0: 1, x1: 8, y1: 10 });
        assert_eq!(band_area(Rect { x0: 0, y0: 0, x1: 1, y1: 1 }, 1, true, true), Rect { x0: 0, y0: 0, x1: 0, y1: 0 });
    }

    #[test]
    fn precincts_by_hand() {
        let area = Rect { x0: 5, y0: 3, x1: 34, y1: 41 };
        let coding = Coding { levels: 1, block: (2, 3), style: 0, precincts: vec![(3, 3), (4, 4)] };
        let low = Resolution::new(area, &coding, 0);
        assert_eq!(low.area, Rect { x0: 3, y0: 2, x1: 17, y1: 21 });
        assert_eq!((low.across, low.down), (3, 3));
        assert_eq!([0, 1, 2, 6].map(|p| low.blocks(p)[0]), [(2, 1), (2, 1), (1, 1), (2, 1)]);
        let full = Resolution::new(area, &coding, 1);
        assert_eq!((full.across, full.down), (3, 3));
        assert_eq!(full.blocks(0), [(2, 1), (2, 1), (2, 1)]);
        assert_eq!(full.blocks(2), [(1, 1), (1, 1), (1, 1)]);
    }

    #[test]
    fn positions_by_hand() {
        let tile = Rect { x0: 5, y0: 3, x1: 34, y1: 41 };
        let coding = Coding { levels: 1, block: (2, 3), style: 0, precincts: vec![(3, 3), (4, 4)] };
        let low = Resolution::new(tile, &coding, 0);
        assert_eq!([0, 1, 2, 3].map(|p| low.position(p, tile, (1, 1))), [(3, 5), (3, 16), (3, 32), (16, 5)]);
        let full = Resolution::new(tile, &coding, 1);
        assert_eq!([0, 1, 4].map(|p| full.position(p, tile, (1, 1))), [(3, 5), (3, 16), (16, 16)]);
    }

    #[test]
    fn an_empty_band_in_a_precinct() {
        let area = Rect { x0: 0, y0: 0, x1: 1, y1: 9 };
        let coding = Coding { levels: 1, block: (6, 6), style: 0, precincts: vec![(15, 15); 2] };
        assert_eq!(Resolution::new(area, &coding, 1).blocks(0), [(0, 0), (1, 1), (0, 0)]);
    }
}
