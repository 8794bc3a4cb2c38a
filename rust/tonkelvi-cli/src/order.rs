//! The order of a tile's packets: the five progressions of T.800 B.12, one after the other where POC says so.
use crate::markers::{Order, Volume};
use std::collections::VecDeque;

/// A precinct of a tile, and where on the reference grid the progressions by position meet it (row, column).
#[derive(Clone, Copy, PartialEq, Eq, Debug)]
pub struct Precinct {
    pub component: u16,
    pub resolution: u8,
    pub number: u32,
    pub position: (u32, u32),
}

/// The next packet: a precinct by its place in the list, and a layer.
#[derive(Clone, Copy, PartialEq, Eq, Debug)]
pub struct Turn {
    pub precinct: usize,
    pub layer: u16,
}

/// Gives the packets in order; a packet that an earlier progression gave isn't given again.
#[derive(Clone, Debug)]
pub struct Turns {
    precincts: Vec<Precinct>,
    next_layer: Vec<u16>,
    layers: u16,
    left: u64,
    volumes: VecDeque<Volume>,
    groups: VecDeque<Vec<usize>>,
    group_layers: u16,
    layer: u16,
    place: usize,
}

impl Turns {
    pub fn new(precincts: Vec<Precinct>, layers: u16, volumes: Vec<Volume>) -> Turns {
        let next_layer = vec![0; precincts.len()];
        let left = precincts.len() as u64 * u64::from(layers);
        let volumes = volumes.into();
        Turns { precincts, next_layer, layers, left, volumes, groups: VecDeque::new(), group_layers: 0, layer: 0, place: 0 }
    }

    /// Adds progressions that a later tile-part names.
    pub fn add(&mut self, volumes: &[Volume]) {
        self.volumes.extend(volumes);
    }

    pub fn precincts(&self) -> &[Precinct] {
        &self.precincts
    }

    /// The packets of all layers and precincts that have not been given.
    pub fn left(&self) -> u64 {
        self.left
    }

    /// Goes to the next place of the group, its next layer, the next group or the next progression.
    fn step(&mut self) -> Option<Turn> {
        loop {
            let Some(group) = self.groups.front() else {
                self.open()?;
                continue;
            };
            if self.layer >= self.group_layers {
                self.groups.pop_front();
                (self.layer, self.place) = (0, 0);
            } else if let Some(&precinct) = group.get(self.place) {
                self.place += 1;
                return Some(Turn { precinct, layer: self.layer });
            } else {
                (self.layer, self.place) = (self.layer + 1, 0);
            }
        }
    }

    fn open(&mut self) -> Option<()> {
        let volume = self.volumes.pop_front()?;
        self.groups = groups(&self.precincts, &volume).into();
        self.group_layers = volume.layers.min(self.layers);
        (self.layer, self.place) = (0, 0);
        Some(())
    }
}

impl Iterator for Turns {
    type Item = Turn;

    fn next(&mut self) -> Option<Turn> {
        while self.left > 0 {
            let turn = self.step()?;
            let next = &mut self.next_layer[turn.precinct];
            if *next == turn.layer {
                *next += 1;
                self.left -= 1;
                return Some(turn);
            }
        }
        None
    }
}

/// The precincts of a progression in groups: of each group all layers come in turn, and in each layer all its precincts.
fn groups(precincts: &[Precinct], volume: &Volume) -> Vec<Vec<usize>> {
    let mut places: Vec<usize> = (0..precincts.len()).filter(|&p| belongs(&precincts[p], volume)).collect();
    places.sort_by_key(|&p| key(&precincts[p], volume.order));
    match volume.order {
        Order::Lrcp => vec![places],
        Order::Rlcp => places.chunk_by(|&a, &b| precincts[a].resolution == precincts[b].resolution).map(<[usize]>::to_vec).collect(),
        _ => places.into_iter().map(|p| vec![p]).collect(),
    }
}

fn belongs(precinct: &Precinct, volume: &Volume) -> bool {
    (volume.resolutions.0..volume.resolutions.1).contains(&precinct.resolution)
        && (volume.components.0..volume.components.1).contains(&precinct.component)
}

/// What a progression sorts precincts by.
fn key(p: &Precinct, order: Order) -> [u32; 5] {
    let (y, x) = p.position;
    let (component, resolution) = (u32::from(p.component), u32::from(p.resolution));
    match order {
        Order::Lrcp | Order::Rlcp => [resolution, component, p.number, 0, 0],
        Order::Rpcl => [resolution, y, x, component, p.number],
        Order::Pcrl => [y, x, component, resolution, p.number],
        Order::Cprl => [component, y, x, resolution, p.number],
    }
}

#[cfg(test)]
mod tests {
    use super::*;

    /// Two components; resolution 0 has one precinct each, resolution 1 two beside each other.
    fn precincts() -> Vec<Precinct> {
        let mut list = Vec::new();
        for component in 0..2 {
            list.push(Precinct { component, resolution: 0, number: 0, position: (0, 0) });
            list.push(Precinct { component, resolution: 1, number: 0, position: (0, 0) });
            list.push(Precinct { component, resolution: 1, number: 1, position: (0, 64) });
        }
        list
    }

    fn volume(order: Order, layers: u16) -> Volume {
        Volume { resolutions: (0, 33), components: (0, 99), layers, order }
    }

    fn run(volumes: Vec<Volume>) -> Vec<(usize, u16)> {
        let mut turns = Turns::new(precincts(), 2, volumes);
        let list = turns.by_ref().map(|t| (t.precinct, t.layer)).collect();
        assert_eq!(turns.left(), 12 - turns.next_layer.iter().map(|&n| u64::from(n)).sum::<u64>());
        list
    }

    #[test]
    fn five_orders() {
        let firsts = |order| run(vec![volume(order, 2)]);
        let layered = |list: [usize; 6], layer| list.map(|p| (p, layer)).to_vec();
        let lrcp = [layered([0, 3, 1, 2, 4, 5], 0), layered([0, 3, 1, 2, 4, 5], 1)].concat();
        assert_eq!(firsts(Order::Lrcp), lrcp);
        let rlcp = [(0, 0), (3, 0), (0, 1), (3, 1), (1, 0), (2, 0), (4, 0), (5, 0), (1, 1), (2, 1), (4, 1), (5, 1)];
        assert_eq!(firsts(Order::Rlcp), rlcp);
        let both = |list: [usize; 6]| list.iter().flat_map(|&p| [(p, 0), (p, 1)]).collect::<Vec<_>>();
        assert_eq!(firsts(Order::Rpcl), both([0, 3, 1, 4, 2, 5]));
        assert_eq!(firsts(Order::Pcrl), both([0, 1, 3, 4, 2, 5]));
        assert_eq!(firsts(Order::Cprl), both([0, 1, 2, 3, 4, 5]));
    }

    #[test]
    fn poc_gives_no_packet_twice() {
        let mut first = volume(Order::Rlcp, 1);
        first.resolutions = (0, 1);
        let list = run(vec![first, volume(Order::Cprl, 9)]);
        let rest = [(0, 1), (1, 0), (1, 1), (2, 0), (2, 1), (3, 1), (4, 0), (4, 1), (5, 0), (5, 1)];
        assert_eq!(list[..2], [(0, 0), (3, 0)]);
        assert_eq!(list[2..], rest);
    }
}
