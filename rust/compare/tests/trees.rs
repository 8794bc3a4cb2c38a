//! The nodes of tag trees, for every leaf of every shape.
use compare::model::{levels, parent};

const MOST: usize = 64;

/// Across and down of every shape.
fn shapes() -> impl Iterator<Item = (usize, usize)> {
    (1..=MOST).flat_map(|across| (1..=MOST).map(move |down| (across, down)))
}

/// The nodes over a leaf, each from its level and place, the root first.
fn walk_down(levels: &[(usize, usize)], leaf: usize) -> Vec<usize> {
    let (x, y) = (leaf % levels[0].0, leaf / levels[0].0);
    let (mut nodes, mut first) = (Vec::new(), 0);
    for (i, (w, h)) in levels.iter().enumerate() {
        nodes.push(first + (y >> i) * w + (x >> i));
        first += w * h;
    }
    nodes.reverse();
    nodes
}

#[test]
fn walks_down_are_climbs_reversed() {
    for (across, down) in shapes() {
        let levels = levels(across, down);
        for leaf in 0..across * down {
            let mut climb: Vec<usize> = std::iter::successors(Some(leaf), |node| parent(&levels, *node)).collect();
            climb.reverse();
            assert_eq!(walk_down(&levels, leaf), climb, "leaf {leaf} of {across} × {down}");
        }
    }
}

#[cfg(openjp2)]
#[test]
fn parents_are_the_crates() {
    for (across, down) in shapes() {
        let levels = levels(across, down);
        let parents: Vec<Option<usize>> = (0..levels.iter().map(|(w, h)| w * h).sum()).map(|node| parent(&levels, node)).collect();
        assert_eq!(compare::openjp2::t2::precinct::parents(across as u32, down as u32), parents, "{across} × {down}");
    }
}
