//! Random shapes, layers, states and inputs.
use crate::model::{self, Lists, Place, LAYERS, NOT_YET_INCLUDED, NOT_YET_PLANES};
use crate::pair::{Bands, Layer, LayerCall, Markers};
use crate::random::Random;
use std::ops::Range;

pub struct Shape {
    pub count: u32,
    pub bands: Bands,
    pub style: u8,
    /// Each block's planes.
    pub planes: Vec<u32>,
}

const EDGES: [u32; 29] = [
    0, 1, 2, 3, 4, 9, 10, 11, 31, 32, 33, 63, 64, 65, 108, 109, 110, 163, 164, 165, 998, 999, 1000, 65534, 65535, 65536, 2147483647,
    2147483648, 4294967295,
];
/// Layers about the crate's last, in the middle and about the last.
pub const LATE_LAYERS: [u32; 12] = [997, 998, 999, 1000, 1001, 32_767, 32_768, 65_530, 65_532, 65_533, 65_534, 65_535];
const PASSES: [u32; 16] = [1, 2, 3, 4, 5, 6, 7, 10, 12, 13, 36, 37, 109, 110, 163, 164];

pub fn edge(random: &mut Random) -> u32 {
    match random.below(4) {
        0 => random.up_to_bits(32),
        _ => random.pick(&EDGES),
    }
}

pub fn markers(random: &mut Random) -> Markers {
    Markers { sop: random.once_in(3), eph: random.once_in(3) }
}

/// One to three bands with sides of at most `most`.
pub fn shape(random: &mut Random, most: u64) -> Shape {
    let count = random.between(1, 3) as u32;
    let mut bands = Bands::default();
    for band in &mut bands[..count as usize] {
        let planes = if random.once_in(20) { 998 } else { random.up_to_bits(5) };
        *band = [random.between(0, most) as u32, random.between(0, most) as u32, planes];
    }
    if random.once_in(2) {
        bands[0][0] = bands[0][0].max(1);
        bands[0][1] = bands[0][1].max(1);
    }
    let style = if random.once_in(2) { random.pick(&[0, 1, 4]) } else { random.below(64) as u8 };
    let planes = bands.iter().flat_map(|b| (0..b[0] * b[1]).map(|_| b[2])).map(|most| random.between(0, u64::from(most)) as u32).collect();
    Shape { count, bands, style, planes }
}

/// A pass, numbered from 0 over all layers, ends a segment of the style.
pub fn ends_segment(style: u32, pass: u32) -> bool {
    if style & 4 != 0 {
        true
    } else if style & 1 != 0 {
        pass == 9 || (pass >= 10 && (pass - 10) % 3 != 0)
    } else {
        (pass + 1) % 109 == 0
    }
}

fn passes_so_far(state: &[u32]) -> Vec<u32> {
    let (places, _, _) = model::layout(&model::bands_of(state));
    places.iter().flat_map(|p| (0..p.blocks).map(|i| state[p.block_words + 4 * i])).collect()
}

/// A layer for a writer's state: blocks as dense as one in `rare`, none with 0; marks as the style ends segments or any.
pub fn layer(random: &mut Random, state: &[u32], rare: u64, length_bits: u64) -> Layer {
    let matching = !random.once_in(3);
    layer_by_block(random, state, |_| rare, length_bits, matching)
}

/// A layer with another density for each block; `matching` where marks are as the style ends segments. In some all passes are of 0 bytes.
pub fn layer_by_block(random: &mut Random, state: &[u32], rare: impl Fn(usize) -> u64, length_bits: u64, matching: bool) -> Layer {
    let mut layer = Layer::default();
    let length_bits = if random.once_in(8) { 0 } else { length_bits };
    for (block, so_far) in passes_so_far(state).into_iter().enumerate() {
        let count = match rare(block) != 0 && random.once_in(rare(block)) {
            true if random.once_in(3) => random.pick(&PASSES),
            true => random.between(1, 4) as u32,
            false => 0,
        };
        layer.counts.push(count);
        for pass in 0..count {
            let ends = if matching { ends_segment(state[2], so_far.wrapping_add(pass)) } else { random.once_in(4) };
            layer.lengths.push(if random.once_in(3) { 0 } else { random.up_to_bits(length_bits) });
            layer.marks.push(if ends { random.between(1, 255) as u8 } else { 0 });
        }
    }
    layer
}

pub fn blocks_in(state: &[u32]) -> usize {
    model::layout(&model::bands_of(state)).2
}

/// A state in the ranges of refusal 5, whether or not calls could leave it, in one of the crate's layers or next layer 999.
pub fn state(random: &mut Random, role: u32, shape: &Shape) -> Vec<u32> {
    let layer = if random.once_in(8) { random.pick(&[0, 1, 997, 998, 999]) } else { random.between(1, 20) as u32 };
    let (places, mut state) = with_blocks(random, role, shape, layer);
    let most = random.pick(&[3, 12, 999]);
    for p in &places {
        fill_nodes(random, &mut state[p.inclusion..p.zero_planes], NOT_YET_INCLUDED, most);
        fill_nodes(random, &mut state[p.zero_planes..p.block_words], NOT_YET_PLANES, most);
        if p.nodes > 0 && random.once_in(8) {
            let node = p.inclusion + 3 * random.below(p.nodes as u64) as usize;
            state[node] = random.pick(&[998, 1000, 1001, 32_768, 65_534]);
            state[node + 1] = random.pick(&[state[node + 1], 998, 999, 1000, 65_534, 65_535]);
        }
    }
    state
}

/// The same in one of `LATE_LAYERS` or any layer from 998 on. A root's low is near the layer but for one state in `far`, since each layer
/// between them costs a bit.
pub fn late_state(random: &mut Random, role: u32, shape: &Shape, far: u64) -> Vec<u32> {
    let layer = late_layer(random);
    let (places, mut state) = with_blocks(random, role, shape, layer);
    let (most, far) = (random.pick(&[3, 12, 999]), random.once_in(far));
    for p in &places {
        for node in state[p.inclusion..p.zero_planes].chunks_exact_mut(3) {
            node.copy_from_slice(&[late_number(random, layer), late_number(random, layer), random.below(2) as u32]);
        }
        fill_nodes(random, &mut state[p.zero_planes..p.block_words], NOT_YET_PLANES, most);
        if p.nodes > 0 && !far {
            state[p.zero_planes - 2] = (layer + 1 - random.below(40) as u32).min(NOT_YET_INCLUDED);
        }
    }
    state
}

/// A reader's state whose inclusion trees have told nothing of up to 900 layers before, and its zero-plane trees nothing at all.
pub fn far_state(random: &mut Random, shape: &Shape) -> Vec<u32> {
    let layer = if random.once_in(20) { random.between(999, u64::from(LAYERS) - 1) } else { random.between(1, 998) } as u32;
    let (places, mut state) = with_blocks(random, 2, shape, layer);
    let far = random.pick(&[2, 40, 900]).min(u64::from(layer));
    for p in &places {
        for node in state[p.inclusion..p.zero_planes].chunks_exact_mut(3) {
            node[..2].copy_from_slice(&[NOT_YET_INCLUDED, layer - random.between(0, far) as u32]);
        }
        for node in state[p.zero_planes..p.block_words].chunks_exact_mut(3) {
            node[0] = NOT_YET_PLANES;
        }
    }
    state
}

pub fn late_layer(random: &mut Random) -> u32 {
    match random.once_in(4) {
        true => random.between(998, LAYERS.into()) as u32,
        false => random.pick(&LATE_LAYERS),
    }
}

/// A value or low of an inclusion tree: at an edge, any, or about the layer.
fn late_number(random: &mut Random, layer: u32) -> u32 {
    match random.below(4) {
        0 => random.pick(&[0, 998, 999, 1000, 65_534, 65_535]),
        1 => random.between(0, NOT_YET_INCLUDED.into()) as u32,
        _ => (layer - 2 + random.below(5) as u32).min(NOT_YET_INCLUDED),
    }
}

/// A state of this layer with blocks in range, whose nodes are all zeros; and the places of its bands.
fn with_blocks(random: &mut Random, role: u32, shape: &Shape, layer: u32) -> (Vec<Place>, Vec<u32>) {
    let used = &shape.bands[..shape.count as usize];
    let (places, length, _) = model::layout(used);
    let mut state = vec![0; length];
    state[..4].copy_from_slice(&[role, shape.count, u32::from(shape.style), layer]);
    state[4..4 + 3 * used.len()].copy_from_slice(used.as_flattened());
    for p in &places {
        for block in state[p.block_words..].chunks_exact_mut(4).take(p.blocks) {
            if layer > 0 && !random.once_in(3) {
                fill_block(random, role, shape.style, layer, block);
            }
        }
    }
    (places, state)
}

/// A block with passes.
fn fill_block(random: &mut Random, role: u32, style: u8, layer: u32, block: &mut [u32]) {
    let limit = if style & 4 != 0 {
        1
    } else if style & 1 != 0 {
        random.pick(&[10, 2, 1])
    } else {
        109
    };
    block[0] = if random.once_in(4) { 164 * layer } else { random.between(1, u64::from(164 * layer)) as u32 };
    block[1] = if random.once_in(4) { random.between(25, 32) as u32 } else { random.between(3, 8) as u32 };
    if role == 2 {
        block[2] = limit;
        block[3] = random.between(1, u64::from(limit)) as u32;
    }
}

/// Nodes with values and lows of at most `most`, some of the values "not yet".
fn fill_nodes(random: &mut Random, nodes: &mut [u32], not_yet: u32, most: u64) {
    for node in nodes.chunks_exact_mut(3) {
        node[0] = if random.once_in(3) { not_yet } else { random.between(0, most) as u32 };
        node[1] = random.between(0, most) as u32;
        node[2] = random.below(2) as u32;
    }
}

/// Moves a state on to a layer, all nodes of its inclusion trees told as far as that.
pub fn pass_over(state: &mut [u32], layer: u32) {
    state[3] = layer;
    for p in &model::layout(&model::bands_of(state)).0 {
        for node in state[p.inclusion..p.zero_planes].chunks_exact_mut(3) {
            if node[0] == NOT_YET_INCLUDED {
                node[1] = layer;
            }
        }
    }
}

/// A reader's state after layer 0 in which each block has a pass, and length fields of 32 bits from then on; its style has 0x04.
pub fn widest_state(mut state: Vec<u32>) -> Vec<u32> {
    state[3] = 1;
    for p in &model::layout(&model::bands_of(&state)).0 {
        for block in state[p.block_words..].chunks_exact_mut(4).take(p.blocks) {
            block.copy_from_slice(&[1, 32, 1, 1]);
        }
    }
    state
}

/// A header that gives blocks of such a state some passes, most lengths near 2^32; and the number of all passes.
pub fn long_header(random: &mut Random, blocks: usize) -> (Vec<u8>, usize) {
    let (mut bits, mut segments) = (vec![1], 0);
    for _ in 0..blocks {
        let passes = random.between(0, 5) as u32;
        bits.push(u8::from(passes > 0));
        if passes > 0 {
            model::put_passes(&mut bits, passes);
            bits.push(0);
        }
        for _ in 0..passes {
            let length = if random.once_in(3) { edge(random) } else { u32::MAX - random.up_to_bits(8) };
            model::put_number(&mut bits, length.into(), 32);
        }
        segments += passes as usize;
    }
    (model::pack(&bits), segments)
}

/// One to three words changed to edges of their ranges or beyond, moved by one, or made the most passes that the layer allows or one
/// more; or the length changed by one.
pub fn damaged_state(random: &mut Random, state: &[u32]) -> Vec<u32> {
    let mut state = state.to_vec();
    let most_passes = state[3].wrapping_mul(164);
    for _ in 0..random.between(1, 3) {
        let at = if random.once_in(3) { random.below(state.len().min(13) as u64) } else { random.below(state.len() as u64) };
        let word = &mut state[at as usize];
        *word = match random.below(6) {
            0 => word.wrapping_add(1),
            1 => word.wrapping_sub(1),
            2 => most_passes.wrapping_add(random.below(2) as u32),
            _ => edge(random),
        };
    }
    match random.below(20) {
        0 => {
            state.pop();
        }
        1 => state.push(0),
        _ => {}
    }
    state
}

/// A length near another, or far from it.
pub fn near(random: &mut Random, n: usize) -> usize {
    random.pick(&[n.saturating_sub(1), n + 1, n.saturating_sub(2), n.saturating_sub(4), n + 4, 0, 2 * n + 1])
}

/// A length near another, or any shorter one.
fn near_or_cut(random: &mut Random, n: usize) -> usize {
    match random.once_in(2) {
        true => near(random, n),
        false => random.below(n as u64 + 1) as usize,
    }
}

/// Where one precinct's part of a list lies, by the lengths of all parts.
fn one_part(random: &mut Random, lengths: &[usize]) -> Range<usize> {
    let place = random.below(lengths.len() as u64) as usize;
    let begin = lengths[..place].iter().sum();
    begin..begin + lengths[place]
}

/// One to three changes: a list cut short or longer, or some of its words changed.
pub fn damaged_call(random: &mut Random, call: &LayerCall) -> LayerCall {
    let mut call = call.clone();
    for _ in 0..random.pick(&[1, 1, 1, 2, 3]) {
        damage_call(random, &mut call);
    }
    call
}

fn damage_call(random: &mut Random, call: &mut LayerCall) {
    let parts = call.parts();
    let part_of = |random: &mut Random, list: fn(&Lists) -> usize| one_part(random, &parts.iter().map(list).collect::<Vec<_>>());
    let state = part_of(random, |part| part.states.len());
    let counts = part_of(random, |part| part.counts.len());
    let lengths = part_of(random, |part| part.lengths.len());
    let LayerCall { states, layer, bodies, .. } = call;
    match random.below(18) {
        0 => call.scratch = near_or_cut(random, call.scratch),
        1 => states.resize(near_or_cut(random, states.len()), 1),
        2 | 3 if state.len() > 3 => {
            let damaged = damaged_state(random, &states[state.clone()]);
            states.splice(state, damaged);
            call.scratch = if random.once_in(2) { call.scratch } else { states.len() };
        }
        4 if state.len() > 3 => states[state.start + 3] = random.pick(&[65_534, 65_535, 65_535, 65_536]),
        5 if !state.is_empty() => states[state.start] = 2,
        6 => call.numbers.resize(near_or_cut(random, call.numbers.len()), 3),
        7 => call.numbers.resize(random.pick(&[0, 15, 16, 17, 18]), 3),
        8 => layer.counts.resize(near_or_cut(random, layer.counts.len()), 1),
        9 if !counts.is_empty() => layer.counts[pick_in(random, &counts)] = edge(random),
        10 if !counts.is_empty() => many_passes(layer, pick_in(random, &counts), random.between(163, 166) as usize),
        11 if counts.len() > 1 => {
            // their sum stays the same modulo 2^32
            for at in [counts.start, counts.end - 1] {
                layer.counts[at] = layer.counts[at].wrapping_add(1 << 31);
            }
        }
        12 => layer.lengths.resize(near_or_cut(random, layer.lengths.len()), 2),
        13 if !lengths.is_empty() => {
            let (at, any) = (pick_in(random, &lengths), edge(random));
            let length = layer.lengths[at];
            layer.lengths[at] = random.pick(&[length.wrapping_add(1), length.saturating_sub(1), (1 << 31) - 1, 1 << 31, any]);
        }
        14 if lengths.len() > 3 => {
            // segments below 2^31 bytes, whose sum stays the same modulo 2^32
            for at in lengths.clone().take(4) {
                layer.lengths[at] = layer.lengths[at].wrapping_add(1 << 30);
            }
            layer.marks.iter_mut().skip(lengths.start).take(4).for_each(|mark| *mark = 1);
        }
        15 => layer.marks.resize(near_or_cut(random, layer.marks.len()), 0),
        16 => bodies.resize(near_or_cut(random, bodies.len()), 7),
        17 if random.once_in(3) => call.answer = random.pick(&[0, 1, 3, 4]),
        _ => call.output = near_or_cut(random, call.output),
    }
}

fn pick_in(random: &mut Random, range: &Range<usize>) -> usize {
    random.between(range.start as u64, range.end as u64 - 1) as usize
}

/// So many passes for one block; those that it had not are of 0 bytes.
fn many_passes(layer: &mut Layer, block: usize, passes: usize) {
    let had = layer.counts[block] as usize;
    let before: u64 = layer.counts[..block].iter().map(|n| u64::from(*n)).sum();
    let end = before as usize + had;
    if end > layer.lengths.len() || end > layer.marks.len() || had > passes {
        return;
    }
    layer.counts[block] = passes as u32;
    layer.lengths.splice(end..end, vec![0; passes - had]);
    layer.marks.splice(end..end, vec![0; passes - had]);
}

/// Bits flipped, bytes set to FF, cut, or longer.
pub fn damaged_bytes(random: &mut Random, bytes: &[u8]) -> Vec<u8> {
    let mut bytes = bytes.to_vec();
    for _ in 0..random.between(0, 3) {
        if !bytes.is_empty() {
            let at = random.below(bytes.len() as u64) as usize;
            match random.below(3) {
                0 => bytes[at] = 0xff,
                1 => bytes[at] = random.next() as u8,
                _ => bytes[at] ^= 1 << random.below(8),
            }
        }
    }
    match random.below(3) {
        0 => bytes.truncate(random.between(0, bytes.len() as u64) as usize),
        1 => bytes.extend(random.bytes(3)),
        _ => {}
    }
    bytes
}

/// A header cut short: anywhere, behind one of its bytes FF if it has any, or with an FF in place of its next byte; some to no bytes.
pub fn cut(random: &mut Random, header: &[u8]) -> Vec<u8> {
    let mut end = random.below(header.len().max(1) as u64) as usize;
    let behind_ff: Vec<usize> = (1..header.len()).filter(|at| header[at - 1] == 0xff).collect();
    if !behind_ff.is_empty() && random.once_in(4) {
        end = random.pick(&behind_ff);
    }
    let mut cut = header[..end].to_vec();
    match random.below(16) {
        0 => cut.clear(),
        1 | 2 => cut.push(0xff),
        _ => {}
    }
    cut
}

/// A first bit 1 and little else, in up to four bytes.
pub fn short(random: &mut Random) -> Vec<u8> {
    let mut bytes: Vec<u8> = (0..random.below(5)).map(|_| random.pick(&[0, 0, 0x01, 0x10, 0x80, 0xc0, 0xe0, 0xfe, 0xff, 0xff])).collect();
    if let Some(byte) = bytes.first_mut() {
        *byte |= 0x80;
    }
    bytes
}

/// One to nine bytes to go behind an input, some of them EPH or a part of it.
pub fn more(random: &mut Random) -> Vec<u8> {
    let n = random.between(1, 9) as usize;
    let mut bytes = random.bytes(n);
    if random.once_in(3) {
        let eph = [0xff, 0x92];
        bytes.splice(..n.min(2), eph[random.below(2) as usize..].to_vec());
    }
    bytes
}

/// Short inputs with many bytes FF and 00, most with a first bit 1.
pub fn noise(random: &mut Random) -> Vec<u8> {
    let n = random.between(0, 24) as usize;
    let mut bytes: Vec<u8> = (0..n).map(|_| random.next() as u8).collect();
    for byte in &mut bytes {
        match random.below(5) {
            0 => *byte = 0xff,
            1 => *byte = 0,
            _ => {}
        }
    }
    if let Some(byte) = bytes.first_mut() {
        *byte |= if random.once_in(8) { 0 } else { 0xc0 };
    }
    if random.once_in(6) {
        bytes.splice(0..0, [0xff, 0x91, 0, 4, 0, 1]);
    }
    bytes
}
