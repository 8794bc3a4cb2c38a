//! The scope (docs/SCOPE.md) as plain Rust, written from its text: start, measure, write, write a layer and read on lent lists of words.
//! Nothing here is fast.

const WRITER: u32 = 1;
const READER: u32 = 2;
/// The layers of a precinct: next layer 65,535 says that all have been coded.
pub const LAYERS: u32 = 65_535;
/// The value of a fresh node, in inclusion trees and in zero-plane trees.
pub const NOT_YET_INCLUDED: u32 = 65_535;
pub const NOT_YET_PLANES: u32 = 999;
const MOST_PLANES: u32 = 998;
const MOST_PASSES: u32 = 164;
pub const MOST_PRECINCTS: usize = 16;
const FIRST_WORDS: usize = 13;

// ---- where the words of a band stand

pub struct Place {
    planes: u32,
    pub blocks: usize,
    pub nodes: usize,
    levels: Vec<(usize, usize)>,
    pub inclusion: usize,
    pub zero_planes: usize,
    pub block_words: usize,
    first_block: usize,
}

/// The sides of each level of a tree, halved and rounded up, from the leaves' to the root's.
pub fn levels(across: usize, down: usize) -> Vec<(usize, usize)> {
    let mut all = Vec::new();
    if across * down > 0 {
        all.push((across, down));
        while *all.last().unwrap() != (1, 1) {
            let (w, h) = *all.last().unwrap();
            all.push(((w + 1) / 2, (h + 1) / 2));
        }
    }
    all
}

/// The parent of a node: its column and row halved, on the level above; the root has none.
pub fn parent(levels: &[(usize, usize)], node: usize) -> Option<usize> {
    let mut first = 0;
    for pair in levels.windows(2) {
        let ((w, h), (above, _)) = (pair[0], pair[1]);
        let next = first + w * h;
        if node < next {
            let (x, y) = ((node - first) % w, (node - first) / w);
            return Some(next + y / 2 * above + x / 2);
        }
        first = next;
    }
    None
}

/// The bands' places, the state's length and the number of blocks.
pub fn layout(bands: &[[u32; 3]]) -> (Vec<Place>, usize, usize) {
    let (mut places, mut at, mut first_block) = (Vec::new(), FIRST_WORDS, 0);
    for band in bands {
        let (across, down) = (band[0] as usize, band[1] as usize);
        let levels = levels(across, down);
        let nodes: usize = levels.iter().map(|(w, h)| w * h).sum();
        let blocks = across * down;
        let (inclusion, zero_planes, block_words) = (at, at + 3 * nodes, at + 6 * nodes);
        places.push(Place { planes: band[2], blocks, nodes, levels, inclusion, zero_planes, block_words, first_block });
        at = block_words + 4 * blocks;
        first_block += blocks;
    }
    (places, at, first_block)
}

pub fn bands_of(state: &[u32]) -> Vec<[u32; 3]> {
    (0..state[1] as usize).map(|i| [state[4 + 3 * i], state[5 + 3 * i], state[6 + 3 * i]]).collect()
}

impl Place {
    /// The nodes that a climb from a leaf to the root meets.
    fn path(&self, leaf: usize) -> Vec<usize> {
        std::iter::successors(Some(leaf), |node| parent(&self.levels, *node)).collect()
    }
}

// ---- start

fn shape_refused(count: u32, bands: &[[u32; 3]; 3]) -> bool {
    count < 1 || count > 3 || bands[..count as usize].iter().any(|b| b[0] > 64 || b[1] > 64)
}

/// The three bands of nine words.
fn three(bands: &[u32]) -> Option<[[u32; 3]; 3]> {
    let nine: [u32; 9] = bands.try_into().ok()?;
    Some([0, 3, 6].map(|i| [nine[i], nine[i + 1], nine[i + 2]]))
}

pub fn state_length(count: u32, bands: &[u32]) -> usize {
    match three(bands) {
        Some(bands) if !shape_refused(count, &bands) => layout(&bands[..count as usize]).1,
        _ => 0,
    }
}

fn start(role: u32, count: u32, bands: &[u32], style: u8, planes: &[u32], state: &mut [u32]) -> u32 {
    let Some(bands) = three(bands) else { return 3 };
    if shape_refused(count, &bands) {
        return 1;
    }
    if style & 0xc0 != 0 {
        return 2;
    }
    let used = &bands[..count as usize];
    let (places, length, blocks) = layout(used);
    let wanted = if role == WRITER { blocks } else { 0 };
    if state.len() != length || planes.len() != wanted {
        return 3;
    }
    if used.iter().any(|b| b[2] > MOST_PLANES) {
        return 4;
    }
    let of_band = |p: &Place| if role == WRITER { &planes[p.first_block..p.first_block + p.blocks] } else { &planes[..0] };
    if places.iter().any(|p| of_band(p).iter().any(|x| *x > p.planes)) {
        return 4;
    }
    state.fill(0);
    state[..4].copy_from_slice(&[role, count, u32::from(style), 0]);
    for (i, band) in used.iter().enumerate() {
        state[4 + 3 * i..7 + 3 * i].copy_from_slice(band);
    }
    for p in &places {
        for node in 0..p.nodes {
            state[p.inclusion + 3 * node] = NOT_YET_INCLUDED;
            state[p.zero_planes + 3 * node] = NOT_YET_PLANES;
        }
        for (leaf, x) in of_band(p).iter().enumerate() {
            set_leaf(state, p.zero_planes, &p.path(leaf), p.planes - x);
        }
    }
    0
}

pub fn start_writer(count: u32, bands: &[u32], style: u8, planes: &[u32], state: &mut [u32]) -> u32 {
    start(WRITER, count, bands, style, planes, state)
}

pub fn start_reader(count: u32, bands: &[u32], style: u8, planes: &[u32], state: &mut [u32]) -> u32 {
    start(READER, count, bands, style, planes, state)
}

// ---- refusal 5

fn limits(style: u32) -> &'static [u32] {
    if style & 0x04 != 0 {
        &[1]
    } else if style & 0x01 != 0 {
        &[10, 2, 1]
    } else {
        &[109]
    }
}

fn in_range(role: u32, state: &[u32], scratch: usize) -> bool {
    if state.len() < FIRST_WORDS || scratch != state.len() || state[0] != role || state[1] < 1 || state[1] > 3 {
        return false;
    }
    let (count, style, layer) = (state[1] as usize, state[2], state[3]);
    let bands = bands_of(state);
    if style > 0x3f || layer > LAYERS || state[4 + 3 * count..FIRST_WORDS].iter().any(|w| *w != 0) {
        return false;
    }
    if bands.iter().any(|b| b[0] > 64 || b[1] > 64 || b[2] > MOST_PLANES) {
        return false;
    }
    let (places, length, _) = layout(&bands);
    if state.len() != length {
        return false;
    }
    places.iter().all(|p| {
        let mut blocks = state[p.block_words..p.block_words + 4 * p.blocks].chunks_exact(4);
        nodes_in_range(&state[p.inclusion..p.zero_planes], NOT_YET_INCLUDED)
            && nodes_in_range(&state[p.zero_planes..p.block_words], NOT_YET_PLANES)
            && blocks.all(|b| block_in_range(role, style, layer, b))
    })
}

fn nodes_in_range(nodes: &[u32], most: u32) -> bool {
    nodes.chunks_exact(3).all(|n| n[0] <= most && n[1] <= most && n[2] <= 1)
}

fn block_in_range(role: u32, style: u32, layer: u32, b: &[u32]) -> bool {
    let (passes, bits, limit, of_segment) = (b[0], b[1], b[2], b[3]);
    let none = passes == 0;
    let bits_right = if none { bits == 0 } else { (3..=32).contains(&bits) };
    let segment_right = if none || role == WRITER {
        limit == 0 && of_segment == 0
    } else {
        limits(style).contains(&limit) && 1 <= of_segment && of_segment <= limit
    };
    passes <= MOST_PASSES * layer && bits_right && segment_right
}

// ---- trees

fn set_leaf(words: &mut [u32], base: usize, path: &[usize], value: u32) {
    for node in path {
        let word = &mut words[base + 3 * node];
        if *word <= value {
            break;
        }
        *word = value;
    }
}

fn put_tree(words: &mut [u32], base: usize, path: &[usize], threshold: u32, bits: &mut Vec<u8>) {
    let mut low = 0;
    for node in path.iter().rev() {
        let at = base + 3 * node;
        low = low.max(words[at + 1]);
        while low < threshold {
            if low >= words[at] {
                if words[at + 2] == 0 {
                    bits.push(1);
                }
                words[at + 2] = 1;
                break;
            }
            bits.push(0);
            low += 1;
        }
        words[at + 1] = low;
    }
}

/// The leaf's value lies below the threshold.
fn get_tree(words: &mut [u32], base: usize, path: &[usize], threshold: u32, bits: &mut Bits) -> bool {
    let mut low = 0;
    for node in path.iter().rev() {
        let at = base + 3 * node;
        low = low.max(words[at + 1]);
        while low < threshold && low < words[at] {
            match bits.next() {
                0 => low += 1,
                _ => words[at] = low,
            }
        }
        words[at + 1] = low;
    }
    words[base + 3 * path[0]] < threshold
}

// ---- bits

pub fn put_number(bits: &mut Vec<u8>, value: u64, width: u32) {
    for place in (0..width).rev() {
        bits.push((value >> place & 1) as u8);
    }
}

/// Bytes of these bits: seven in a byte after FF, and a 00 after a last FF.
pub fn pack(bits: &[u8]) -> Vec<u8> {
    let mut bytes: Vec<u8> = Vec::new();
    let mut left = bits;
    while !left.is_empty() {
        let room = if bytes.last() == Some(&0xff) { 7 } else { 8 };
        let taken = room.min(left.len());
        let byte = left[..taken].iter().fold(0u32, |sum, bit| 2 * sum + u32::from(*bit)) << (room - taken);
        bytes.push(byte as u8);
        left = &left[taken..];
    }
    if bytes.last() == Some(&0xff) {
        bytes.push(0);
    }
    bytes
}

struct Bits<'a> {
    src: &'a [u8],
    next: usize,
    byte: u8,
    left: u32,
    /// Bits taken whose byte is not in the input.
    past: u64,
}

impl Bits<'_> {
    fn at(src: &[u8], place: usize) -> Bits<'_> {
        Bits { src, next: place, byte: 0, left: 0, past: 0 }
    }

    fn next(&mut self) -> u32 {
        if self.left == 0 {
            self.left = if self.byte == 0xff { 7 } else { 8 };
            self.byte = self.src.get(self.next).copied().unwrap_or(0);
            self.next += 1;
        }
        self.left -= 1;
        if self.next > self.src.len() {
            self.past += 1;
        }
        u32::from(self.byte >> self.left & 1)
    }

    fn number(&mut self, width: u32) -> u32 {
        (0..width).fold(0, |sum, _| (sum << 1) | self.next())
    }

    /// The place after the header, or nothing where the input ends with the FF of the last bit.
    fn end(&self) -> Option<usize> {
        if self.byte != 0xff {
            return Some(self.next.min(self.src.len()));
        }
        (self.next < self.src.len()).then_some(self.next + 1)
    }
}

// ---- pass counts and lengths

pub fn put_passes(bits: &mut Vec<u8>, n: u32) {
    let n = u64::from(n);
    match n {
        1 => put_number(bits, 0b0, 1),
        2 => put_number(bits, 0b10, 2),
        3..=5 => put_number(bits, 0b1100 + (n - 3), 4),
        6..=36 => put_number(bits, 0b1111_00000 + (n - 6), 9),
        _ => put_number(bits, 0b1_1111_1111_000_0000 + (n - 37), 16),
    }
}

fn get_passes(bits: &mut Bits) -> u32 {
    if bits.next() == 0 {
        return 1;
    }
    if bits.next() == 0 {
        return 2;
    }
    match bits.number(2) {
        3 => match bits.number(5) {
            31 => 37 + bits.number(7),
            n => 6 + n,
        },
        n => 3 + n,
    }
}

fn floor_log2(n: u64) -> u32 {
    63 - n.max(1).leading_zeros()
}

/// One block's written segments in this layer: passes and bytes of each.
fn segments(lengths: &[u32], marks: &[u8]) -> Vec<(u64, u64)> {
    let (mut all, mut passes, mut bytes) = (Vec::new(), 0, 0);
    for (i, length) in lengths.iter().enumerate() {
        passes += 1;
        bytes += u64::from(*length);
        if marks[i] != 0 || i + 1 == lengths.len() {
            all.push((passes, bytes));
            (passes, bytes) = (0, 0);
        }
    }
    all
}

fn increment(length_bits: u32, segments: &[(u64, u64)]) -> u32 {
    segments.iter().map(|(passes, bytes)| (1 + floor_log2(*bytes)).saturating_sub(length_bits + floor_log2(*passes))).max().unwrap_or(0)
}

// ---- measuring and writing

pub struct Coded {
    header: Vec<u8>,
    state: Vec<u32>,
    body: u64,
}

/// The refusals that measuring and writing share, then the header without markers and the state after it.
fn code(state: &[u32], scratch: usize, counts: &[u32], lengths: &[u32], marks: &[u8]) -> Result<Coded, u32> {
    if !in_range(WRITER, state, scratch) {
        return Err(5);
    }
    if state[3] == LAYERS {
        return Err(6);
    }
    let (places, _, blocks) = layout(&bands_of(state));
    let total: u64 = counts.iter().map(|c| u64::from(*c)).sum();
    if counts.len() != blocks || lengths.len() as u64 != total || marks.len() as u64 != total {
        return Err(3);
    }
    if counts.iter().any(|c| *c > MOST_PASSES) {
        return Err(7);
    }
    let mut of_blocks = Vec::new();
    let mut from = 0;
    for count in counts {
        let to = from + *count as usize;
        of_blocks.push(segments(&lengths[from..to], &marks[from..to]));
        from = to;
    }
    if of_blocks.iter().flatten().any(|(_, bytes)| *bytes >= 1 << 31) {
        return Err(8);
    }
    let (mut new, layer) = (state.to_vec(), state[3]);
    new[3] = layer + 1;
    if total == 0 {
        return Ok(Coded { header: pack(&[0]), state: new, body: 0 });
    }
    let mut bits = vec![1];
    let mut too_wide = false;
    for p in &places {
        for i in 0..p.blocks {
            if new[p.block_words + 4 * i] == 0 && counts[p.first_block + i] != 0 {
                set_leaf(&mut new, p.inclusion, &p.path(i), layer);
            }
        }
        for i in 0..p.blocks {
            let (at, count, segments) = (p.block_words + 4 * i, counts[p.first_block + i], &of_blocks[p.first_block + i]);
            let first = new[at] == 0;
            match first {
                true => put_tree(&mut new, p.inclusion, &p.path(i), layer + 1, &mut bits),
                false => bits.push(u8::from(count != 0)),
            }
            if count == 0 {
                continue;
            }
            if first {
                put_tree(&mut new, p.zero_planes, &p.path(i), NOT_YET_PLANES, &mut bits);
                new[at + 1] = 3;
            }
            put_passes(&mut bits, count);
            let more = increment(new[at + 1], segments);
            new[at + 1] += more;
            bits.extend(std::iter::repeat(1).take(more as usize));
            bits.push(0);
            for (passes, bytes) in segments {
                let width = new[at + 1] + floor_log2(*passes);
                too_wide |= width > 32;
                put_number(&mut bits, *bytes, width);
            }
            new[at] += count;
        }
    }
    if too_wide {
        return Err(9);
    }
    Ok(Coded { header: pack(&bits), state: new, body: lengths.iter().map(|l| u64::from(*l)).sum() })
}

#[allow(clippy::too_many_arguments)]
pub fn measure(
    state: &[u32],
    scratch: &mut [u32],
    counts: &[u32],
    lengths: &[u32],
    marks: &[u8],
    sop: bool,
    eph: bool,
    answer: &mut [u64],
) -> u32 {
    if answer.len() != 2 {
        return 3;
    }
    answer.fill(0);
    match code(state, scratch.len(), counts, lengths, marks) {
        Err(refusal) => refusal,
        Ok(coded) => {
            scratch.copy_from_slice(&coded.state);
            answer[0] = coded.header.len() as u64 + if sop { 6 } else { 0 } + if eph { 2 } else { 0 };
            answer[1] = coded.body;
            0
        }
    }
}

#[allow(clippy::too_many_arguments)]
pub fn write(
    state: &mut [u32],
    scratch: &mut [u32],
    counts: &[u32],
    lengths: &[u32],
    marks: &[u8],
    body: &[u8],
    sop: bool,
    eph: bool,
    number: u32,
    output: &mut [u8],
    answer: &mut [u64],
) -> u32 {
    if answer.len() != 1 {
        return 3;
    }
    answer.fill(0);
    let coded = match code(state, scratch.len(), counts, lengths, marks) {
        Err(refusal) => return refusal,
        Ok(coded) => coded,
    };
    if body.len() as u64 != coded.body {
        return 10;
    }
    let mut packet = Vec::new();
    if sop {
        packet.extend([0xff, 0x91, 0, 4, (number >> 8) as u8, number as u8]);
    }
    packet.extend(&coded.header);
    if eph {
        packet.extend([0xff, 0x92]);
    }
    packet.extend(body);
    if packet.len() > output.len() {
        scratch.fill(0);
        output.fill(0);
        return 11;
    }
    output[..packet.len()].copy_from_slice(&packet);
    state.copy_from_slice(&coded.state);
    scratch.copy_from_slice(&coded.state);
    answer[0] = packet.len() as u64;
    0
}

// ---- a whole layer

/// What a layer's precincts are given, behind one another.
#[derive(Clone, Copy)]
pub struct Lists<'a> {
    pub states: &'a [u32],
    pub counts: &'a [u32],
    pub lengths: &'a [u32],
    pub marks: &'a [u8],
    pub bodies: &'a [u8],
}

/// The words and the blocks that a state's first words ask; none where it has no such words.
fn asked(state: &[u32]) -> (usize, usize) {
    if state.len() < FIRST_WORDS {
        return (0, 0);
    }
    match three(&state[4..FIRST_WORDS]) {
        Some(bands) if !shape_refused(state[1], &bands) => {
            let (_, words, blocks) = layout(&bands[..state[1] as usize]);
            (words, blocks)
        }
        _ => (0, 0),
    }
}

/// The front of a list, and what is left of it: so many elements, or as many as there are.
fn front<T>(list: &[T], n: u64) -> (&[T], &[T]) {
    list.split_at(n.min(list.len() as u64) as usize)
}

/// Each precinct's part of the lists, in order; the last one's is all that is left.
pub fn parts(lists: Lists, precincts: usize) -> Vec<Lists> {
    let (mut parts, mut left) = (Vec::new(), lists);
    while parts.len() + 1 < precincts {
        let (words, blocks) = asked(left.states);
        let (states, states_left) = front(left.states, words as u64);
        let (counts, counts_left) = front(left.counts, blocks as u64);
        let passes = counts.iter().map(|n| u64::from(*n)).sum();
        let (lengths, lengths_left) = front(left.lengths, passes);
        let (marks, marks_left) = front(left.marks, passes);
        let (bodies, bodies_left) = front(left.bodies, lengths.iter().map(|n| u64::from(*n)).sum());
        parts.push(Lists { states, counts, lengths, marks, bodies });
        left = Lists { states: states_left, counts: counts_left, lengths: lengths_left, marks: marks_left, bodies: bodies_left };
    }
    parts.push(left);
    parts
}

#[allow(clippy::too_many_arguments)]
pub fn write_layer(
    states: &mut [u32],
    scratch: &mut [u32],
    numbers: &[u32],
    counts: &[u32],
    lengths: &[u32],
    marks: &[u8],
    bodies: &[u8],
    sop: bool,
    eph: bool,
    output: &mut [u8],
    answer: &mut [u64],
) -> u32 {
    if answer.len() != 2 {
        return 3;
    }
    answer.fill(0);
    if numbers.len() > MOST_PRECINCTS {
        return 14;
    }
    if numbers.is_empty() {
        return 0;
    }
    let mut refused = if scratch.len() != states.len() { Some((5, 0)) } else { None };
    let (mut new_states, mut new_output, mut bytes) = (Vec::new(), output.to_vec(), 0);
    let lists = Lists { states, counts, lengths, marks, bodies };
    for (place, (number, part)) in numbers.iter().zip(parts(lists, numbers.len())).enumerate() {
        let (mut state, mut own_scratch, mut of_packet) = (part.states.to_vec(), part.states.to_vec(), [0]);
        let Lists { counts, lengths, marks, bodies, .. } = part;
        let room = &mut new_output[bytes..];
        let why = write(&mut state, &mut own_scratch, counts, lengths, marks, bodies, sop, eph, *number, room, &mut of_packet);
        refused = refused.or((why != 0).then_some((why, place as u64)));
        if refused.is_some() {
            break;
        }
        new_states.extend(state);
        bytes += of_packet[0] as usize;
    }
    if let Some((why, place)) = refused {
        output.fill(0);
        scratch.fill(0);
        answer[0] = place;
        return why;
    }
    states.copy_from_slice(&new_states);
    scratch.copy_from_slice(&new_states);
    output.copy_from_slice(&new_output);
    answer[1] = bytes as u64;
    0
}

// ---- reading

/// Mark, and bytes to skip.
fn marker(used: bool, src: &[u8], at: usize, bytes: usize, second: u8) -> (u64, usize) {
    if !used {
        (0, 0)
    } else if src.len() - at < bytes {
        (1, 0)
    } else if src[at] != 0xff || src[at + 1] != second {
        (2, 0)
    } else {
        (0, bytes)
    }
}

fn next_limit(style: u32, last: u32) -> u32 {
    match (limits(style), last) {
        ([only], _) => *only,
        (_, 0) => 10,
        (_, 2) => 1,
        _ => 2,
    }
}

/// A segment: block, opens, passes and bytes, and how many bytes of the packet's body lie before it.
#[derive(Clone, Copy, Default, PartialEq, Eq, Debug)]
pub struct Record {
    pub numbers: [u32; 4],
    pub start: u64,
}

#[derive(Default)]
pub struct Told {
    pub reports: Vec<[u32; 4]>,
    pub records: Vec<Record>,
}

/// The blocks after a first bit 1.
fn read_blocks(words: &mut [u32], bits: &mut Bits, room: usize) -> Result<Told, u32> {
    let (places, _, _) = layout(&bands_of(words));
    let (style, layer) = (words[2], words[3]);
    let mut told = Told::default();
    let mut body_so_far: u64 = 0;
    for p in &places {
        for i in 0..p.blocks {
            let at = p.block_words + 4 * i;
            let first = words[at] == 0;
            let included = if first { get_tree(words, p.inclusion, &p.path(i), layer + 1, bits) } else { bits.next() == 1 };
            if !included {
                told.reports.push([0; 4]);
                continue;
            }
            let (mut zero, mut planes) = (0, 0);
            if first {
                let mut threshold = 0;
                while !get_tree(words, p.zero_planes, &p.path(i), threshold, bits) {
                    threshold += 1;
                }
                zero = words[p.zero_planes + 3 * i];
                planes = p.planes.wrapping_sub(zero);
                words[at + 1] = 3;
            }
            let count = get_passes(bits);
            told.reports.push([if first { 1 } else { 2 }, zero, planes, count]);
            while bits.next() == 1 {
                words[at + 1] += 1;
            }
            let mut left = count;
            while left > 0 {
                let opens = words[at + 2] == words[at + 3];
                if opens {
                    words[at + 2] = next_limit(style, words[at + 2]);
                    words[at + 3] = 0;
                }
                let passes = left.min(words[at + 2] - words[at + 3]);
                let width = words[at + 1] + floor_log2(u64::from(passes));
                if width > 32 {
                    return Err(9);
                }
                if told.records.len() >= room {
                    return Err(13);
                }
                let bytes = bits.number(width);
                let numbers = [(p.first_block + i) as u32, u32::from(opens), passes, bytes];
                told.records.push(Record { numbers, start: body_so_far });
                body_so_far += u64::from(bytes);
                words[at + 3] += passes;
                left -= passes;
            }
            words[at] += count;
        }
    }
    Ok(told)
}

#[allow(clippy::too_many_arguments)]
pub fn read(
    state: &mut [u32],
    scratch: &mut [u32],
    src: &[u8],
    sop: bool,
    eph: bool,
    reports: &mut [u32],
    work: &mut [u32],
    records: &mut [Record],
    answer: &mut [u64],
) -> u32 {
    if answer.len() != 6 {
        return 3;
    }
    answer.fill(0);
    let (sop_mark, skipped) = marker(sop, src, 0, 6, 0x91);
    match read_header(state, scratch, src, skipped, eph, reports, work, records) {
        Ok(Header { present, end, segments, eph_mark, past }) => {
            answer.copy_from_slice(&[u64::from(present), end as u64, segments as u64, sop_mark, eph_mark, past]);
            0
        }
        Err(number) => number,
    }
}

/// Header and EPH stand in one list, SOP in front of the body in another.
#[allow(clippy::too_many_arguments)]
pub fn read_gathered(
    state: &mut [u32],
    scratch: &mut [u32],
    headers: &[u8],
    src: &[u8],
    sop: bool,
    eph: bool,
    reports: &mut [u32],
    work: &mut [u32],
    records: &mut [Record],
    answer: &mut [u64],
) -> u32 {
    if answer.len() != 7 {
        return 3;
    }
    answer.fill(0);
    match read_header(state, scratch, headers, 0, eph, reports, work, records) {
        Ok(Header { present, end, segments, eph_mark, past }) => {
            let (sop_mark, skipped) = marker(sop, src, 0, 6, 0x91);
            answer.copy_from_slice(&[u64::from(present), end as u64, skipped as u64, segments as u64, sop_mark, eph_mark, past]);
            0
        }
        Err(number) => number,
    }
}

/// What a header tells beside the lists, and the place behind it and its EPH.
struct Header {
    present: bool,
    end: usize,
    segments: usize,
    eph_mark: u64,
    past: u64,
}

/// Reads the header at a place of the input, and EPH behind it; leaves in the lists what a read does.
#[allow(clippy::too_many_arguments)]
fn read_header(
    state: &mut [u32],
    scratch: &mut [u32],
    src: &[u8],
    place: usize,
    eph: bool,
    reports: &mut [u32],
    work: &mut [u32],
    records: &mut [Record],
) -> Result<Header, u32> {
    if !in_range(READER, state, scratch.len()) {
        return Err(5);
    }
    if state[3] == LAYERS {
        return Err(6);
    }
    let blocks = layout(&bands_of(state)).2;
    if reports.len() != 4 * blocks || work.len() != 4 * records.len() {
        return Err(3);
    }
    let mut bits = Bits::at(src, place);
    let mut words = state.to_vec();
    let present = bits.next() == 1;
    let mut told = Told { reports: vec![[0; 4]; blocks], records: Vec::new() };
    let mut refusal = 0;
    if present {
        match read_blocks(&mut words, &mut bits, records.len()) {
            Ok(all) => told = all,
            Err(number) => refusal = number,
        }
    }
    let end = match bits.end() {
        _ if refusal != 0 => 0,
        None => {
            refusal = 12;
            0
        }
        Some(end) => end,
    };
    if refusal != 0 {
        scratch.fill(0);
        reports.fill(0);
        work.fill(0);
        records.fill(Record::default());
        return Err(refusal);
    }
    let (eph_mark, after) = marker(eph, src, end, 2, 0x92);
    words[3] += 1;
    state.copy_from_slice(&words);
    scratch.copy_from_slice(&words);
    reports.copy_from_slice(told.reports.as_flattened());
    for (words, record) in work.chunks_exact_mut(4).zip(&told.records) {
        words.copy_from_slice(&record.numbers);
    }
    records[..told.records.len()].copy_from_slice(&told.records);
    Ok(Header { present, end: end + after, segments: told.records.len(), eph_mark, past: bits.past })
}

pub fn describe(state: &[u32], answer: &mut [u64]) -> u32 {
    if answer.len() != 3 {
        return 3;
    }
    answer.fill(0);
    if !in_range(WRITER, state, state.len()) && !in_range(READER, state, state.len()) {
        return 5;
    }
    answer.copy_from_slice(&[u64::from(state[0]), u64::from(state[3]), layout(&bands_of(state)).2 as u64]);
    0
}
