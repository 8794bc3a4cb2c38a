//! One precinct in the crate's structs, made from the words of a state, coded and read by the crate's own functions, and turned back
//! into words.
use super::*;
use crate::model::{self, NOT_YET_INCLUDED};
use std::sync::OnceLock;

/// The value of a fresh node in the crate's trees.
const NOT_YET: u32 = 999;

struct Band {
    across: u32,
    down: u32,
    planes: u32,
    inclusion: *mut opj_tgt_tree_t,
    zero_planes: *mut opj_tgt_tree_t,
    enc: Vec<opj_tcd_cblk_enc_t>,
    dec: Vec<opj_tcd_cblk_dec_t>,
    /// A reader's passes before those of the one segment that its state names.
    earlier: Vec<u32>,
    precinct: Box<opj_tcd_precinct_t>,
}

pub struct Precinct {
    role: u32,
    style: u32,
    layer: u32,
    bands: Vec<Band>,
    passes: Vec<opj_tcd_pass_t>,
    layers: Vec<opj_tcd_layer_t>,
    manager: opj_event_mgr,
    tile: Box<opj_tcd_tile_t>,
    tcp: Box<opj_tcp_t>,
    t2: Box<opj_t2_t>,
    // Held for the pointers to them.
    _component: Box<opj_tcd_tilecomp_t>,
    _resolution: Box<opj_tcd_resolution_t>,
    _tccp: Box<opj_tccp_t>,
    _cp: Box<opj_cp_t>,
}

/// What the crate says of a packet.
#[derive(PartialEq, Debug)]
pub struct Told {
    pub answer: [u64; 5],
    pub reports: Vec<u32>,
    pub records: Vec<u32>,
    /// Where each segment's bytes begin in the body.
    pub starts: Vec<u64>,
}

impl Told {
    /// Each segment with its start.
    pub fn records(&self) -> Vec<model::Record> {
        let numbers = self.records.chunks_exact(4).map(|four| [four[0], four[1], four[2], four[3]]);
        numbers.zip(&self.starts).map(|(numbers, start)| model::Record { numbers, start: *start }).collect()
    }
}

/// Why the crate could not read a packet.
#[derive(PartialEq, Debug)]
pub enum Failed {
    Width,
    HeaderEnd,
}

const BODY_MOST: usize = 1 << 28;

/// Where a body is taken to stand. The crate works out places in it, and looks at none of its bytes.
fn body() -> &'static [u8] {
    static BODY: OnceLock<Vec<u8>> = OnceLock::new();
    BODY.get_or_init(|| vec![0; BODY_MOST])
}

fn zeroed<T>() -> Box<T> {
    // SAFETY: the crate's structs of numbers and pointers may be all zeros.
    Box::new(unsafe { core::mem::zeroed() })
}

fn nodes<'a>(tree: *mut opj_tgt_tree_t) -> &'a mut [opj_tgt_node_t] {
    match tree.is_null() {
        true => &mut [],
        // SAFETY: opj_tgt_create made numnodes nodes.
        false => unsafe { std::slice::from_raw_parts_mut((*tree).nodes, (*tree).numnodes as usize) },
    }
}

/// Each node's parent, as the crate links the nodes of a tree.
pub fn parents(across: u32, down: u32) -> Vec<Option<usize>> {
    let tree = opj_tgt_create(across, down, &mut opj_event_mgr::default());
    let first: *const opj_tgt_node_t = nodes(tree).as_ptr();
    let number = |parent: *mut opj_tgt_node_t| match parent.is_null() {
        true => None,
        // SAFETY: a parent is a node of the same tree.
        false => Some(unsafe { parent.cast_const().offset_from(first) } as usize),
    };
    let all = nodes(tree).iter().map(|node| number(node.parent)).collect();
    opj_tgt_destroy(tree);
    all
}

fn empty_block() -> opj_tcd_cblk_dec_t {
    opj_tcd_cblk_dec_t {
        segs: core::ptr::null_mut(),
        chunks: core::ptr::null_mut(),
        x0: 0,
        y0: 0,
        x1: 0,
        y1: 0,
        Mb: 0,
        numbps: 0,
        numlenbits: 0,
        numnewpasses: 0,
        numsegs: 0,
        real_num_segs: 0,
        m_current_max_segs: 0,
        numchunks: 0,
        numchunksalloc: 0,
        decoded_data: core::ptr::null_mut(),
        decoded_data_layout: core::alloc::Layout::new::<u8>(),
    }
}

impl Band {
    /// Takes the band's words from the front of `words`.
    fn from_words(role: u32, band: [u32; 3], words: &mut &[u32], manager: &mut opj_event_mgr) -> Band {
        let [across, down, planes] = band;
        let mut take = |n: usize| {
            let (front, rest) = words.split_at(n);
            *words = rest;
            front
        };
        let (inclusion, zero_planes) = (opj_tgt_create(across, down, manager), opj_tgt_create(across, down, manager));
        for (tree, not_yet) in [(inclusion, NOT_YET_INCLUDED), (zero_planes, NOT_YET)] {
            for (node, row) in nodes(tree).iter_mut().zip(take(3 * nodes(tree).len()).chunks_exact(3)) {
                node.value = if row[0] == not_yet { NOT_YET } else { row[0] } as i32;
                node.low = row[1] as i32;
                node.known = row[2];
            }
        }
        let blocks = take(4 * (across * down) as usize).chunks_exact(4);
        let (mut enc, mut dec, mut earlier) = (Vec::new(), Vec::new(), Vec::new());
        for (i, row) in blocks.enumerate() {
            if role == 1 {
                let mut block: opj_tcd_cblk_enc_t = *zeroed();
                block.numpasses = row[0];
                block.numlenbits = row[1];
                block.numbps = planes.wrapping_sub(nodes(zero_planes)[i].value as u32);
                enc.push(block);
            } else {
                dec.push(block_read(row));
                earlier.push(row[0].wrapping_sub(row[3]));
            }
        }
        let mut precinct: Box<opj_tcd_precinct_t> = zeroed();
        precinct.cw = across;
        precinct.ch = down;
        precinct.incltree = inclusion;
        precinct.imsbtree = zero_planes;
        match role {
            1 => precinct.cblks.enc = enc.as_mut_ptr(),
            _ => precinct.cblks.dec = dec.as_mut_ptr(),
        }
        Band { across, down, planes, inclusion, zero_planes, enc, dec, earlier, precinct }
    }

    fn words(&self, into: &mut Vec<u32>) {
        for (tree, not_yet) in [(self.inclusion, NOT_YET_INCLUDED), (self.zero_planes, NOT_YET)] {
            for node in nodes(tree) {
                let value = if node.value as u32 == NOT_YET { not_yet } else { node.value as u32 };
                into.extend([value, node.low as u32, node.known]);
            }
        }
        for block in &self.enc {
            into.extend([block.numpasses, if block.numpasses == 0 { 0 } else { block.numlenbits }, 0, 0]);
        }
        for (block, earlier) in self.dec.iter().zip(&self.earlier) {
            match segments(block).last() {
                None => into.extend([0; 4]),
                Some(last) => {
                    let passes: u32 = segments(block).iter().map(|s| s.numpasses).sum();
                    into.extend([passes.wrapping_add(*earlier), block.numlenbits, last.maxpasses, last.numpasses]);
                }
            }
        }
    }
}

/// A block with passes has one segment, the current one.
fn block_read(row: &[u32]) -> opj_tcd_cblk_dec_t {
    let mut block = empty_block();
    if row[0] != 0 {
        block.m_current_max_segs = 10;
        block.segs = opj_calloc(10, core::mem::size_of::<opj_tcd_seg_t>()) as *mut opj_tcd_seg_t;
        block.numsegs = 1;
        block.real_num_segs = 1;
        block.numlenbits = row[1];
        // SAFETY: ten segments were made.
        let segment = unsafe { &mut *block.segs };
        segment.maxpasses = row[2];
        segment.numpasses = row[3];
        segment.real_num_passes = row[3];
    }
    block
}

fn segments(block: &opj_tcd_cblk_dec_t) -> &[opj_tcd_seg_t] {
    match block.numsegs {
        0 => &[],
        // SAFETY: the crate keeps numsegs of them there.
        n => unsafe { std::slice::from_raw_parts(block.segs, n as usize) },
    }
}

/// The parts of bodies that the crate has found for a block.
fn chunks(block: &opj_tcd_cblk_dec_t) -> &[opj_tcd_seg_data_chunk_t] {
    match block.numchunks {
        0 => &[],
        // SAFETY: the crate keeps numchunks of them there.
        n => unsafe { std::slice::from_raw_parts(block.chunks, n as usize) },
    }
}

impl Drop for Band {
    fn drop(&mut self) {
        opj_tgt_destroy(self.inclusion);
        opj_tgt_destroy(self.zero_planes);
        for block in &self.dec {
            opj_free(block.segs as *mut core::ffi::c_void);
            opj_free(block.chunks as *mut core::ffi::c_void);
        }
    }
}

/// Whether the values of a state's inclusion trees come back as they go in: the crate's trees take every number, but 999 would come back
/// as "not yet".
pub fn come_back(words: &[u32]) -> bool {
    let (places, _, _) = model::layout(&model::bands_of(words));
    places.iter().all(|p| words[p.inclusion..p.zero_planes].chunks_exact(3).all(|node| node[0] != NOT_YET))
}

impl Precinct {
    /// From the words of a state in the ranges of refusal 5. A band without blocks is shown as an empty one, or as one with an area
    /// whose precinct has no blocks.
    pub fn from_words(words: &[u32], empty: bool) -> Precinct {
        let (role, count, style, layer) = (words[0], words[1] as usize, words[2], words[3]);
        let mut manager = opj_event_mgr::default();
        let mut rest = &words[13..];
        let mut bands: Vec<Band> = (0..count)
            .map(|i| Band::from_words(role, [words[4 + 3 * i], words[5 + 3 * i], words[6 + 3 * i]], &mut rest, &mut manager))
            .collect();
        let mut resolution: Box<opj_tcd_resolution_t> = zeroed();
        resolution.pw = 1;
        resolution.ph = 1;
        resolution.numbands = count as u32;
        for (i, band) in bands.iter_mut().enumerate() {
            let area = i32::from(!empty || band.across * band.down > 0);
            let there = &mut resolution.bands[i];
            (there.bandno, there.numbps, there.x1, there.y1) = (i as u32, band.planes as i32, area, area);
            there.precincts = &mut *band.precinct;
            there.precincts_data_size = core::mem::size_of::<opj_tcd_precinct_t>() as u32;
        }
        let mut component: Box<opj_tcd_tilecomp_t> = zeroed();
        component.resolutions = &mut *resolution;
        component.numresolutions = 1;
        component.minimum_num_resolutions = 1;
        let mut tile: Box<opj_tcd_tile_t> = zeroed();
        tile.comps = &mut *component;
        tile.numcomps = 1;
        let mut tccp: Box<opj_tccp_t> = zeroed();
        tccp.cblksty = style;
        let mut tcp: Box<opj_tcp_t> = zeroed();
        tcp.tccps = &mut *tccp;
        let mut cp: Box<opj_cp_t> = zeroed();
        cp.strict = 1;
        let t2 = Box::new(opj_t2_t { image: core::ptr::null_mut(), cp: &mut *cp });
        let (passes, layers) = (Vec::new(), Vec::new());
        Precinct {
            role,
            style,
            layer,
            bands,
            passes,
            layers,
            manager,
            tile,
            tcp,
            t2,
            _component: component,
            _resolution: resolution,
            _tccp: tccp,
            _cp: cp,
        }
    }

    /// A fresh precinct by the crate's own functions: each tree reset, and a writer's zero planes set block by block.
    pub fn started(writer: bool, bands: &[[u32; 3]], style: u32, planes: &[u32], empty: bool) -> Precinct {
        let mut words = vec![if writer { 1 } else { 2 }, bands.len() as u32, style, 0];
        words.extend(bands.as_flattened());
        words.resize(model::layout(bands).1, 0);
        let mut precinct = Precinct::from_words(&words, empty);
        let mut planes = planes.iter();
        for band in &mut precinct.bands {
            opj_tgt_reset(band.inclusion);
            opj_tgt_reset(band.zero_planes);
            for (i, block) in band.enc.iter_mut().enumerate() {
                block.numbps = *planes.next().unwrap();
                opj_tgt_setvalue(band.zero_planes, i as u32, band.planes as i32 - block.numbps as i32);
            }
        }
        precinct
    }

    pub fn words(&self) -> Vec<u32> {
        let mut words = vec![self.role, self.bands.len() as u32, self.style, self.layer];
        for i in 0..3 {
            words.extend(self.bands.get(i).map_or([0; 3], |b| [b.across, b.down, b.planes]));
        }
        for band in &self.bands {
            band.words(&mut words);
        }
        words
    }

    fn iterator(&self) -> opj_pi_iterator_t {
        opj_pi_iterator_t { layno: self.layer, resno: 0, compno: 0, precno: 0 }
    }

    fn set_markers(&mut self, sop: bool, eph: bool) {
        self.tcp.csty = if sop { 2 } else { 0 } | if eph { 4 } else { 0 };
    }

    /// Gives the blocks their passes of the next layer. The crate looks for them after those of the layers before, which are not kept:
    /// the pointers lie as far before the lists. Without a body each block's bytes are 0, whatever its passes say.
    pub fn give(&mut self, counts: &[u32], lengths: &[u32], marks: &[u8], body: Option<&[u8]>) {
        self.passes.clear();
        self.passes.extend(lengths.iter().zip(marks).map(|(len, mark)| opj_tcd_pass_t {
            rate: 0,
            distortiondec: 0.0,
            len: *len,
            term: *mark != 0,
        }));
        self.passes.push(opj_tcd_pass_t { rate: 0, distortiondec: 0.0, len: 0, term: false });
        self.layers.clear();
        let (mut from, mut at) = (0, 0);
        for count in counts {
            let to = from + *count as usize;
            let (len, data) = match body {
                None => (0, core::ptr::null_mut()),
                Some(body) => (lengths[from..to].iter().sum::<u32>(), body[at..].as_ptr() as *mut u8),
            };
            self.layers.push(opj_tcd_layer_t { numpasses: *count, len, disto: 0.0, data });
            from = to;
            at += len as usize;
        }
        let (mut pass, mut layer) = (self.passes.as_mut_ptr(), self.layers.as_mut_ptr());
        let mut counts = counts.iter();
        for block in self.bands.iter_mut().flat_map(|band| &mut band.enc) {
            block.passes = pass.wrapping_sub(block.numpasses as usize);
            block.layers = layer.wrapping_sub(self.layer as usize);
            pass = pass.wrapping_add(*counts.next().unwrap() as usize);
            layer = layer.wrapping_add(1);
        }
    }

    /// Writes the packet of what was given, and answers its bytes.
    pub fn write(&mut self, sop: bool, eph: bool, number: u32, output: &mut [u8]) -> Option<usize> {
        self.set_markers(sop, eph);
        self.tile.packno = number;
        let mut written = 0;
        let mut iterator = self.iterator();
        let done = opj_t2_encode_packet(
            0,
            &mut *self.tile,
            &mut *self.tcp,
            &mut iterator,
            output.as_mut_ptr(),
            &mut written,
            output.len() as u32,
            core::ptr::null_mut(),
            FINAL_PASS,
            &mut self.manager,
        );
        self.layer += 1;
        (done != 0).then_some(written as usize)
    }

    /// Has headers read from here, and no longer from the stream: the tile has PPT segments.
    fn gather(&mut self, headers: &[u8]) {
        self.tcp.ppt = true;
        self.tcp.ppt_data = headers.as_ptr() as *mut u8;
        self.tcp.ppt_len = headers.len() as u32;
    }

    /// Reads a header: whether the packet is present, and the bytes taken of `src`. The passes are not yet settled.
    pub fn read_header(&mut self, sop: bool, eph: bool, src: &[u8]) -> Result<(bool, usize), Failed> {
        self.set_markers(sop, eph);
        self.manager = opj_event_mgr::default();
        let (mut present, mut taken) = (0, 0);
        let mut iterator = self.iterator();
        let done = opj_t2_read_packet_header(
            &mut *self.t2,
            &mut *self.tile,
            &mut *self.tcp,
            &mut iterator,
            &mut present,
            src.as_ptr() as *mut u8,
            &mut taken,
            src.len() as u32,
            core::ptr::null_mut(),
            &mut self.manager,
        );
        match done {
            0 if self.manager.width => Err(Failed::Width),
            0 => Err(Failed::HeaderEnd),
            _ => Ok((present != 0, taken as usize)),
        }
    }

    /// Adds the new passes to the segments, as the crate does when it skips a body, and goes on to the next layer.
    pub fn settle(&mut self, present: bool) {
        if present {
            let mut skipped = 0;
            let mut iterator = self.iterator();
            opj_t2_skip_packet_data(
                &mut *self.t2,
                &mut *self.tile,
                &mut iterator,
                &mut skipped,
                u32::MAX,
                core::ptr::null_mut(),
                &mut self.manager,
            );
        }
        self.layer += 1;
    }

    /// Adds the new passes to the segments, as the crate does when it reads a body, and goes on to the next layer. Answers where the crate
    /// finds each segment's bytes.
    fn place(&mut self) -> Vec<u64> {
        self.bands.iter_mut().flat_map(|band| &mut band.dec).for_each(|block| block.numchunks = 0);
        let (body, mut taken) = (body().as_ptr() as *mut u8, 0);
        let mut iterator = self.iterator();
        let done = opj_t2_read_packet_data(
            &mut *self.t2,
            &mut *self.tile,
            &mut iterator,
            body,
            &mut taken,
            BODY_MOST as u32,
            core::ptr::null_mut(),
            &mut self.manager,
        );
        assert_ne!(done, 0, "a body that has room");
        self.layer += 1;
        let chunks = self.bands.iter().flat_map(|band| &band.dec).flat_map(chunks);
        chunks.map(|chunk| chunk.data as u64 - body as u64).collect()
    }

    /// Reads a header from gathered headers by the crate's branch for PPT, and tells what it says and the bytes taken of the headers. What
    /// else is told is as in `read`; the bytes taken there are those of `src`.
    pub fn read_gathered(&mut self, sop: bool, eph: bool, headers: &[u8], src: &[u8]) -> Result<(Told, usize), Failed> {
        self.gather(headers);
        let told = self.read(sop, eph, src)?;
        let taken = headers.len() - self.tcp.ppt_len as usize;
        assert_eq!(self.tcp.ppt_data as usize - headers.as_ptr() as usize, taken, "the place of the next header");
        Ok((told, taken))
    }

    /// Reads a header and tells what it says. The passes are settled by the crate, or here where the lengths add up to 2^32 or more,
    /// which the crate's sum does not hold. The places of a body longer than `BODY_MOST` are the sums of the crate's lengths.
    pub fn read(&mut self, sop: bool, eph: bool, src: &[u8]) -> Result<Told, Failed> {
        let first: Vec<bool> = self.bands.iter().flat_map(|band| &band.dec).map(|block| block.numsegs == 0).collect();
        let (present, taken) = self.read_header(sop, eph, src)?;
        let mut told = Told {
            answer: [u64::from(present), taken as u64, 0, self.manager.sop, self.manager.eph],
            reports: Vec::new(),
            records: Vec::new(),
            starts: Vec::new(),
        };
        for (number, block) in self.bands.iter().flat_map(|band| &band.dec).enumerate() {
            if !present || block.numnewpasses == 0 {
                told.reports.extend([0; 4]);
                continue;
            }
            match first[number] {
                true => told.reports.extend([1, block.Mb.wrapping_sub(block.numbps), block.numbps, block.numnewpasses]),
                false => told.reports.extend([2, 0, 0, block.numnewpasses]),
            }
            new_segments(block, |segment| {
                told.records.extend([number as u32, u32::from(segment.numpasses == 0), segment.numnewpasses, segment.newlen]);
                told.answer[2] += 1;
            });
        }
        let mut bytes: u64 = 0;
        for record in told.records.chunks_exact(4) {
            told.starts.push(bytes);
            bytes += u64::from(record[3]);
        }
        if present && bytes <= BODY_MOST as u64 {
            told.starts = self.place();
            assert_eq!(told.starts.len() as u64, told.answer[2], "a place for each segment");
        } else if bytes <= u64::from(u32::MAX) {
            self.settle(present);
        } else {
            self.bands.iter_mut().flat_map(|band| &mut band.dec).for_each(settle_block);
            self.layer += 1;
        }
        Ok(told)
    }
}

/// The segments that new passes go into: from the last one on, or from the one after it if that is full.
fn first_new_segment(block: &opj_tcd_cblk_dec_t) -> usize {
    match segments(block).last() {
        None => 0,
        Some(last) if last.numpasses == last.maxpasses => block.numsegs as usize,
        Some(_) => block.numsegs as usize - 1,
    }
}

fn new_segments(block: &opj_tcd_cblk_dec_t, mut each: impl FnMut(&opj_tcd_seg_t)) {
    let mut at = first_new_segment(block);
    let mut left = block.numnewpasses;
    while left > 0 {
        // SAFETY: the crate made a segment for each part of the new passes.
        let segment = unsafe { &*block.segs.add(at) };
        each(segment);
        left -= segment.numnewpasses;
        at += 1;
    }
}

fn settle_block(block: &mut opj_tcd_cblk_dec_t) {
    let mut at = first_new_segment(block);
    while block.numnewpasses > 0 {
        // SAFETY: as in new_segments.
        let segment = unsafe { &mut *block.segs.add(at) };
        segment.numpasses += segment.numnewpasses;
        block.numnewpasses -= segment.numnewpasses;
        at += 1;
        block.numsegs = at as u32;
    }
}
