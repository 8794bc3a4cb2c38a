//! bench [SECONDS [PATTERN]]: packets written and read by the engine and by crate openjp2's own functions, in one process, on the same
//! inputs.
//! Both sides' bytes and answers are compared before anything is timed, but for packets without passes and the next ones after them, which
//! the crate writes otherwise. A row is timed in turn, the crate's side and ours, for so many seconds, and the best time of each side
//! counts. PATTERN: only the rows whose names hold it.
//! A second table has layers of 16 precincts, written in turn by 16 calls and by one, on the same lists; starts are not timed there, and
//! medians over the rounds count.
//! A third table has rows of packets whose headers are moved in front and back, each by one call, beside the crate's reads of the same
//! packets: a move reads each header once and copies each byte once.
//! Without passes the engine still looks at every word of the state for its range and copies it to scratch; the crate does neither.
#[cfg(openjp2)]
mod timed {
    use compare::openjp2::t2::precinct::Precinct;
    use compare::pair::{Bands, Layer};
    use compare::random::Random;
    use std::time::{Duration, Instant};
    use tonkelvi::words;

    const LAYERS: usize = 4;

    /// The precincts of a layer that one call writes.
    const TOGETHER: usize = 16;

    type Side<T> = fn(&mut T) -> Duration;

    /// What the layers of a row bring.
    #[derive(Clone, Copy)]
    struct Kind {
        name: &'static str,
        /// One block in so many has passes in layer 0, and in each later layer; none has with 0.
        rare: [u64; 2],
        /// The packets that are read are the crate's.
        full_headers: bool,
    }

    const fn kind(name: &'static str, first: u64, later: u64, full_headers: bool) -> Kind {
        Kind { name, rare: [first, later], full_headers }
    }

    const DENSE: Kind = kind("dense", 1, 1, false);
    const SPARSE: Kind = kind("sparse", 8, 8, false);
    const EMPTY: Kind = kind("empty", 0, 0, false);
    const WITH_PASSES: [Kind; 2] = [DENSE, SPARSE];
    const NEVER_CAME: [Kind; 2] = [EMPTY, kind("empty, full headers", 0, 0, true)];
    const CAME_BEFORE: [Kind; 2] = [kind("empty after dense", 1, 0, false), kind("empty after dense, full headers", 1, 0, true)];

    impl Kind {
        /// The first layer that is timed.
        fn first(self) -> usize {
            usize::from(self.rare[0] != self.rare[1])
        }
    }

    /// One precinct's start and its layers.
    struct Job {
        planes: Vec<u32>,
        layers: Vec<Layer>,
        bodies: Vec<Vec<u8>>,
        /// The packets that are read.
        packets: Vec<Vec<u8>>,
    }

    impl Job {
        /// Whether other writers give the same packet for this layer: it has passes, and so has the one before.
        fn is_shared(&self, layer: usize) -> bool {
            self.layers[layer.saturating_sub(1)..=layer].iter().all(|l| !l.without_passes())
        }

        fn header(&self, layer: usize) -> usize {
            self.packets[layer].len() - self.bodies[layer].len()
        }
    }

    /// Lists lent to the calls, made and touched once.
    #[derive(Default)]
    struct Lent {
        states: Vec<Vec<u32>>,
        scratch: Vec<u32>,
        output: Vec<u8>,
        reports: Vec<u32>,
        work: Vec<u32>,
        records: Vec<words::Segment>,
    }

    struct Row {
        count: u32,
        bands: Bands,
        blocks: usize,
        kind: Kind,
        jobs: Vec<Job>,
        lent: Lent,
    }

    /// A layer in which one block in `rare` has passes; none has with 0.
    fn layer(random: &mut Random, blocks: usize, rare: u64) -> Layer {
        let mut layer = Layer::default();
        for _ in 0..blocks {
            let count = if rare != 0 && random.once_in(rare) { random.between(1, 3) as u32 } else { 0 };
            layer.counts.push(count);
            layer.lengths.extend((0..count).map(|_| random.between(1, 100) as u32));
            layer.marks.extend((0..count).map(|_| 0));
        }
        layer
    }

    impl Row {
        /// Some 4,096 blocks a round, but no more precincts than a cache holds of the crate's structs, and no fewer than `least`.
        fn new(side: u32, count: u32, kind: Kind, least: usize) -> Row {
            let mut random = Random::new(7);
            let mut bands = Bands::default();
            bands[..count as usize].fill([side, side, 12]);
            let blocks = (count * side * side) as usize;
            let mut row = Row { count, bands, blocks, kind, jobs: Vec::new(), lent: Lent::default() };
            for _ in 0..(4096 / blocks).clamp(least, 512) {
                let planes = (0..blocks).map(|_| random.between(4, 12) as u32).collect();
                let layers: Vec<Layer> = (0..LAYERS).map(|i| layer(&mut random, blocks, kind.rare[i.min(1)])).collect();
                let bodies = layers.iter().map(|l| random.bytes(l.body() as usize)).collect();
                row.jobs.push(Job { planes, layers, bodies, packets: Vec::new() });
            }
            let length = row.length();
            row.lent = Lent {
                states: row.jobs.iter().map(|_| vec![1; length]).collect(),
                scratch: vec![1; length],
                output: vec![1; row.room()],
                reports: vec![1; 4 * blocks],
                work: vec![1; 12 * blocks],
                records: vec![words::Segment::default(); 3 * blocks],
            };
            row
        }

        fn length(&self) -> usize {
            words::state_length(self.count, self.bands.as_flattened())
        }

        fn started(&self, writer: bool, job: &Job) -> Vec<u32> {
            let mut state = vec![0; self.length()];
            let number = match writer {
                true => words::start_writer(self.count, self.bands.as_flattened(), 0, &job.planes, &mut state),
                false => words::start_reader(self.count, self.bands.as_flattened(), 0, &[], &mut state),
            };
            assert_eq!(number, 0);
            state
        }

        /// The time since `begin`, where this layer, or with none the start, is timed.
        fn timed(kind: Kind, layer: Option<usize>, begin: Instant) -> Duration {
            match layer {
                Some(layer) if layer >= kind.first() => begin.elapsed(),
                None if kind.first() == 0 => begin.elapsed(),
                _ => Duration::ZERO,
            }
        }

        fn room(&self) -> usize {
            self.jobs.iter().flat_map(|job| &job.bodies).map(|b| b.len() + 16 * self.blocks + 64).max().unwrap()
        }

        // ---- writing

        fn engine_writes(&mut self, keep: bool) -> Duration {
            let Lent { states, scratch, output, .. } = &mut self.lent;
            let mut answer = [0; 1];
            let mut total = Duration::ZERO;
            let begin = Instant::now();
            for (job, state) in self.jobs.iter().zip(states.iter_mut()) {
                words::start_writer(self.count, self.bands.as_flattened(), 0, &job.planes, state);
            }
            total += Row::timed(self.kind, None, begin);
            for i in 0..LAYERS {
                let begin = Instant::now();
                for (job, state) in self.jobs.iter_mut().zip(states.iter_mut()) {
                    let Layer { counts, lengths, marks } = &job.layers[i];
                    let number = words::write(state, scratch, counts, lengths, marks, &job.bodies[i], false, false, 0, output, &mut answer);
                    if keep {
                        assert_eq!(number, 0);
                        job.packets.push(output[..answer[0] as usize].to_vec());
                    }
                }
                total += Row::timed(self.kind, Some(i), begin);
            }
            total
        }

        fn crate_writes(&mut self, check: bool) -> Duration {
            let mut precincts: Vec<Precinct> = self.jobs.iter().map(|job| Precinct::from_words(&self.started(true, job), true)).collect();
            let output = &mut self.lent.output;
            let mut total = Duration::ZERO;
            for i in 0..LAYERS {
                for (job, precinct) in self.jobs.iter().zip(&mut precincts) {
                    let Layer { counts, lengths, marks } = &job.layers[i];
                    precinct.give(counts, lengths, marks, Some(&job.bodies[i]));
                }
                let begin = Instant::now();
                for (job, precinct) in self.jobs.iter_mut().zip(&mut precincts) {
                    let bytes = precinct.write(false, false, 0, output);
                    if check {
                        let packet = &output[..bytes.unwrap()];
                        if job.is_shared(i) {
                            assert_eq!(packet, job.packets[i]);
                        }
                        if self.kind.full_headers {
                            job.packets[i] = packet.to_vec();
                        }
                    }
                }
                total += Row::timed(self.kind, Some(i), begin);
            }
            total
        }

        // ---- reading

        fn engine_reads(&mut self, check: bool) -> Duration {
            let Lent { states, scratch, reports, work, records, .. } = &mut self.lent;
            let mut answer = [0; 6];
            let mut total = Duration::ZERO;
            let begin = Instant::now();
            for state in states.iter_mut() {
                words::start_reader(self.count, self.bands.as_flattened(), 0, &[], state);
            }
            total += Row::timed(self.kind, None, begin);
            for i in 0..LAYERS {
                let begin = Instant::now();
                for (job, state) in self.jobs.iter().zip(states.iter_mut()) {
                    let number = words::read(state, scratch, &job.packets[i], false, false, reports, work, records, &mut answer);
                    if check {
                        assert_eq!((number, answer[1] as usize), (0, job.header(i)));
                    }
                }
                total += Row::timed(self.kind, Some(i), begin);
            }
            total
        }

        /// With the crate's settling of the passes, which is part of the engine's read; or the header alone, settled untimed.
        fn crate_reads(&mut self, settling: bool, check: bool) -> Duration {
            let mut precincts: Vec<Precinct> = self.jobs.iter().map(|job| Precinct::from_words(&self.started(false, job), true)).collect();
            let mut total = Duration::ZERO;
            for i in 0..LAYERS {
                let begin = Instant::now();
                for (job, precinct) in self.jobs.iter().zip(&mut precincts) {
                    let read = precinct.read_header(false, false, &job.packets[i]);
                    if settling {
                        precinct.settle(matches!(read, Ok((true, _))));
                    }
                    if check {
                        let present = self.kind.full_headers || !job.layers[i].without_passes();
                        assert_eq!(read.unwrap(), (present, job.header(i)));
                    }
                }
                total += Row::timed(self.kind, Some(i), begin);
                if !settling {
                    precincts.iter_mut().for_each(|p| p.settle(true));
                }
            }
            total
        }

        // ---- OpenJPEG

        #[cfg(openjpeg)]
        fn openjpeg_writes(&mut self, check: bool) -> Duration {
            use compare::openjpeg::Precinct;
            let [side, _, planes] = self.bands[0];
            let mut precincts: Vec<Precinct> =
                self.jobs.iter().map(|job| Precinct::writer(self.count, side, planes, &job.planes)).collect();
            let output = &mut self.lent.output;
            let mut total = Duration::ZERO;
            for i in 0..LAYERS {
                for (job, precinct) in self.jobs.iter().zip(&mut precincts) {
                    precinct.give(&job.layers[i].counts, &job.layers[i].lengths, &job.bodies[i]);
                }
                let begin = Instant::now();
                for (job, precinct) in self.jobs.iter().zip(&mut precincts) {
                    let bytes = precinct.write(output);
                    if check && job.is_shared(i) {
                        assert_eq!(output[..bytes], job.packets[i]);
                    }
                }
                total += Row::timed(self.kind, Some(i), begin);
            }
            total
        }

        #[cfg(openjpeg)]
        fn openjpeg_reads(&mut self, check: bool) -> Duration {
            use compare::openjpeg::Precinct;
            let [side, _, planes] = self.bands[0];
            let mut precincts: Vec<Precinct> = self.jobs.iter().map(|_| Precinct::reader(self.count, side, planes)).collect();
            let mut total = Duration::ZERO;
            for i in 0..LAYERS {
                let begin = Instant::now();
                for (job, precinct) in self.jobs.iter().zip(&mut precincts) {
                    let taken = precinct.read(&job.packets[i]);
                    precinct.settle();
                    if check {
                        assert_eq!(taken, job.header(i));
                    }
                }
                total += Row::timed(self.kind, Some(i), begin);
            }
            total
        }

        #[cfg(not(openjpeg))]
        fn openjpeg_writes(&mut self, _: bool) -> Duration {
            Duration::MAX
        }

        #[cfg(not(openjpeg))]
        fn openjpeg_reads(&mut self, _: bool) -> Duration {
            Duration::MAX
        }

        fn compare(&mut self) {
            self.engine_writes(true);
            self.crate_writes(true);
            self.engine_reads(true);
            self.crate_reads(true, true);
            self.openjpeg_writes(true);
            self.openjpeg_reads(true);
        }

        /// The packets that are timed in a round.
        fn timed_packets(&self) -> f64 {
            (self.jobs.len() * (LAYERS - self.kind.first())) as f64
        }
    }

    /// The best of each side, as nanoseconds a packet, of which there are so many in a round.
    fn best<T>(row: &mut T, packets: f64, time: Duration, sides: &[Side<T>]) -> Vec<f64> {
        let mut best = vec![Duration::MAX; sides.len()];
        let begin = Instant::now();
        while begin.elapsed() < time {
            for (side, least) in sides.iter().zip(&mut best) {
                *least = (*least).min(side(row));
            }
        }
        best.into_iter().map(|d| d.as_nanos() as f64 / packets).collect()
    }

    /// Nanoseconds a packet of each side, and the first side's time to the second's: medians over the rounds, in which they take turns at
    /// being first. A round's ratio has none of what makes the machine faster or slower from one round to the next.
    fn paired<T>(row: &mut T, packets: f64, time: Duration, sides: [Side<T>; 2]) -> [f64; 3] {
        let mut rounds: Vec<[f64; 3]> = Vec::new();
        let begin = Instant::now();
        while begin.elapsed() < time {
            let mut times = [0.0; 2];
            for turn in 0..2 {
                let side = (rounds.len() + turn) % 2;
                times[side] = sides[side](row).as_nanos() as f64 / packets;
            }
            rounds.push([times[0], times[1], times[0] / times[1]]);
        }
        [0, 1, 2].map(|i| {
            let mut values: Vec<f64> = rounds.iter().map(|round| round[i]).collect();
            values.sort_by(f64::total_cmp);
            values[values.len() / 2]
        })
    }

    // ---- layers of several precincts

    /// Precincts that are written together: their states and what each layer brings, behind one another.
    struct Group {
        /// The states of writers at layer 0.
        fresh: Vec<u32>,
        states: Vec<u32>,
        layers: Vec<Layer>,
        bodies: Vec<Vec<u8>>,
        /// Passes and body bytes of each precinct in each layer.
        sizes: Vec<Vec<(usize, usize)>>,
    }

    impl Group {
        fn new(row: &Row, jobs: &[Job]) -> Group {
            let fresh: Vec<u32> = jobs.iter().flat_map(|job| row.started(true, job)).collect();
            let sizes = |i: usize| jobs.iter().map(|job| (job.layers[i].lengths.len(), job.bodies[i].len())).collect();
            Group {
                states: fresh.clone(),
                fresh,
                layers: (0..LAYERS).map(|i| Layer::joined(jobs.iter().map(|job| &job.layers[i]))).collect(),
                bodies: (0..LAYERS).map(|i| jobs.iter().flat_map(|job| &job.bodies[i]).copied().collect()).collect(),
                sizes: (0..LAYERS).map(sizes).collect(),
            }
        }
    }

    struct Grouped {
        row: Row,
        groups: Vec<Group>,
        scratch: Vec<u32>,
        output: Vec<u8>,
        /// The packets of all layers, where they are kept.
        kept: Option<Vec<Vec<u8>>>,
    }

    impl Grouped {
        fn new(side: u32, count: u32, kind: Kind) -> Grouped {
            let row = Row::new(side, count, kind, TOGETHER);
            let groups = row.jobs.chunks_exact(TOGETHER).map(|jobs| Group::new(&row, jobs)).collect();
            let (scratch, output) = (vec![1; TOGETHER * row.length()], vec![1; TOGETHER * row.room()]);
            Grouped { row, groups, scratch, output, kept: None }
        }

        /// Every layer of every group by this way of writing one, which answers the bytes of its packets.
        fn write(&mut self, way: fn(&mut Group, usize, &mut [u32], &mut [u8], usize) -> usize) -> Duration {
            let Grouped { row, groups, scratch, output, kept } = self;
            let mut total = Duration::ZERO;
            groups.iter_mut().for_each(|group| group.states.copy_from_slice(&group.fresh));
            for i in 0..LAYERS {
                let begin = Instant::now();
                for group in groups.iter_mut() {
                    let bytes = way(group, i, scratch, output, row.blocks);
                    if let Some(kept) = kept {
                        kept.push(output[..bytes].to_vec());
                    }
                }
                total += begin.elapsed();
            }
            total
        }

        fn by_one_call(&mut self) -> Duration {
            self.write(|group, i, scratch, output, _| {
                let Layer { counts, lengths, marks } = &group.layers[i];
                let (states, bodies) = (&mut group.states, &group.bodies[i]);
                let mut answer = [0; 2];
                words::write_layer(states, scratch, &[0; TOGETHER], counts, lengths, marks, bodies, false, false, output, &mut answer);
                answer[1] as usize
            })
        }

        fn by_single_calls(&mut self) -> Duration {
            self.write(|group, i, scratch, output, blocks| {
                let Layer { counts, lengths, marks } = &group.layers[i];
                let (bodies, words) = (&group.bodies[i], scratch.len() / TOGETHER);
                let (mut pass, mut byte, mut bytes, mut answer) = (0, 0, 0, [0]);
                for (place, (passes, body)) in group.sizes[i].iter().enumerate() {
                    words::write(
                        &mut group.states[place * words..][..words],
                        &mut scratch[place * words..][..words],
                        &counts[place * blocks..][..blocks],
                        &lengths[pass..][..*passes],
                        &marks[pass..][..*passes],
                        &bodies[byte..][..*body],
                        false,
                        false,
                        0,
                        &mut output[bytes..],
                        &mut answer,
                    );
                    (pass, byte, bytes) = (pass + passes, byte + body, bytes + answer[0] as usize);
                }
                bytes
            })
        }

        /// Both ways give the same packets and leave the same states.
        fn compare(&mut self) {
            let [one, other] = [Grouped::by_one_call as Side<Grouped>, Grouped::by_single_calls].map(|way| {
                self.kept = Some(Vec::new());
                way(self);
                let states: Vec<Vec<u32>> = self.groups.iter().map(|group| group.states.clone()).collect();
                assert!(states.iter().flatten().ne(self.groups.iter().flat_map(|group| &group.fresh)), "packets were written");
                (self.kept.take(), states, self.scratch.clone())
            });
            assert!(one == other, "one call and single calls");
        }
    }

    // ---- headers moved in front and back

    /// The packets of a row behind one another, layer by layer, one precinct's after another's, and what the moves of their headers leave.
    struct Tilepart {
        row: Row,
        packets: Vec<u8>,
        states: Vec<u32>,
        places: Vec<u32>,
        scratch: Vec<u32>,
        headers: Vec<u8>,
        bodies: Vec<u8>,
        back: Vec<u8>,
    }

    impl Tilepart {
        fn new(side: u32, count: u32, kind: Kind) -> Tilepart {
            let mut row = Row::new(side, count, kind, 1);
            row.compare();
            let packets: Vec<u8> = (0..LAYERS).flat_map(|i| row.jobs.iter().flat_map(move |job| &job.packets[i])).copied().collect();
            let states: Vec<u32> = row.jobs.iter().flat_map(|job| row.started(false, job)).collect();
            let mut tilepart = Tilepart {
                places: (0..LAYERS).flat_map(|_| 0..row.jobs.len() as u32).collect(),
                scratch: vec![1; states.len()],
                headers: vec![1; packets.len() + 5 * packets.len().div_ceil(65_532)],
                bodies: vec![1; packets.len()],
                back: vec![1; packets.len()],
                row,
                packets,
                states,
            };
            let (headers, bodies) = tilepart.gathered();
            tilepart.headers.truncate(headers);
            tilepart.bodies.truncate(bodies);
            assert_eq!(tilepart.spread(), tilepart.packets.len());
            assert!(tilepart.back == tilepart.packets, "the packets come back");
            tilepart
        }

        /// The bytes put in headers and in bodies.
        fn gathered(&mut self) -> (usize, usize) {
            let Tilepart { packets, states, places, scratch, headers, bodies, .. } = self;
            let mut answer = [0; 2];
            assert_eq!(words::gather_headers(packets, states, scratch, places, false, false, headers, bodies, &mut answer), 0);
            (answer[0] as usize, answer[1] as usize)
        }

        /// The bytes put in the row.
        fn spread(&mut self) -> usize {
            let Tilepart { states, places, scratch, headers, bodies, back, .. } = self;
            let mut answer = [0];
            assert_eq!(words::spread_headers(headers, bodies, states, scratch, places, false, false, back, &mut answer), 0);
            answer[0] as usize
        }
    }

    fn timed<T>(work: impl FnOnce() -> T) -> Duration {
        let begin = Instant::now();
        work();
        begin.elapsed()
    }

    /// Times the moves that the pattern asks for, and the crate's reads of the same packets.
    fn move_rows(time: Duration, pattern: &str) {
        println!();
        println!("| blocks | layers | crate reads, ns a packet | gather | spread | crate reads / gather | crate reads / spread |");
        println!("|---|---|---|---|---|---|---|");
        for (side, count, name) in [(1, 1, "1 × 1"), (4, 1, "4 × 4"), (16, 1, "16 × 16"), (64, 3, "64 × 64 × 3")] {
            for kind in WITH_PASSES {
                if !format!("move {name} {}", kind.name).contains(pattern) {
                    continue;
                }
                let mut tilepart = Tilepart::new(side, count, kind);
                let packets = tilepart.places.len() as f64;
                let sides: [Side<Tilepart>; 3] = [|t| t.row.crate_reads(true, false), |t| timed(|| t.gathered()), |t| timed(|| t.spread())];
                let times = best(&mut tilepart, packets, time, &sides);
                let [reads, gather, spread] = times[..] else { unreachable!() };
                let (there, back) = (reads / gather, reads / spread);
                println!("| {name} | {} | {reads:.0} | {gather:.0} | {spread:.0} | {there:.2} | {back:.2} |", kind.name);
            }
        }
    }

    /// A row of the table: `times` has the crate's, ours, OpenJPEG's and the crate's header alone.
    fn print(what: &str, name: &str, layers: &str, blocks: usize, times: &[f64]) {
        let ours = times[1];
        let thousands = |ns: f64| format!("{:.*}", if ns > 1e5 { 1 } else { 0 }, 1e6 / ns);
        let ratio = |i: usize| times.get(i).filter(|t| **t < 1e12).map_or("-".to_string(), |t| format!("{:.2}", t / ours));
        println!(
            "| {what} | {name} | {layers} | {:.0} | {:.0} | {:.1} | {:.1} | {} | {} | {} | {} | {} |",
            times[0],
            ours,
            times[0] / blocks as f64,
            ours / blocks as f64,
            thousands(times[0]),
            thousands(ours),
            ratio(0),
            ratio(3),
            ratio(2),
        );
    }

    /// Times a layer's rows that the pattern asks for.
    fn layer_rows(time: Duration, pattern: &str) {
        println!();
        println!("| call | blocks of each | layers | 16 calls, ns a packet | one call | 16 calls / one call |");
        println!("|---|---|---|---|---|---|");
        let shapes = [
            (1, 1, "1 × 1", DENSE),
            (4, 1, "4 × 4", DENSE),
            (16, 1, "16 × 16", DENSE),
            (16, 1, "16 × 16", SPARSE),
            (16, 1, "16 × 16", EMPTY),
            (64, 3, "64 × 64 × 3", EMPTY),
        ];
        for (side, count, name, kind) in shapes {
            if !format!("write 16 precincts {name} {}", kind.name).contains(pattern) {
                continue;
            }
            let mut grouped = Grouped::new(side, count, kind);
            grouped.compare();
            let packets = grouped.row.timed_packets();
            let [single, one, ratio] = paired(&mut grouped, packets, time, [Grouped::by_single_calls, Grouped::by_one_call]);
            println!("| write 16 precincts | {name} | {} | {single:.0} | {one:.0} | {ratio:.3} |", kind.name);
        }
    }

    pub fn main(time: Duration, pattern: &str) {
        println!(
            "| call | blocks | layers | crate, ns a packet | ours | crate, ns a block | ours | crate, 1,000 packets/s | ours \
             | crate / ours | crate's header alone / ours | OpenJPEG / ours |"
        );
        println!("|---|---|---|---|---|---|---|---|---|---|---|---|");
        for (side, count, name) in [(1, 1, "1 × 1"), (4, 1, "4 × 4"), (16, 1, "16 × 16"), (64, 3, "64 × 64 × 3")] {
            WITH_PASSES.iter().chain(&NEVER_CAME).for_each(|kind| rows(time, pattern, side, count, name, *kind));
        }
        CAME_BEFORE.iter().for_each(|kind| rows(time, pattern, 1, 1, "1 × 1", *kind));
        for (side, name) in [(8, "8 × 8"), (64, "64 × 64")] {
            NEVER_CAME.iter().chain(&CAME_BEFORE).for_each(|kind| rows(time, pattern, side, 1, name, *kind));
        }
        layer_rows(time, pattern);
        move_rows(time, pattern);
    }

    /// Times the rows of a shape and kind that the pattern asks for.
    fn rows(time: Duration, pattern: &str, side: u32, count: u32, name: &str, kind: Kind) {
        let wanted = |call: &str| format!("{call} {name} {}", kind.name).contains(pattern) && (call == "read" || !kind.full_headers);
        if !wanted("write") && !wanted("read") {
            return;
        }
        let mut row = Row::new(side, count, kind, 1);
        row.compare();
        let (blocks, packets) = (row.blocks, row.timed_packets());
        if wanted("write") {
            let sides: Vec<Side<Row>> = vec![|r| r.crate_writes(false), |r| r.engine_writes(false), |r| r.openjpeg_writes(false)];
            print("write", name, kind.name, blocks, &best(&mut row, packets, time, &sides));
        }
        if wanted("read") {
            let sides: Vec<Side<Row>> = vec![|r| r.crate_reads(true, false), |r| r.engine_reads(false), |r| r.openjpeg_reads(false), |r| {
                r.crate_reads(false, false)
            }];
            print("read", name, kind.name, blocks, &best(&mut row, packets, time, &sides));
        }
    }
}

fn main() {
    #[cfg(openjp2)]
    {
        let seconds = std::env::args().nth(1).map_or(0.6, |a| a.parse().expect("seconds"));
        let pattern = std::env::args().nth(2).unwrap_or_default();
        timed::main(std::time::Duration::from_secs_f64(seconds), &pattern);
    }
    #[cfg(not(openjp2))]
    println!("crate openjp2's sources were not there when this was built: there is nothing to compare with");
}
