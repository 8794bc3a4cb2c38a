#!/usr/bin/env python3
"""Writes the lists of crates/vectors: calls of the engine with the answers that they must give. In the repository's root:

    (cd rust && OPENJP2_SRC=FOLDER cargo build --release --bin crate_answers)   # FOLDER is the src folder of the crate's sources
    python3 tools/make_vectors.py

This gives the files that are there byte for byte; --seed gives others. crate_answers runs the code of crate openjp2 0.6.1
(rust/compare/src/answers.rs), and compare_definitions.py's generator makes the random runs. Every answer of a list, and the state after
it, comes from the crate, but for four kinds. Packets without passes are measured and written by scope.py, the scope (docs/SCOPE.md) as
plain Python, since the crate writes them otherwise; its writer goes on from the words after them, and its reader reads them. From layer 999
on, and where 999 stands in an inclusion tree, the answers of the lists `layers`, `cut` and `refusals` come from scope.py too, which must
agree with the crate wherever that is asked. So do, in every list, the bits that a read takes past the input's end, which the crate doesn't
count. Refusals that the crate has not stand in this file by their numbers, in the lists `hand`, `absent`, `cut`, `layers` and `refusals`,
with the buffers as the scope leaves them. Starts are sums of the lengths.

The lists, which crates/vectors/args names:

    hand        packets of the scope that are no rows of its table, and slips near them
    published   worked headers as recalled from T.800
    absent      packets without passes, and with passes after them, written and read
    writes      packets written                       loaded      packets written from loaded states
    reads       packets read as the crate writes them reloaded    packets read from loaded states
    damaged     packets damaged, cut or made of other bytes
    cut         headers cut at each byte, with and without markers, and short inputs in later layers
    markers     packets with a marker missing, cut or where none is due
    big         packets of big geometries             layers      packets of layers from 998 on
    refusals    refusals by the scope alone, and states at the ends of the ranges

A list is a file of bytes, crates/vectors/data/NAME. A number below 251 is one byte; else 252, 253, 254 or 255 and then 1, 2, 4 or 8 bytes,
the highest first. In a row of numbers 251, how often, and a number stand for that number so often. A list is the number of its calls, the
number of its answers, and then each call; it ends with the last one:

    0 load      n, row of words
    1 start     role, band count, row of nine numbers of bands, style, words of the state, n, row of block planes; answer, check(state)
    2 measure   words of scratch, SOP + 2 EPH, packet number, n, row of counts, n, row of lengths, n, marks (bytes);
                refusal, header, body, check(scratch)
    3 write     the same up to the marks, body bytes, output bytes;
                refusal, bytes, front n, body n, rest, front (bytes), check(state), check(scratch)
    4 read      words of scratch, SOP + 2 EPH, n, input (bytes), words of reports, words of records;
                refusal, present, taken, segments, SOP mark, EPH mark, bits past the end, then of reports and of records: n, rest,
                row of n words; each segment's start, check(state), check(scratch)
    5 poke      place and word: the state's word there is set

A list that is lent is filled before: state 7, scratch 5, output 165, reports 9, records 8; a body has (7 i + 3) mod 256 at i.
check(xs) is h = length; for each x: h = (h * 65599 + x + 1) mod 4294967291.
"""
import argparse
import collections
import os
import random

import compare_definitions as generator
from compare_definitions import AMPLE, CRATE_LAYERS, MOST_PLANES, Oracle, Run, Unexpected, add_program, told_absent
from scope import HEADER_WORDS, NOT_YET_INCLUDED, NOT_YET_PLANES, Scope, bands_of, blocks_in, hexed, spaced, started, without_count

STATE, SCRATCH, OUTPUT, REPORTS, RECORDS = 7, 5, 165, 9, 8
STATE_MOST, COUNTS_MOST, PASSES_MOST, BYTES_MOST, RECORDS_MOST, LIST_MOST = 147463, 12288, 700, 4000, 49152, 65535


def check(words):
    h = len(words)
    for x in words:
        h = (h * 65599 + x + 1) % 4294967291
    return h


def body_of(n):
    return [(7 * i + 3) % 256 for i in range(n)]


def number(n):
    if n < 251:
        return [n]
    for first, size in ((252, 1), (253, 2), (254, 4), (255, 8)):
        if n < 1 << 8 * size:
            return [first] + list(n.to_bytes(size, "big"))
    raise ValueError(n)


def numbers(xs):
    return [b for x in xs for b in number(x)]


def row(xs):
    """Numbers, those that come often in a row once."""
    out, at = [], 0
    while at < len(xs):
        times = 1
        while at + times < len(xs) and xs[at + times] == xs[at]:
            times += 1
        once = number(xs[at])
        often = [251] + number(times) + once
        out += often if len(often) < times * len(once) else times * once
        at += times
    return out


def counted(xs):
    return number(len(xs)) + row(xs)


def three(bands):
    return (list(bands) + [(0, 0, 0)] * 3)[:3]


def starts(records):
    """How many bytes of the body lie before each segment's, by the words of the records."""
    lengths = records[3::4]
    return [sum(lengths[:k]) for k in range(len(lengths))]


class Calls:
    """One list in the making. `crate` counts the answers that came from the crate."""

    def __init__(self, name):
        self.name = name
        self.data, self.calls, self.answers, self.crate = [], 0, 0, 0
        self.state = []

    def add(self, data, from_crate):
        self.data += data
        self.calls += 1
        self.answers += from_crate is not None
        self.crate += from_crate is True

    def load(self, words):
        assert len(words) <= STATE_MOST
        self.state = list(words)
        self.add([0] + counted(words), None)

    def poke(self, at, value):
        self.state = self.state[:at] + [value] + self.state[at + 1:]
        self.add([5] + numbers([at, value]), None)

    def start(self, role, count, bands, style, planes, size, answer, words=None, from_crate=True):
        bands = three(bands)
        after = [STATE] * size if answer else list(words)
        assert size == len(after) <= STATE_MOST and len(planes) <= COUNTS_MOST
        self.add([1] + numbers([role, count]) + row([x for b in bands for x in b]) + numbers([style, size]) + counted(planes)
            + numbers([answer, check(after)]), from_crate)
        self.state = after

    def lists(self, scratch, sop, eph, packet, counts, lengths, marks):
        assert scratch <= STATE_MOST and len(counts) <= COUNTS_MOST and max(len(lengths), len(marks)) <= PASSES_MOST
        return numbers([scratch, sop + 2 * eph, packet]) + counted(counts) + counted(lengths) + number(len(marks)) + list(marks)

    def measure(self, sop, eph, counts, lengths, marks, answer, after=None, scratch=None, from_crate=True):
        """answer: refusal, header, body; after: the state after the packet."""
        scratch = len(self.state) if scratch is None else scratch
        left = [SCRATCH] * scratch if answer[0] else list(after)
        self.add([2] + self.lists(scratch, sop, eph, 0, counts, lengths, marks) + numbers(list(answer) + [check(left)]), from_crate)

    def write(self, sop, eph, packet, counts, lengths, marks, body, room, refusal, front=(), after=None, scratch=None, from_crate=True):
        scratch = len(self.state) if scratch is None else scratch
        size = len(front) + body if refusal == 0 else 0
        after = list(after) if refusal == 0 else self.state
        left = after if refusal == 0 else [0 if refusal == 11 else SCRATCH] * scratch
        rest = 0 if refusal == 11 else OUTPUT
        output = (list(front) + body_of(body) + [rest] * (room - size)) if refusal == 0 else [rest] * room
        assert body <= BYTES_MOST and len(output) == room <= BYTES_MOST
        front = list(front) if refusal == 0 else []
        self.add([3] + self.lists(scratch, sop, eph, packet, counts, lengths, marks) + numbers([body, room, refusal, size])
                 + numbers([len(front), body if refusal == 0 else 0, rest]) + front + numbers([check(after), check(left)]), from_crate)
        self.state = after

    def read(self, sop, eph, data, reports, records, told, rows=((), ()), after=None, scratch=None, from_crate=True):
        """told: refusal, present, taken, segments, marks, bits past the end; rows: words of the reports and of the records."""
        scratch = len(self.state) if scratch is None else scratch
        refusal = told[0]
        assert len(told) == 7
        wiped = refusal in (9, 12, 13)
        after = list(after) if refusal == 0 else self.state
        left = after if refusal == 0 else [0 if wiped else SCRATCH] * scratch
        rows = [list(x) if refusal == 0 else [] for x in rows]
        rests = [0 if wiped else REPORTS, 0 if wiped else RECORDS]
        want = [x + [rest] * (n - len(x)) for x, rest, n in zip(rows, rests, (reports, records))]
        assert len(data) <= BYTES_MOST and max(reports, records) <= RECORDS_MOST and [len(x) for x in want] == [reports, records]
        self.add([4] + numbers([scratch, sop + 2 * eph, len(data)]) + list(data) + numbers([reports, records] + list(told))
                 + [b for x, rest in zip(rows, rests) for b in numbers([len(x), rest]) + row(x)]
                 + numbers(starts(rows[1]) + [check(after), check(left)]), from_crate)
        self.state = after

    def bytes(self):
        return numbers([self.calls, self.answers]) + self.data

    def write_file(self, folder):
        assert len(self.bytes()) <= LIST_MOST
        with open(os.path.join(folder, self.name), "wb") as f:
            f.write(bytes(self.bytes()))


# ---- runs of the generator as calls

def blocks_of(bands):
    return sum(w * h for w, h, _ in bands)


def put_run(calls, run, side):
    """One side's calls of a run, up to the first that has no room."""
    for who, name, c in run.calls:
        if who != side:
            continue
        if name == "start":
            calls.start(1 if side == "writer" else 2, len(run.bands), run.bands, run.style, run.planes if side == "writer" else [],
                len(c["after"]), 0, c["after"])
        elif name == "load":
            calls.load(c["words"])
        elif name == "reads":
            calls.read(c["sop"], c["eph"], c["data"], c["reports"], c["records"], c["told"], c["rows"], c["after"])
        elif name == "writes":
            body = sum(c["lengths"])
            calls.write(c["sop"], c["eph"], c["number"], c["counts"], c["lengths"], c["marks"], body, c["room"], c["refusal"],
                c["front"], c["after"], from_crate=c["own"])
        else:
            total = sum(c["lengths"])
            calls.measure(c["sop"], c["eph"], c["counts"], c["lengths"], c["marks"],
                (c["refusal"], len(c["front"]), total) if c["refusal"] == 0 else (c["refusal"], 0, 0), c["after"], from_crate=c["own"])
            if c["refusal"] == 0:
                # the crate has no measuring: its state moved on, and that of the list does not
                return


def fits(run, side):
    for who, name, c in run.calls:
        if who != side:
            continue
        if name == "writes" and (c["room"] > BYTES_MOST or len(c["lengths"]) > PASSES_MOST):
            return False
        if name == "heads" and len(c["lengths"]) > PASSES_MOST:
            return False
        if name == "reads" and (max(c["reports"], c["records"]) > RECORDS_MOST or len(c["data"]) > 80):
            return False
        if len(c.get("after", c.get("words"))) > 200:
            return False
    return True


def marker_run(rng, run):
    """A reader whose inputs have a marker missing, cut or where none is due."""
    run.start("reader")
    geometry = spaced(spaced(b) for b in run.bands)
    run.writer.ask("start writer %d %d %s %d %s" % (run.empty, len(run.bands), geometry, run.style, spaced(run.planes)))
    for _ in range(rng.randrange(2, 6)):
        counts, lengths, marks = generator.some_contribution(rng, run, "matching", 5, 0.6, 0)
        sop, eph = rng.choice([(0, 1), (1, 0), (1, 1)])
        answer = run.writer.ask("write %d %d %d %d / %s / %s / %s / !"
            % (sop, eph, generator.some_number(rng), AMPLE, spaced(counts), spaced(lengths), spaced(marks))).split()
        if answer[0] != "ok":
            raise Unexpected(spaced(answer))
        run.passes = [p + c for p, c in zip(run.passes, counts)]
        front = list(bytes.fromhex(answer[2]))
        if rng.random() < 0.3:
            sop, eph = 1, 1
        if run.read(sop, eph, generator.marker_trouble(rng, front, eph)) != 0:
            return


def put_random(calls, oracles, seed, kinds, side, answers, most):
    """Runs of the kinds given until the list has so many answers; a run that takes more than so many bytes an answer is left out."""
    tally = collections.Counter()
    for k in range(40 * answers):
        if calls.answers >= answers:
            break
        rng = random.Random("%s/%d/%d" % (calls.name, seed, k))
        fill = rng.choice(kinds)
        run = Run(rng, oracles, tally, *generator.some_shape(rng), kind=calls.name)
        try:
            fill(rng, run)
        except Unexpected:
            continue
        if not fits(run, side):
            continue
        part = Calls(calls.name)
        put_run(part, run, side)
        if part.answers and len(part.data) <= most * part.answers:
            calls.data += part.data
            calls.calls += part.calls
            calls.answers += part.answers
            calls.crate += part.crate
    return calls


# ---- calls made by hand, answered by the crate

class Asked:
    """A writer or a reader of the crate, with the scope to agree, or by the scope alone; and the list that its answers go to."""

    def __init__(self, calls, oracle):
        self.calls, self.oracle, self.scope = calls, oracle, Scope()
        self.given = dict(from_crate=isinstance(oracle, Oracle))

    def given_for(self, counts):
        """A packet without passes is the scope's."""
        return self.given if any(counts) else dict(from_crate=False)

    def load(self, words):
        self.bands = bands_of(words)
        self.ask("load 0 " + spaced(words))
        self.calls.load(words)

    def start(self, role, bands, style, planes):
        self.bands = bands
        self.ask("start %s 0 %d %s %d %s" % ("writer" if role == 1 else "reader", len(bands), spaced(spaced(b) for b in bands), style,
            spaced(planes)))
        words = self.oracle.words()
        self.calls.start(role, len(bands), bands, style, planes, len(words), 0, words, **self.given)

    def ask(self, line):
        answer = self.oracle.ask(line)
        if "note:" in answer or answer == "bad":
            raise SystemExit("%s -> %s" % (line, answer))
        told = self.scope.ask(line)
        if without_count(told).split() != without_count(answer).split() or self.scope.words() != self.oracle.words():
            raise SystemExit("%s -> %s, by the scope %s" % (line, answer, told))
        return told

    def measure(self, sop, eph, counts, lengths, marks):
        before = self.oracle.words()
        answer = self.ask("write %d %d 0 %d / %s / %s / %s / !" % (sop, eph, AMPLE, spaced(counts), spaced(lengths), spaced(marks))).split()
        if answer[0] == "ok":
            self.calls.measure(sop, eph, counts, lengths, marks, (0, int(answer[1]), sum(lengths)), self.oracle.words(),
                **self.given_for(counts))
        else:
            self.calls.measure(sop, eph, counts, lengths, marks, ({"panic": 9}[answer[0]], 0, 0), **self.given)
        self.ask("load 0 " + spaced(before))

    def write(self, counts, lengths, marks, room=None, sop=0, eph=0, packet=0, front=None):
        """front: the bytes that a paper gives."""
        before, body = self.oracle.words(), sum(lengths)
        lists = "/ %s / %s / %s / *" % (spaced(counts), spaced(lengths), spaced(marks))
        ample = self.ask("write %d %d %d %d %s" % (sop, eph, packet, AMPLE, lists)).split()
        after = self.oracle.words()
        room = int(ample[1]) if room is None else room
        self.ask("load 0 " + spaced(before))
        answer = self.ask("write %d %d %d %d %s" % (sop, eph, packet, room, lists)).split()
        if answer[0] == "failed":
            self.calls.write(sop, eph, packet, counts, lengths, marks, body, room, 11, **self.given_for(counts))
            return None
        got = list(bytes.fromhex(answer[2]))
        if answer[3] != "body=" or (front and got != list(bytes.fromhex(front))):
            raise SystemExit("written is %s, not %s" % (answer[2], front))
        self.calls.write(sop, eph, packet, counts, lengths, marks, body, room, 0, got, after, **self.given_for(counts))
        return got

    def read(self, data, sop=0, eph=0, records=None, reports=None, rows=None):
        """reports, rows: what a paper gives."""
        blocks = blocks_of(self.bands)
        answer = self.ask("read %d %d %s" % (sop, eph, hexed(data)))
        if answer.startswith("ok "):
            first, told, got = [[int(x) for x in part.split()] for part in answer[3:].split("/")]
            if (reports and told != [x for r in reports for x in r]) or (rows and got != [x for r in rows for x in r]):
                raise SystemExit("the crate reads %s" % answer)
            self.calls.read(sop, eph, data, 4 * blocks, 4 * (first[2] if records is None else records), [0] + first, (told, got),
                self.oracle.words(), **self.given)
        else:
            refusal = {"failed width": 9, "failed align": 12}[answer]
            self.calls.read(sop, eph, data, 4 * blocks, 4 * (4 if records is None else records), refused_read(refusal),
                **self.given)


ONE = [(1, 1, 8)]
TWO = [(2, 1, 8)]
DEEP = [(1, 1, MOST_PLANES + 1)]


def refused_read(number):
    """What a refused read tells."""
    return [number, 0, 0, 0, 0, 0, 0]


def last(n, total):
    """Pass lengths, all in the last."""
    return [0] * (n - 1) + [total]


def hand_list(oracle):
    """The scope's packets that are no rows of its table, and the slips that it names."""
    calls = Calls("hand")
    w = Asked(calls, oracle)
    w.start(1, ONE, 0, [8])
    w.write([1], [5], [0], room=5)
    w.write([1], [5], [0], room=6, front="e5")
    for inc in (29, 30):
        w.start(2, ONE, 0, [])
        w.read(generator.stuffed([1, 1, 1, 0] + [1] * inc + [0] + [1] * 32), records=2)
    w.start(1, ONE, 0, [8])
    calls.write(0, 0, 0, [165], [0] * 165, [0] * 165, 0, 100, 7, from_crate=False)
    w.write([164], last(164, 164), [0] * 164)
    # zero planes counted from the threshold
    for zero in (0, 1, 3, 8):
        w.start(1, ONE, 0, [8 - zero])
        front = w.write([1], [5], [0])
        w.start(2, ONE, 0, [])
        w.read(front, reports=[[1, zero, 8 - zero, 1]], rows=[[0, 1, 1, 5]])
    # widths from all passes of the block; length bits set back to 3 each layer
    for first, second in (((4, 9), (1, 5)), ((1, 200), (1, 5)), ((2, 300), (3, 7)), ((8, 1), (2, 15))):
        w.start(1, ONE, 0, [8])
        fronts = [w.write([n], last(n, size), [0] * n) for n, size in (first, second)]
        w.start(2, ONE, 0, [])
        w.read(fronts[0], rows=[[0, 1, first[0], first[1]]])
        w.read(fronts[1], reports=[[2, 0, 0, second[0]]], rows=[[0, 0, second[0], second[1]]])
    # bodies of 2^32 bytes and more: a block of 3 segments, and two blocks of 2
    most = (1 << 32) - 1
    w.start(2, ONE, 4, [])
    w.read(generator.stuffed([1, 1, 1, 1, 1, 0, 0] + [1] * 29 + [0] + [1] * 96), rows=[[0, 1, 1, most]] * 3)
    w.start(2, [(2, 1, 8)], 4, [])
    w.read(generator.stuffed([1, 1, 1, 1, 1, 1, 0] + [1] * 29 + [0] + [1] * 64 + [1, 1, 1, 0] + [1] * 29 + [0] + [1] * 31 + [0] * 33),
        rows=[[0, 1, 1, most], [0, 1, 1, most], [1, 1, 1, most - 1], [1, 1, 1, 0]])
    # no 00 after a last FF
    w.start(1, ONE, 0, [8])
    front = w.write([16], last(16, 511), [0] * 16, front="feadff00")
    w.start(2, ONE, 0, [])
    w.read(front[:3])
    w.read(front, rows=[[0, 1, 16, 511]])
    # a missing marker treated as a refusal
    for data in ("e5", "e500", "e50000", "ff91000400", "ff9100040001e5", "ff9100040001e5ff", "ff9100040001e5ff91", "ff9200040001e5ff92",
        "e5ff92", ""):
        w.start(2, ONE, 0, [])
        w.read(list(bytes.fromhex(data)), 1, 1, records=2)
    return calls


# ---- packets without passes

FLAT = [(0, 0, 8)]
HOLLOW = [(0, 3, 8), (4, 0, 5)]
WIDE = [(2, 2, 8), (0, 5, 3), (3, 1, 6)]
MARKERS = (0, 0), (1, 0), (0, 1), (1, 1)


def absent_list(oracle):
    """Packets without passes, alone and among others, measured, written and read."""
    calls = Calls("absent")
    for sop, eph in MARKERS:
        for bands in (ONE, FLAT, HOLLOW, WIDE):
            some_layers(calls, oracle, bands, [[0] * blocks_of(bands)], ["00"], sop, eph)
        some_layers(calls, oracle, ONE, [[0], [1], [1]], ["00", "b280", "c6"], sop, eph, [5, 3])
        some_layers(calls, oracle, ONE, [[0], [0], [1], [0], [2]], ["00", "00", "9940", "00", "e300"], sop, eph, [5, 3, 3])
        # a pass of no bytes contributes
        some_layers(calls, oracle, ONE, [[1], [0], [1]], ["e0", "00", "c0"], sop, eph, [0, 0])
        some_layers(calls, oracle, HOLLOW, [[], [], []], ["00"] * 3, sop, eph)
    none = [0] * 7
    some_layers(calls, oracle, WIDE, [none, [0, 0, 1, 0, 0, 0, 0], none, none, [1, 0, 2, 0, 0, 3, 0], none, [1] * 7], None, 0, 1)
    some_layers(calls, oracle, WIDE, [[1, 0, 0, 0, 0, 0, 1], none, [0, 0, 0, 1, 0, 0, 0], none, none, none, [0] * 6 + [2]], None, 1, 0)
    some_layers(calls, oracle, TWO, [[0, 0], [0, 1]] * 4 + [[1, 1]], None, 1, 1)
    drawn_runs(calls, oracle)
    # what other encoders write for J, with a first bit 1
    reader = Asked(calls, oracle)
    reader.start(2, ONE, 0, [])
    for front in ("80", "e5", "c6"):
        reader.read(list(bytes.fromhex(front)))
    absent_order(calls, oracle)
    return calls


def some_layers(calls, oracle, bands, layers, fronts, sop, eph, lengths=None):
    """Packets with these pass counts, each measured, written and then read; fronts: the headers that a paper gives, without markers."""
    w, written, lengths = Asked(calls, oracle), [], list(lengths or [])
    w.start(1, bands, 0, [max(0, planes - 1 - k % 2) if len(bands) > 1 else planes for across, down, planes in bands
        for k in range(across * down)])
    for k, counts in enumerate(layers):
        passes = sum(counts)
        own = [lengths.pop(0) if lengths else 2 + k for _ in range(passes)]
        given = ["ff910004%04x" % k] * sop + [fronts[k]] + ["ff92"] * eph if fronts else None
        w.measure(sop, eph, counts, own, [0] * passes)
        written.append(w.write(counts, own, [0] * passes, sop=sop, eph=eph, packet=k, front="".join(given) if given else None))
    w.start(2, bands, 0, [])
    for front in written:
        w.read(front, sop, eph)


def drawn_runs(calls, oracle):
    """Two runs that were drawn once: from a start, and from loaded words."""
    w = Asked(calls, oracle)
    w.start(1, [(1, 4, 2), (0, 0, 29), (2, 1, 1)], 1, [0, 1, 0, 1, 1, 0])
    w.write([0] * 6, [], [], sop=1, eph=1, packet=1593767067)
    w.write([1, 2, 0, 1, 0, 0], [0, 0, 0, 3], [0, 0, 1, 1], room=0, sop=1, packet=256)
    w.write([2, 1, 2, 1, 3, 1], [5, 0, 8, 1, 7, 7, 7, 2, 0, 15], [0] * 10)
    w.write([0, 8, 2, 3, 0, 0], [0] * 8 + [8, 0, 4, 0, 8], [0] * 7 + [1] + [0] * 5, sop=1, eph=1, packet=1)
    w.load([1, 1, 25, 1, 1, 2, 373] + [0] * 6 + [1, 2, 1, 1, 0, 0, 1, 1, 0, 0, 2, 1, 0, 4, 1, 2, 2, 1] + [0] * 8)
    w.write([0, 0], [], [], room=10, sop=1, packet=65537)
    w.write([0, 1], [255], [0], eph=1, packet=2981518939)
    w.write([5, 0], [0, 0, 0, 0, 15], [0] * 5, sop=1, eph=1, packet=65535)


def absent_order(calls, oracle):
    """The refusals of a packet without passes, in their order, and the room that it takes."""
    given, w = dict(from_crate=False), Asked(calls, oracle)
    w.start(1, TWO, 0, [8, 5])
    for number, counts, lengths, marks, body, room in (
            (3, [0], [], [], 0, 9), (3, [0, 0, 0], [], [], 0, 9), (3, [], [], [], 1, 0), (3, [0, 0], [1], [], 1, 9),
            (3, [0, 0], [], [0], 0, 9), (10, [0, 0], [], [], 1, 0), (10, [0, 0], [], [], 1, 9)):
        calls.write(0, 0, 0, counts, lengths, marks, body, room, number, **given)
        if number < 10:
            calls.measure(1, 1, counts, lengths, marks, (number, 0, 0), **given)
    for sop, eph, size in ((0, 0, 1), (1, 0, 7), (0, 1, 3), (1, 1, 9)):
        w.write([0, 0], [], [], room=0, sop=sop, eph=eph)
        w.write([0, 0], [], [], room=size - 1, sop=sop, eph=eph)
        w.write([0, 0], [], [], room=size, sop=sop, eph=eph)
        w.write([0, 0], [], [], room=size + 3, sop=sop, eph=eph)
    words = w.oracle.words()
    for at, value, number in ((HEADER_WORDS, NOT_YET_INCLUDED + 1, 5), (HEADER_WORDS + 2, 2, 5), (len(words) - 1, 1, 5),
            (3, NOT_YET_INCLUDED, 6)):
        calls.load(changed(words, (at, value)))
        calls.write(0, 0, 0, [0, 0], [], [], 0, 9, number, **given)
        calls.measure(0, 0, [0, 0], [], [], (number, 0, 0), **given)
        calls.write(0, 0, 0, [0], [], [], 1, 0, number, **given)


def bits(text):
    return generator.stuffed([int(x) for x in text if x in "01"])


def published_list(oracle):
    """Worked packet headers recalled from T.800, not looked up, and so read and written by the crate: a tag tree (B.10.2), two packets
    (B.10.8), two of a codestream (J.10.1)."""
    calls = Calls("published")
    w = Asked(calls, oracle)
    # B.10.8: zero planes 3 4 7 / 3 3 6; its first packet spends one length bit more than it must, so that it is read and not written
    band, planes = [(3, 2, 10)], [7, 6, 3, 7, 7, 4]
    first = bits("1 111 000111 1100 0 0100 1 01 10 10 00100 0 0 0")
    second = bits("1 1 1100 0 1010 0 10 0 1 1 0 0 001 1 00011 0 0 010")
    none = [0, 0, 0, 0]
    w.start(2, band, 0, [])
    w.read(first, reports=[[1, 3, 7, 3], [1, 4, 6, 2], none, none, none, none], rows=[[0, 1, 3, 4], [1, 1, 2, 4]])
    w.read(second, reports=[[2, 0, 0, 3], none, none, none, [1, 3, 7, 1], [1, 6, 4, 1]], rows=[[0, 0, 3, 10], [4, 1, 1, 1], [5, 1, 1, 2]])
    w.start(1, band, 0, planes)
    w.write([3, 2, 0, 0, 0, 0], last(3, 4) + last(2, 4), [0] * 5, front=bytes(bits("1 111 000111 1100 0 0100 1 01 10 0 0100 0 0 0")).hex())
    w.write([3, 0, 0, 0, 1, 1], last(3, 10) + [1, 2], [0] * 5, front=bytes(second).hex())
    # J.10.1: one column of nine samples, one decomposition; LL of 9 planes, then HL and HH without blocks and LH of 10 planes
    for bands, planes, n, size, front, zero in (
            ([(1, 1, 9)], [6], 16, 6, "c7d40c", 3),
            ([(0, 0, 10), (1, 1, 10), (0, 0, 11)], [3], 7, 3, "c07c2180", 7)):
        w.start(1, bands, 0, planes)
        w.measure(0, 0, [n], last(n, size), [0] * n)
        w.write([n], last(n, size), [0] * n, front=front)
        w.start(2, bands, 0, [])
        w.read(list(bytes.fromhex(front)), reports=[[1, zero, planes[0], n]], rows=[[0, 1, n, size]])
    # B.10.2: its first leaves are coded 01111, 001, 101
    leaves = [1, 3, 2, 3, 2, 3, 2, 2, 1, 4, 3, 2, 2, 2, 2, 2, 1, 2]
    w.start(1, [(6, 3, 8)], 0, [8 - z for z in leaves])
    front = w.write([1] * 18, [1] * 18, [0] * 18)
    text = "".join("{:08b}".format(b) for b in front)
    if not text.startswith("1" "1111" "01111" "0" "0" "001" "1" "001" "0" "0" "001" "11" "101"):
        raise SystemExit("not the tag tree's bits: " + text)
    w.start(2, [(6, 3, 8)], 0, [])
    w.read(front, reports=[[1, z, 8 - z, 1] for z in leaves], rows=[[k, 1, 1, 1] for k in range(18)])
    return calls


def words_in_range(role, oracle):
    """A state with one block included and one not, from the crate."""
    oracle.ask("start writer 0 1 2 1 8 1 8 5")
    front = oracle.ask("write 0 0 0 100 / 1 0 / 5 / 0 / *").split()[2]
    if role == 2:
        oracle.ask("start reader 0 1 2 1 8 1")
        oracle.ask("read 0 0 " + front)
    return oracle.words()


def changed(words, *pairs):
    """Other words at some places."""
    words = list(words)
    for at, value in pairs:
        words[at] = value
    return words


def asked_of(calls, oracle, words):
    """The crate, where it has the layer and the inclusion values, else the scope; with this state loaded."""
    values = {words[b.inclusion + 3 * node] for band in blocks_in(words) for b in band for node in b.path}
    asked = Asked(calls, oracle if words[3] < CRATE_LAYERS and CRATE_LAYERS not in values else Scope())
    asked.load(words)
    return asked


def refusal_list(oracle):
    """Refusals that the crate has not, by the scope's numbers and order, and states at the ends of the ranges."""
    calls = Calls("refusals")
    given = dict(from_crate=False)
    for answer, count, bands, style, planes, size in (
            (1, 0, ONE, 0xc0, [], 5), (1, 4, ONE, 0, [], 5), (1, 1, [(65, 1, MOST_PLANES + 1)], 0x40, [], 5),
            (1, 1, [(1, 65, 8)], 0, [8], 23), (1, 2, [(1, 1, 8), (64, 65, 8)], 0, [8], 23), (2, 1, ONE, 0x40, [], 5),
            (2, 1, ONE, 0x80, [9], 23), (3, 1, ONE, 0, [8], 22), (3, 1, ONE, 0, [8], 24), (3, 1, DEEP, 0, [8], 22),
            (3, 1, ONE, 0, [8, 8], 23)):
        for role in (1, 2):
            calls.start(role, count, bands, style, planes, size, answer, **given)
    calls.start(1, 1, ONE, 0, [], 23, 3, **given)
    calls.start(2, 1, ONE, 0, [8], 23, 3, **given)
    calls.start(1, 1, DEEP, 0, [8], 23, 4, **given)
    calls.start(2, 1, DEEP, 0, [], 23, 4, **given)
    calls.start(1, 1, ONE, 0, [9], 23, 4, **given)
    calls.start(1, 2, [(1, 1, 8), (1, 1, 5)], 0, [8, 6], 33, 4, **given)
    # 5: each word out of its range, then lengths and roles
    for role in (1, 2):
        words = words_in_range(role, oracle)
        first = HEADER_WORDS
        block = first + 2 * 3 * 3
        bad = [(0, 3 - role), (0, 0), (1, 0), (1, 4), (2, 64), (3, NOT_YET_INCLUDED + 1), (4, 65), (5, 65), (6, MOST_PLANES + 1), (7, 1),
               (9, 1), (12, 1), (first, NOT_YET_INCLUDED + 1), (first + 1, NOT_YET_INCLUDED + 1), (first + 2, 2),
               (block - 3, NOT_YET_PLANES + 1), (block - 2, NOT_YET_PLANES + 1), (block - 1, 2),
               (block, 165), (block, 0), (block + 1, 2), (block + 1, 33), (block + 1, 0), (block + 2, 5), (block + 3, 11),
               (block + 5, 3), (block + 6, 1), (block + 7, 1)]
        calls.load(words)
        for at, value in bad:
            calls.poke(at, value)
            refused(calls, role, 5)
            calls.poke(at, words[at])
        for size in (len(words) - 1, len(words) + 1, HEADER_WORDS, HEADER_WORDS - 1, 0):
            calls.load((words + [0])[:size])
            refused(calls, role, 5)
        calls.load(words)
        for size in (len(words) - 1, len(words) + 1, 0):
            refused(calls, role, 5, scratch=size)
        refused(calls, 3 - role, 5)
        for at, value in ((3, CRATE_LAYERS), (3, CRATE_LAYERS + 1), (first, CRATE_LAYERS + 1), (first, NOT_YET_INCLUDED),
                (first + 1, CRATE_LAYERS + 1), (first + 1, NOT_YET_INCLUDED), (block - 3, NOT_YET_PLANES), (block - 2, NOT_YET_PLANES)):
            in_range(calls, oracle, role, changed(words, (at, value)))
        last_layer(calls, oracle, role, words, block)
    writer_order(calls, given)
    reader_order(calls, given)
    return calls


def refused(calls, role, number, scratch=None):
    """A call that would be accepted, on a state or a scratch that is not."""
    if role == 1:
        calls.write(0, 0, 0, [0, 1], [3], [0], 3, 40, number, scratch=scratch, from_crate=False)
        calls.measure(0, 0, [0, 1], [3], [0], (number, 0, 0), scratch=scratch, from_crate=False)
    else:
        calls.read(0, 0, [0xd5, 0x15, 0, 0], 8, 16, refused_read(number), scratch=scratch, from_crate=False)


def in_range(calls, oracle, role, words):
    """The calls of `refused` on a state in range."""
    asked = asked_of(calls, oracle, words)
    if role == 1:
        asked.measure(0, 0, [0, 1], [3], [0])
        asked.write([0, 1], [3], [0], room=40)
    else:
        asked.read([0xd5, 0x15, 0, 0], records=4)


def last_layer(calls, oracle, role, words, block):
    """The largest numbers of a state's last layer; then none is left, and 6 comes after 5 and before 3."""
    layer, root = NOT_YET_INCLUDED - 1, HEADER_WORDS + 6
    late = changed(words, (3, layer), (root + 1, layer), (block, 164 * layer))
    in_range(calls, oracle, role, late)
    calls.load(changed(late, (block, 164 * layer + 1)))
    refused(calls, role, 5)
    done = changed(late, (3, NOT_YET_INCLUDED), (block, 164 * NOT_YET_INCLUDED))
    calls.load(done)
    refused(calls, role, 6)
    if role == 1:
        calls.write(0, 0, 0, [165], [], [], 0, 40, 6, from_crate=False)
    else:
        calls.read(0, 0, [0xd5], 5, 0, refused_read(6), from_crate=False)
    calls.load(changed(done, (root, NOT_YET_INCLUDED + 1)))
    refused(calls, role, 5)


def writer_order(calls, given):
    top = 1 << 31
    calls.start(1, 1, TWO, 0, [8, 8], 39, 0, started(1, TWO, 0, [8, 8]), **given)
    for number, counts, lengths, marks, body, room in (
            (3, [165], [0] * 165, [0] * 165, 0, 0), (3, [165, 0], [0] * 164, [0] * 165, 0, 0), (3, [165, 0], [0] * 165, [0] * 164, 0, 0),
            (3, [1, 1, 1], [0] * 3, [0] * 3, 0, 0), (3, [], [], [], 0, 9), (3, [(1 << 32) - 1, 1], [], [], 0, 9),
            (7, [165, 1], [top] + [0] * 165, [0] * 166, 0, 0), (7, [0, 165], [0] * 165, [0] * 165, 0, 99),
            (8, [1, 1], [top, 0], [0, 0], 0, 0), (8, [2, 1], [top // 2, top // 2, 0], [0] * 3, 0, 0),
            (8, [8, 1], [top - 1] + [0] * 6 + [1, top], [1] + [0] * 8, 0, 0),
            (9, [8, 1], [top - 1] + [0] * 6 + [1, 0], [1] + [0] * 8, 0, 0),
            (10, [1, 1], [2, 2], [0, 0], 3, 0), (10, [1, 1], [2, 2], [0, 0], 5, 0), (10, [1, 1], [2, 2], [0, 0], 0, 40),
            (11, [1, 1], [2, 2], [0, 0], 4, 0), (11, [1, 1], [2, 2], [0, 0], 4, 6)):
        calls.write(0, 0, 0, counts, lengths, marks, body, room, number, **given)
        if number < 10 and len(lengths) < 20:
            calls.measure(1, 1, counts, lengths, marks, (number, 0, 0), **given)


def reader_order(calls, given):
    no = refused_read
    calls.start(2, 1, ONE, 4, [], 23, 0, started(2, ONE, 4, []), **given)
    wide = generator.stuffed([1, 1, 1, 0] + [1] * 30 + [0])
    cut = [0xfe, 0xad, 0xff]
    calls.read(0, 0, [0xe5], 0, 0, no(3), **given)
    calls.read(0, 0, [0xe5], 8, 0, no(3), **given)
    calls.read(0, 0, [0xe5], 5, 4, no(3), **given)
    calls.read(0, 0, [0xe5], 4, 0, no(13), **given)
    calls.read(0, 0, [0xe5], 4, 3, no(13), **given)
    calls.read(0, 0, wide, 4, 0, no(9), **given)
    calls.read(0, 0, wide, 4, 16, no(9), **given)
    calls.read(0, 0, cut, 4, 60, no(13), **given)
    calls.start(2, 1, ONE, 0, [], 23, 0, started(2, ONE, 0, []), **given)
    calls.read(0, 0, cut, 4, 0, no(13), **given)
    calls.read(0, 0, cut, 4, 4, no(12), **given)


# ---- layers beyond the crate's

LAYERS = (CRATE_LAYERS - 1, CRATE_LAYERS, CRATE_LAYERS + 1, NOT_YET_INCLUDED - 2, NOT_YET_INCLUDED - 1)
VALUES = (700, CRATE_LAYERS - 1, CRATE_LAYERS, CRATE_LAYERS + 1, 5000, NOT_YET_INCLUDED - 1, NOT_YET_INCLUDED)


def with_node(role, layer, node):
    """A block without passes, whose inclusion node is this one."""
    words = started(role, ONE, 0, [8] if role == 1 else [])
    return changed(words, (3, layer), *enumerate(node, HEADER_WORDS))


def layer_list(oracle):
    """Layers on both sides of the crate's last and at the end, with inclusion values below, at and above them."""
    calls = Calls("layers")
    for layer in LAYERS:
        for value in VALUES:
            node_calls(calls, oracle, layer, [value, min(value, layer) - 1, 0])
    for layer in (CRATE_LAYERS, NOT_YET_INCLUDED - 1):
        for low in sorted({layer, layer + 1, NOT_YET_INCLUDED}):
            node_calls(calls, oracle, layer, [NOT_YET_INCLUDED, low, 0])
        node_calls(calls, oracle, layer, [layer, layer, 1])
    long_codes(calls, oracle)
    for layer in LAYERS[:3]:
        set_to_999(calls, oracle, layer)
    for layer in LAYERS:
        for value in VALUES:
            leaf_calls(calls, oracle, layer, [value, min(value, layer) - 1, 0])
    for layer in (CRATE_LAYERS, NOT_YET_INCLUDED - 1):
        for low in sorted({layer, layer + 1, NOT_YET_INCLUDED}):
            leaf_calls(calls, oracle, layer, [NOT_YET_INCLUDED, low, 0])
    leaf_calls(calls, oracle, NOT_YET_INCLUDED - 1, [NOT_YET_INCLUDED, NOT_YET_INCLUDED - 1000, 0])
    for first, packets, full in ((CRATE_LAYERS - 1, [[0, 0], [0, 1], [2, 1]], ["80", "d890", "f224"]),
            (NOT_YET_INCLUDED - 2, [[0, 0], [3, 0]], ["80", "fe30"])):
        trip(calls, first, packets, full)
    return calls


def node_calls(calls, oracle, layer, node):
    """A packet without passes measured, an inclusion written, and a read."""
    writer = asked_of(calls, oracle, with_node(1, layer, node))
    writer.measure(0, 0, [0], [], [])
    writer.write([1], [5], [0])
    asked_of(calls, oracle, with_node(2, layer, node)).read(bits("1 01 1 0 0 101 0"))


def with_leaf(role, oracle, layer, node):
    """A block with passes and beside it one without, whose leaf in the inclusion tree is this node."""
    return changed(words_in_range(role, oracle), (3, layer), *enumerate(node, HEADER_WORDS + 3))


def leaf_calls(calls, oracle, layer, node):
    """No inclusion beside a block with passes, measured, written and read."""
    writer = asked_of(calls, oracle, with_leaf(1, oracle, layer, node))
    writer.measure(0, 0, [1, 0], [5], [0])
    front = writer.write([1, 0], [5], [0])
    asked_of(calls, oracle, with_leaf(2, oracle, layer, node)).read(front)


def long_codes(calls, oracle):
    """A thousand zeros written and read, left out without passes, and read from a full header without passes; all that a last layer can
    have, measured and read past the input's end."""
    for layer, low, count in ((CRATE_LAYERS + 1, 0, 1), (NOT_YET_INCLUDED - 1, NOT_YET_INCLUDED - 1000, 0)):
        node = [NOT_YET_INCLUDED, low, 0]
        front = asked_of(calls, oracle, with_node(1, layer, node)).write([count], [5] * count, [0] * count)
        asked_of(calls, oracle, with_node(2, layer, node)).read(front)
    asked_of(calls, oracle, with_node(2, layer, node)).read([0x80] + [0] * 125)
    fresh = [NOT_YET_INCLUDED, 0, 0]
    asked_of(calls, oracle, with_node(1, NOT_YET_INCLUDED - 1, fresh)).measure(0, 0, [1], [5], [0])
    asked_of(calls, oracle, with_node(2, NOT_YET_INCLUDED - 1, fresh)).read([0x80])


def set_to_999(calls, oracle, layer):
    """A second block without passes whose node says layer 999, as far as the layer is known."""
    node = [CRATE_LAYERS, layer, 0]
    writer = asked_of(calls, oracle, with_leaf(1, oracle, layer, node))
    writer.measure(0, 0, [1, 1], [2, 3], [0, 0])
    front = writer.write([1, 0], [2], [0])
    asked_of(calls, oracle, with_leaf(2, oracle, layer, node)).read(front)


def trip(calls, first, packets, full):
    """Packets of two blocks from a layer on, with none before, written and read; full: the same with full headers without passes, read."""
    writer, reader, fronts = Asked(calls, Scope()), Asked(calls, Scope()), []
    writer.load(told_absent(started(1, TWO, 0, [8, 5]), first))
    for counts in packets:
        fronts.append(writer.write(counts, [4] * sum(counts), [0] * sum(counts)))
    after_last(calls, 1)
    for fronts in fronts, [list(bytes.fromhex(front)) for front in full]:
        reader.load(told_absent(started(2, TWO, 0, []), first))
        for front in fronts:
            reader.read(front)
        after_last(calls, 2)


def after_last(calls, role):
    if calls.state[3] == NOT_YET_INCLUDED:
        refused(calls, role, 6)


# ---- headers that end too early

def cut_list(oracle):
    """A to L and others cut at each byte, each from the state before it; then states with much to be told, and refusals."""
    calls = Calls("cut")
    one = lambda n, size: ([n], last(n, size), [0] * n)
    none = ([0], [], [])
    for packets in ([one(1, 5)], [one(1, 8)], [one(2, 15)], [one(37, 200)], [one(16, 511)], [none, one(1, 5), one(1, 3)]):
        cut_at_each_byte(calls, oracle, ONE, 0, [8], packets)
    k = ([1, 1], [5, 5], [0, 0])
    cut_at_each_byte(calls, oracle, TWO, 0, [8, 7], [k])
    for style, n in ((1, 13), (0, 110), (4, 5)):
        marks = [int(generator.last_of_segment(style, p) and p + 1 < n) for p in range(n)]
        cut_at_each_byte(calls, oracle, ONE, style, [8], [([n], [1] * n, marks)])
    for sop, eph in MARKERS[1:]:
        cut_at_each_byte(calls, oracle, ONE, 0, [8], [one(1, 5)], sop, eph)
    cut_at_each_byte(calls, oracle, ONE, 0, [5], [one(37, 200)], 1, 1)
    cut_at_each_byte(calls, oracle, TWO, 0, [8, 7], [k], 1, 1)
    some = [([1, 0, 2, 0, 0, 37, 1], [3] * 41, [0] * 41), ([2, 1, 0, 0, 0, 1, 6], [70] * 10, [0] * 10)]
    cut_at_each_byte(calls, oracle, WIDE, 0, [8, 6, 7, 5, 6, 4, 6], some)
    for layer, low in ((10, 0), (700, 100), *((layer, layer - 300) for layer in LAYERS)):
        for data in ("", "80", "8000", "c0", "ff"):
            asked_of(calls, oracle, with_node(2, layer, [NOT_YET_INCLUDED, low, 0])).read(list(bytes.fromhex(data)))
    cut_refusals(calls, oracle)
    return calls


def cut_at_each_byte(calls, oracle, bands, style, planes, packets, sop=0, eph=0):
    """packets: counts, lengths and marks. A header is read up to each of its bytes, and at last whole."""
    writer, reader = Scope(), Scope()
    writer.state, reader.state = started(1, bands, style, planes), started(2, bands, style, [])
    for k, (counts, lengths, marks) in enumerate(packets):
        written = writer.ask("write %d %d %d %d / %s / %s / %s / *"
            % (sop, eph, 255 + 256 * k, AMPLE, spaced(counts), spaced(lengths), spaced(marks)))
        front = list(bytes.fromhex(written.split()[2]))
        for end in range(len(front) + 1):
            asked_of(calls, oracle, reader.words()).read(front[:end], sop, eph)
        reader.ask("read %d %d %s" % (sop, eph, hexed(front)))


def cut_refusals(calls, oracle):
    """9 behind bits past the end, 12, and 13 behind bits past the end: none of them tells any."""
    words = words_in_range(2, oracle)
    block = len(words) - 8
    wide = changed(words, (2, 0), (block + 1, 32), (block + 2, 109))
    asked_of(calls, oracle, wide).read([0xfc])
    calls.load(started(2, ONE, 0, []))
    calls.read(0, 0, [0xef], 4, 0, refused_read(13), from_crate=False)
    calls.read(0, 0, [], 5, 0, refused_read(3), from_crate=False)
    asked_of(calls, oracle, started(2, ONE, 0, [])).read([0xfe, 0xad, 0xff])


# ---- big geometries

def big_case(calls, oracles, seed, bands, style, most):
    """Layers with some blocks of a big precinct each, written, and read from what was written."""
    rng = random.Random("big/%d/%s" % (seed, bands))
    writer, reader = Asked(calls, oracles[0]), Asked(calls, oracles[1])
    blocks, passes, fronts = blocks_of(bands), None, []
    # a few values side by side keep the list short
    planes = []
    for w, h, p in bands:
        while len(planes) < sum(a * b for a, b, _ in bands[:1 + bands.index((w, h, p))]):
            planes += [max(0, p - rng.randrange(4))] * rng.randrange(w, 4 * w + 1)
        planes = planes[:sum(a * b for a, b, _ in bands[:1 + bands.index((w, h, p))])]
    passes = [0] * blocks
    writer.start(1, bands, style, planes)
    for _ in range(2):
        counts = [0] * blocks
        for at in [rng.randrange(blocks) for _ in range(most)] + [0, blocks - 1]:
            counts[at] = rng.choice([1, 1, 2, 3, 7])
        marks = generator.some_marks(rng, style, passes, counts, "matching")
        lengths = [rng.randrange(40) for _ in marks]
        passes = [p + c for p, c in zip(passes, counts)]
        sop, eph = rng.randrange(2), rng.randrange(2)
        fronts.append((sop, eph, writer.write(counts, lengths, marks, sop=sop, eph=eph, packet=rng.randrange(1 << 17))))
    reader.start(2, bands, style, [])
    for sop, eph, front in fronts:
        reader.read(front, sop, eph)


def big_list(oracles, seed):
    """Big geometries, up to three bands of 64 × 64."""
    calls = Calls("big")
    for bands, style, most in (
            ([(64, 64, 9)], 0, 8), ([(64, 64, 8)], 4, 5), ([(64, 64, 7), (64, 64, 8), (64, 64, 9)], 1, 8),
            ([(64, 1, 12), (1, 64, 12), (33, 63, 10)], 0, 6),
            ([(63, 64, 7), (64, 63, 6)], 0x2a, 5), ([(32, 32, 20), (31, 33, 21), (17, 16, 22)], 5, 4),
            ([(5, 64, MOST_PLANES), (64, 3, MOST_PLANES), (0, 64, 1)], 4, 4),
            ([(64, 64, 0), (2, 1, 3)], 0, 5), ([(9, 9, 6), (10, 10, 7)], 1, 6)):
        big_case(calls, oracles, seed, bands, style, most)
    return calls


# ---- the lists

def main():
    parser = argparse.ArgumentParser(description=__doc__, formatter_class=argparse.RawDescriptionHelpFormatter)
    add_program(parser)
    parser.add_argument("--seed", type=int, default=6)
    parser.add_argument("--out", help="another folder for the lists")
    args = parser.parse_args()
    folder = args.out or os.path.join(os.path.dirname(os.path.abspath(__file__)), "..", "crates", "vectors", "data")
    oracles = [Oracle(args.program) for _ in range(3)]
    alone = [Oracle(args.program, alone=True) for _ in range(3)]

    lists = [hand_list(oracles[0]), absent_list(oracles[0]), published_list(oracles[0])]
    for name, kinds, side, answers in (
            ("writes", [generator.writer_run, generator.trip_run], "writer", 110),
            ("loaded", [generator.loaded_writer_run], "writer", 60),
            ("reads", [generator.trip_run], "reader", 70),
            ("damaged", [generator.reader_run], "reader", 90),
            ("markers", [marker_run], "reader", 60),
            ("reloaded", [generator.loaded_reader_run], "reader", 60)):
        lists.append(put_random(Calls(name), oracles if side == "writer" else alone, args.seed, kinds, side, answers, 60))
    lists.append(cut_list(oracles[0]))
    lists.append(big_list(oracles, args.seed))
    lists.append(layer_list(oracles[0]))
    lists.append(refusal_list(oracles[0]))
    for o in oracles + alone:
        o.close()
    for calls in lists:
        calls.write_file(folder)
        print("  %-10s %5d bytes, %4d answers, %4d of them the crate's" % (calls.name, len(calls.bytes()), calls.answers, calls.crate))
    print("the crate's answers: %d of %d" % (sum(c.crate for c in lists), sum(c.answers for c in lists)))


if __name__ == "__main__":
    main()
