#!/usr/bin/env python3
"""Compares the definitions of crates/t800 with crate openjp2's own answers on random runs of calls, and where the crate is not asked with
the scope (docs/SCOPE.md) as plain Python. In the repository's root:

    (cd rust && OPENJP2_SRC=FOLDER cargo build --release --bin crate_answers)   # FOLDER is the src folder of the crate's sources
    python3 tools/compare_definitions.py --runs 600 --seed 1 [--jobs 2] [--keep DIR]

crate_answers runs the code of crate openjp2 0.6.1; rust/compare/src/answers.rs says how it is asked. Each run is one precinct with some
calls on it. The calls come from a seeded generator. In runs of the kinds `later` the states are in any layer, with any value in the
inclusion trees, and the answers are those of scope.py, written from the scope's text. So they are in runs of the kinds `layers`, layers of
up to 16 precincts that are written whole or not at all, and `gathered`, rows whose headers are moved in front and back and headers read
from there: with every number that such calls give on small lists, from lists that fit and from damaged ones. In all others the layer is
below 999, and every answer, and the whole state after every call, comes from the crate; scope.py is asked beside it and must agree. Packets
without passes, which the crate writes otherwise, are written by scope.py alone; the crate's writer goes on from the words after them, and
its reader reads them. A run becomes one row of crates/t800/proofs/Table.antt. Rows stand in chunks, each a crate of a temporary repository
beside a copy of crates/t800, outside the project and no part of its tests; `rt all check` computes the definitions on them and proves
`failing 0 rows ≡ []`.

The bits that a read takes past the input's end, which the crate doesn't count, are scope.py's in every run.

How answers are matched: write `ok` 0, `panic` 9, `failed` 11; read `ok` 0, `failed width` 9, `failed align` 12. Where a call fails on a
short output and the same call panics with room enough, the scope puts 9 before 11, and the row says 9; such calls are counted. The crate
has none of the other numbers, and of these, layers apart, only 6 is compared, by scope.py. After a call that fails, crate_answers puts the
precinct back, while the crate leaves its trees as far as it came: that a refused call leaves the state alone is the scope's demand, which
the row checks.

The exit status is 0 only if every chunk is proved, no answer was outside that list and scope.py agreed with the crate. For a chunk that is
not proved the failing runs are named, and for the smallest of all the calls up to the first one that differs.
"""
import argparse
import collections
import os
import random
import re
import resource
import shutil
import subprocess
import sys
import tempfile
import time

import gathered_calls
import layer_calls
from scope import LAYERS_REFUSED, NOT_YET_INCLUDED, NOT_YET_PLANES, READ_REFUSALS, Scope, blocks_in, hexed, level_sizes, spaced
from scope import stuffed, whole, without_count

MOST_PLANES = 998
CRATE_LAYERS = 999       # the crate is asked below this layer
AMPLE = 1 << 20
BODY_MOST = 300          # longer bodies are not built: the header alone is computed
SEGMENT_MOST = (1 << 31) - 1
ZEROS_MOST = CRATE_LAYERS    # a node's low is at most so far below the layer: more zeros take too long to compute
COST_MOST = 300000       # of a chunk, by `cost_of`: some seconds, and below 2 GB
PROGRAM = os.path.join(os.path.dirname(os.path.abspath(__file__)), "..", "rust", "target", "release", "crate_answers")


def add_program(parser):
    parser.add_argument("program", nargs="?", default=PROGRAM, help="crate_answers, if it is not in rust/target/release")


class Oracle:
    """The crate, asked line by line; but a packet without passes is written by the scope, unless the crate stands alone."""

    def __init__(self, program, alone=False):
        if not os.path.exists(program):
            raise SystemExit("there is no %s: the head of this file says how it is built" % os.path.normpath(program))
        self.proc = subprocess.Popen([program], stdin=subprocess.PIPE, stdout=subprocess.PIPE, text=True, bufsize=1)
        self.alone = alone
        self.empty = "0"     # how the crate is shown a band without blocks

    def ask(self, line):
        name, *rest = line.split()
        if name in ("start", "load"):
            self.empty = rest[1] if name == "start" else rest[0]
        if name == "write" and not self.alone and not any(whole(line.split("/")[1])):
            return self.ask_scope(line)
        return self.ask_crate(line)

    def ask_scope(self, line):
        """The scope's answer; the crate goes on from the words after it."""
        scope = Scope()
        scope.state = self.words()
        answer = scope.ask(line)
        if self.ask_crate("load %s %s" % (self.empty, spaced(scope.words()))) != "ok":
            raise SystemExit("no load after: " + line)
        return answer

    def ask_crate(self, line):
        """The crate's own answer, whatever the line."""
        self.proc.stdin.write(line + "\n")
        self.proc.stdin.flush()
        answer = self.proc.stdout.readline()
        if not answer:
            raise SystemExit("crate_answers ended at: " + line)
        return answer.rstrip()

    def words(self):
        answer = self.ask_crate("dump").split()
        if answer[0] != "ok":
            raise SystemExit("no dump: " + " ".join(answer))
        return [int(x) for x in answer[1:]]

    def close(self):
        self.proc.stdin.close()
        self.proc.wait()


class Unexpected(Exception):
    """An answer that has no number in the scope."""


class Disagreement(Exception):
    """The crate answers other than the scope as plain Python."""


# ---- rows as text

def nats(xs):
    return "(" + "".join("%d ∷ " % x for x in xs) + "[])"


def yes(b):
    return "true" if b else "false"


def markers(sop, eph):
    return "record { sop = %s; eph = %s }" % (yes(sop), yes(eph))


# ---- one run

# As Table names them.
LOADS = {"writer": "loads_writer", "reader": "loads-reader"}
HOLDS = {"writer": "holds-writer", "reader": "holds-reader"}


class Run:
    """A precinct, the steps of its row, and what was asked of the crate for them."""

    def __init__(self, rng, oracles, tally, bands, style, planes, kind):
        self.rng, self.tally, self.kind = rng, tally, kind
        self.writer, self.reader, self.probe = oracles
        self.crate, self.scope = True, Scope()
        self.bands, self.style, self.planes = bands, style, planes
        self.blocks = sum(w * h for w, h, _ in bands)
        self.empty = rng.randrange(2)
        self.steps = []        # text of a step
        self.calls = []        # the same calls for other tools: side, name, what was given and told
        self.log = []          # (steps so far, side, command, answer)
        self.passes = [0] * self.blocks
        self.layer = 0         # of the loaded state
        self.counts = set()    # written
        self.depths = [len(level_sizes(w, h)) for w, h, _ in bands for _ in range(w * h)]
        self.cost = 0

    # the crate's side

    def ask_the_scope(self):
        """From here on the crate is not asked."""
        self.crate = False
        self.writer, self.reader, self.probe = Scope(), Scope(), Scope()

    def tell(self, side, line):
        answer = (self.writer if side == "writer" else self.reader).ask(line)
        self.log.append((len(self.steps), side, line, answer))
        if " note:" in answer or answer == "bad":
            raise Unexpected("%s -> %s" % (line, answer))
        return answer

    def agree(self, own, before, line, answer, after):
        """The scope as plain Python answers as the crate does, where the answer is the crate's own. Gives the scope's answer."""
        self.tally["answers of the crate, the scope agreeing" if own else "answers of the scope alone"] += 1
        if not own:
            return answer
        self.scope.state = before
        told = self.scope.ask(line)
        if without_count(told).split() != answer.split() or self.scope.words() != after:
            raise Disagreement("%s -> %s, by the scope %s" % (line, answer, told))
        return told

    def start(self, side):
        geometry = spaced(spaced(b) for b in self.bands)
        planes = self.planes if side == "writer" else []
        line = "start %s %d %d %s %d %s" % (side, self.empty, len(self.bands), geometry, self.style, spaced(planes))
        answer, after = self.tell(side, line), self.holds(side)
        self.agree(self.crate, [], line, answer, after)
        self.calls.append((side, "start", dict(after=after)))

    def load(self, side, words):
        self.tell(side, "load %d %s" % (self.empty, spaced(words)))
        self.steps.append("%s %s" % (LOADS[side], nats(words)))
        self.layer = words[3]
        self.holds(side)
        self.calls.append((side, "load", dict(words=words)))

    def holds(self, side):
        words = (self.writer if side == "writer" else self.reader).words()
        self.steps.append("%s %s" % (HOLDS[side], nats(words)))
        return words

    def on_probe(self, words, line):
        if self.probe.ask("load %d %s" % (self.empty, spaced(words))) != "ok":
            raise Unexpected("load of a dumped state")
        return self.probe.ask(line)

    # calls

    def write(self, sop, eph, number, counts, lengths, marks, body, room):
        """body: "*" or "!"; room: "exact", "more", "short". Gives the packet less its body, or None."""
        words = self.writer.words()
        self.cost += self.cost_of(words, "")
        lists = "/ %s / %s / %s / %s" % (spaced(counts), spaced(lengths), spaced(marks), body)
        ample = self.on_probe(words, "write %d %d %d %d %s" % (sop, eph, number, AMPLE, lists)).split()
        size = int(ample[1]) if ample[0] == "ok" else self.rng.randrange(60)
        if body == "!":
            room = AMPLE
        elif room == "short":
            room = self.rng.choice([max(0, size - 1), self.rng.randrange(size) if size else 0, 0])
        else:
            room = size + (0 if room == "exact" else self.rng.randrange(1, 9))
        line = "write %d %d %d %d %s" % (sop, eph, number, room, lists)
        answer = self.tell("writer", line).split()
        front = []
        if answer[0] == "ok":
            why = 0
            front = list(bytes.fromhex(answer[2])) if answer[2] != "-" else []
            if answer[3] != "body=" or int(answer[1]) != len(front) + (sum(lengths) if body == "*" else 0):
                raise Unexpected(spaced(answer))
        elif answer == ["panic"]:
            why = 9
        elif answer == ["failed"]:
            why = 11
            if ample[0] == "panic":
                why, answer = 9, ample
                self.tally["9 where a short output made the crate fail first"] += 1
        elif answer == LAYERS_REFUSED.split():
            why = 6
        else:
            raise Unexpected(spaced(answer))
        call = "record { contribution = record { counts = %s; lengths = %s; marks = %s }; markers = %s; "\
            "number = %d; scratch = %d; body = %d; output = %d }" % (
            nats(counts), nats(lengths), nats(marks), markers(sop, eph), number, len(words), sum(lengths), room if body == "*" else 0)
        name = "writes" if body == "*" else "heads"
        self.steps.append("%s (%s) %d %s" % (name, call, why, nats(front)))
        self.tally["%s %d" % (name, why)] += 1
        if why == 0:
            self.tally["headers written that end in FF 00"] += front[-2 - 2 * eph:len(front) - 2 * eph] == [0xff, 0]
            self.tally["packets written without passes"] += not any(counts)
            self.passes = [p + c for p, c in zip(self.passes, counts)]
            self.counts.update(c for c in counts if c)
        after = self.holds("writer")
        own = self.crate and any(counts)
        self.agree(own, words, line, spaced(answer), after)
        self.calls.append(("writer", name, dict(
            own=own, before=words, sop=sop, eph=eph, number=number, counts=counts, lengths=lengths, marks=marks, room=room,
            refusal=why, front=front, after=after)))
        return front if why == 0 else None

    def cost_of(self, words, answer):
        """About what it takes to compute a call: some lookups a block in a list of so many words; a path for each step of a read's zero
        planes, which takes the most memory."""
        basic = 5 * self.blocks * len(words)
        if not answer.startswith("ok ") or "/" not in answer:
            return basic
        reports = [int(x) for x in answer.split("/")[1].split()]
        return basic + sum((reports[4 * k + 1] + 1) * d * len(words) * 10 // 3 for k, d in enumerate(self.depths) if reports[4 * k] == 1)

    def read(self, sop, eph, data):
        """The refusal or 0; None if the read was left out because it would take too long to compute."""
        words = self.reader.words()
        line = "read %d %d %s" % (sop, eph, hexed(data))
        cost = self.cost_of(words, self.on_probe(words, line))
        if self.cost + cost > COST_MOST:
            self.tally["reads left out, too long to compute"] += 1
            return None
        self.cost += cost
        answer = self.agree(self.crate, words, line, self.tell("reader", line), self.reader.words())
        if answer.startswith("ok "):
            first, reports, records = [[int(x) for x in part.split()] for part in answer[3:].split("/")]
            told = [0] + first
            lent = first[2] + self.rng.choice([0, 0, 1, 3])
        elif answer in READ_REFUSALS:
            told = [READ_REFUSALS[answer], 0, 0, 0, 0, 0, 0]
            reports, records = [], []
            # a record for each segment that could come first: each has three bits or more of the input, or is of one block after its end
            lent = min(164 * self.blocks, 8 * len(data) // 3 + 164 + self.blocks)
        else:
            raise Unexpected(answer)
        call = "record { markers = %s; input = %s; scratch = %d; reports = %d; records = %d }" % (
            markers(sop, eph), nats(data), len(words), 4 * self.blocks, 4 * lent)
        self.steps.append("reads (%s) %s %s %s" % (call, nats(told), nats(reports), nats(records)))
        self.tally["reads %d" % told[0]] += 1
        if told[0] == 0:
            self.tally["reads present" if told[1] else "reads absent"] += 1
            self.tally["reads SOP mark %d" % told[4]] += 1
            self.tally["reads EPH mark %d" % told[5]] += 1
            self.tally["reads absent, with EPH found"] += not told[1] and eph and told[5] == 0
            self.tally["reads with more zero planes than the band has"] += any(x > NOT_YET_PLANES for x in reports)
            self.tally["reads with %d zero planes" % NOT_YET_PLANES] += bool(told[1]) and any(x == NOT_YET_PLANES for x in reports[1::4])
            self.tally["reads with a length of 2^31 or more"] += any(x >= 1 << 31 for x in records[3::4])
            self.tally["reads with bits past the end"] += told[6] > 0
            self.tally["reads with 100 bits or more past the end"] += told[6] >= 100
        after = self.holds("reader")
        self.calls.append(("reader", "reads", dict(
            sop=sop, eph=eph, data=data, reports=4 * self.blocks, records=4 * lent, told=told,
            rows=(reports, records), after=after)))
        return told[0]

    def write_layer(self, call):
        told = layer_calls.told(call, 0, 0)
        refusal, place, size = told.answer
        self.steps.append("writes_layer (record { states = %s; contribution = record { counts = %s; lengths = %s; marks = %s }; "
            "bodies = %s; markers = %s; numbers = %s; scratch = %d; output = %d }) %s %s %s" % (nats(call.states), nats(call.counts),
            nats(call.lengths), nats(call.marks), nats(call.bodies), markers(call.sop, call.eph), nats(call.numbers), call.scratch,
            call.output, nats(told.answer), nats(told.output[:size]), nats(told.states)))
        self.log.append((len(self.steps) - 1, "layer", str(call), str(told.answer)))
        self.tally["layers %d" % refusal] += 1
        self.tally["layers: refused at place %d" % place] += refusal not in (0, layer_calls.PRECINCTS_REFUSED)
        self.cost += len(call.states) // 4

    def gathered(self, call):
        """A call with headers gathered in front, unless it would take too long to compute."""
        cost = gathered_calls.cost_of(call)
        if self.cost + cost > COST_MOST:
            self.tally["calls with gathered headers left out, too long to compute"] += 1
            return
        self.cost += cost
        told = gathered_calls.told(call)
        name, step = {gathered_calls.ReadCall: ("reads gathered", self.read_gathered), gathered_calls.GatherCall: ("gathers", self.gather),
            gathered_calls.SpreadCall: ("spreads", self.spread)}[type(call)]
        step(call, told)
        self.log.append((len(self.steps) - 1, name, str(call), str(told.answer)))
        self.tally["%s %d" % (name, told.answer[0])] += 1

    def read_gathered(self, call, told):
        accepted, segments = told.answer[0] == 0, told.answer[4]
        beside = "record { markers = %s; input = %s; scratch = %d; reports = %d; records = %d }" % (
            markers(call.sop, call.eph), nats(call.src), call.scratch, call.reports, call.records)
        self.steps.append("%s %s" % (LOADS["reader"], nats(call.state)))
        self.steps.append("reads_gathered (record { headers = %s; beside = %s }) %s %s %s" % (nats(call.headers), beside,
            nats(told.answer), nats(told.reports if accepted else []), nats(told.records[:4 * segments])))
        self.steps.append("%s %s" % (HOLDS["reader"], nats(told.state)))
        self.tally["reads gathered with bits past the end"] += told.answer[7] > 0

    @staticmethod
    def moving(call):
        return "record { states = %s; scratch = %d; places = %s; markers = %s }" % (
            nats(call.states), call.scratch, nats(call.places), markers(call.sop, call.eph))

    def gather(self, call, told):
        refusal, headers, bodies = told.answer
        self.steps.append("gathers (record { row = %s; with = %s; headers = %d; bodies = %d }) %d %s %s %s" % (
            nats(call.row), self.moving(call), call.headers, call.bodies, refusal, nats(told.headers[:headers]),
            nats(told.bodies[:bodies]), nats([] if refusal else told.scratch)))

    def spread(self, call, told):
        refusal, size = told.answer
        self.steps.append("spreads (record { headers = %s; bodies = %s; with = %s; row = %d }) %d %s %s" % (
            nats(call.headers), nats(call.bodies), self.moving(call), call.row, refusal, nats(told.row[:size]),
            nats([] if refusal else told.scratch)))

    def row(self, steps=None):
        bands = "".join("record { across = %d; down = %d; planes = %d } ∷ " % b for b in self.bands)
        body = "".join("\n      %s ∷" % s for s in (self.steps if steps is None else self.steps[:steps]))
        return "record { given = %s[]; planes = %s; style = %d; steps =%s [] }" % (bands, nats(self.planes), self.style, body)


# ---- random parts

def some_side(rng):
    return rng.choice([0, 1, 1, 1, 1, 2, 2, 2, 3, 3, 4])


def some_bands(rng, most):
    while True:
        bands = []
        for _ in range(rng.choice([1, 1, 1, 2, 2, 3])):
            planes = rng.choice([rng.randrange(9), rng.randrange(9), rng.randrange(41),
                rng.choice([0, 1, 37, MOST_PLANES, rng.randrange(MOST_PLANES + 1)])])
            bands.append((some_side(rng), some_side(rng), planes))
        blocks = sum(w * h for w, h, _ in bands)
        if blocks <= most and (blocks or rng.random() < 0.1):
            return bands


def some_shape(rng):
    bands = some_bands(rng, rng.choice([2, 4, 6, 8, 12, 16, 16] if rng.random() < 0.35 else [1, 2, 4, 6, 8]))
    if rng.random() < 0.02:
        bands = [(rng.randrange(3, 5), rng.randrange(3, 5), rng.randrange(9)) for _ in range(3)]
    style = rng.choice([0, 0, 1, 1, 4, 5, rng.randrange(64), rng.randrange(64)])
    planes = []
    deep = rng.random() < 0.04
    for w, h, p in bands:
        for _ in range(w * h):
            zero = rng.choice([0, 0, 1, 2, rng.randrange(5), rng.randrange(5), rng.randrange(25) if rng.random() < 0.2 else 1])
            if deep and rng.random() < 0.3:
                zero = rng.randrange(MOST_PLANES + 1)
            planes.append(max(0, p - zero))
    return bands, style, planes


def some_count(rng, many):
    if rng.random() < many:
        return rng.choice([9, 10, 11, 12, 13, 36, 37, 109, 110, 164] + [rng.randrange(1, 165) for _ in range(6)]
            + [rng.randrange(6, 37) for _ in range(6)])
    return rng.choice([1, 1, 1, 2, 2, 3, 4, 5, 6, 7, 8])


def last_of_segment(style, p):
    """Whether the style ends a segment with pass p of a block."""
    if style & 4:
        return True
    if style & 1:
        return p == 9 or (p > 9 and (p - 10) % 3 != 0)
    return p % 109 == 108


def some_marks(rng, style, so_far, counts, how):
    marks = []
    for p, c in zip(so_far, counts):
        for k in range(c):
            if how == "matching":
                m = last_of_segment(style, p + k) if k + 1 < c or rng.random() < 0.5 else rng.random() < 0.5
            else:
                m = {"all": True, "none": False, "some": rng.random() < 0.3}[how]
            marks.append(int(m))
    return marks


def some_length(rng, bits):
    k = bits if rng.random() < 0.25 else rng.randrange(bits + 1)
    return rng.choice([0, (1 << k) - 1, 1 << k, rng.randrange(1 << k), rng.randrange(1 << k)])


def some_lengths(rng, counts, marks, bits):
    """Pass lengths, no segment of 2^31 bytes or more."""
    lengths = []
    for c in counts:
        segment = 0
        sparse = rng.random() < 0.5
        for k in range(c):
            n = 0 if sparse and c > 4 and rng.random() < 0.9 else some_length(rng, bits)
            n = min(n, SEGMENT_MOST - segment)
            segment += n
            if marks[len(lengths)] or k + 1 == c:
                segment = 0
            lengths.append(n)
    return lengths


def some_number(rng):
    return rng.choice([0, 1, 255, 256, 65535, 65536, 65537, rng.randrange(1 << 32)])


def some_contribution(rng, run, how, bits, density, many):
    counts = [some_count(rng, many) if rng.random() < density else 0 for _ in range(run.blocks)]
    marks = some_marks(rng, run.style, run.passes, counts, how)
    return counts, some_lengths(rng, counts, marks, bits), marks


def ending_in_ff(rng, run, how, sop):
    """A contribution whose header ends in FF, so that a 00 follows; or the last one tried."""
    words = run.writer.words()
    for _ in range(60):
        counts = [rng.choice([0, 1, 2, 3]) for _ in range(run.blocks - 1)] + [rng.choice([1, 1, 2, 4])]
        marks = some_marks(rng, run.style, run.passes, counts, how)
        lengths = some_lengths(rng, counts, marks, 3)
        lengths[-1] = (1 << rng.randrange(4, 9)) - 1
        answer = run.on_probe(words, "write %d 0 0 %d / %s / %s / %s / !" % (sop, AMPLE, spaced(counts), spaced(lengths), spaced(marks)))
        if answer.startswith("ok ") and answer.split()[2].endswith("ff00"):
            break
    return counts, lengths, marks


def some_bytes(rng, most):
    n = rng.randrange(most + 1)
    mode = rng.randrange(4)
    out = []
    if mode == 3:
        # a run of ones about as long as an increment can be
        bits = rng.choice([[1, 1, 1, 0], [1, 1, 0], [1, 1, 1, 1, 0]]) if rng.random() < 0.6 else (
            [1] + [rng.randrange(2) for _ in range(rng.randrange(9))])
        bits += [1] * rng.choice([rng.randrange(33), 27, 28, 29, 30]) + [0] + [rng.randrange(2) for _ in range(8 * n)]
        return stuffed(bits)
    for _ in range(n):
        if mode == 0:
            out.append(rng.randrange(256))
        else:
            out.append(rng.choice([0xff, 0xff, 0x7f, 0x00, 0x80, 0xfe, 0x91, 0x92, rng.randrange(256), rng.randrange(256)]))
    if out and rng.random() < 0.8:
        out[0] |= 0x80
    return out


def damaged(rng, data):
    data = list(data)
    for _ in range(rng.choice([1, 1, 2, 3])):
        at = rng.randrange(len(data)) if data else 0
        how = rng.randrange(6)
        if how == 0 and data:
            data[at] ^= 1 << rng.randrange(8)
        elif how == 1 and data:
            del data[at]
        elif how == 2:
            data.insert(at, rng.choice([0xff, 0, rng.randrange(256)]))
        elif how == 3:
            data = data[:at]
        elif how == 4 and 0xff in data:
            data = data[:data.index(0xff) + 1]
        elif data:
            data[at] = rng.choice([0xff, 0x7f, 0])
    return data


def marker_trouble(rng, data, eph):
    """The header with a part of a marker missing, or a marker where none is due."""
    data = list(data)
    how = rng.randrange(5)
    if how == 0 and data[:2] == [0xff, 0x91]:
        data = data[rng.randrange(1, 7):]
    elif how == 1:
        data = [0xff, 0x91] + data
    elif how == 2:
        data = [0xff, 0x91, 0, 4, 0, 0][:rng.randrange(7)]
    elif how == 3 and eph and len(data) >= 2:
        data = data[:len(data) - rng.randrange(1, 3)]
    elif len(data) >= 2:
        data[rng.choice([0, 1, -1, -2])] ^= rng.choice([1, 2, 0xff])
    return data


def hunted(rng, run, sop, eph, base, wanted, tries):
    """An input that the crate answers as wanted, on a reader as it is now; or the last one tried."""
    words = run.reader.words()
    data = list(base)
    for _ in range(tries):
        if run.probe.ask("load %d %s" % (run.empty, spaced(words))) != "ok":
            raise Unexpected("load of a dumped state")
        how = rng.random()
        if base and how < 0.4:
            data = damaged(rng, base)
        elif base and how < 0.7:
            data = list(base[:rng.randrange(len(base) + 1)]) + [0xff]
        else:
            data = some_bytes(rng, 14)
        if run.probe.ask("read %d %d %s" % (sop, eph, hexed(data))) == wanted:
            return data, True
    return data, False


def some_state(rng, role, bands, style, layer, later=CRATE_LAYERS):
    """Words in the ranges of refusal 5, reachable or not. Inclusion values from `later` on are "not yet"."""
    words = [role, len(bands), style, layer]
    for i in range(3):
        words += list(bands[i]) if i < len(bands) else [0, 0, 0]
    limits = [1] if style & 4 else [10, 2, 1] if style & 1 else [109]
    wild = rng.random() < 0.12
    far = rng.random() < 0.1
    wide = rng.random() < 0.3

    least = max(0, layer - ZEROS_MOST)

    def incl():
        if wild and rng.random() < 0.3:
            value = rng.randrange(later + 1)
        else:
            value = max(0, rng.choice([layer, layer, layer - 1, layer + 1, layer + 2, layer - 3, NOT_YET_INCLUDED,
                rng.randrange(layer + 1) if far else layer]))
        return value if value < later else NOT_YET_INCLUDED

    def incl_low():
        if wild and rng.random() < 0.3:
            return rng.randrange(least, later + 1)
        return min(later, max(0, rng.choice([layer, layer, layer - 1, layer - 1, layer + 1, layer - 2,
            least if far or layer < 5 else layer])))

    def zero():
        if (wild and rng.random() < 0.1) or (far and rng.random() < 0.1):
            return rng.choice([NOT_YET_PLANES, rng.randrange(NOT_YET_PLANES + 1)])
        if role == 2 and rng.random() < 0.5:
            return NOT_YET_PLANES
        return rng.randrange(7)

    def zero_low():
        if wild and rng.random() < 0.1:
            return rng.randrange(NOT_YET_PLANES + 1)
        return rng.randrange(5)

    old = rng.choice([0.2, 0.5, 0.8])
    for w, h, _ in bands:
        nodes = sum(level_sizes(w, h))
        for _ in range(nodes):
            words += [incl(), incl_low(), rng.randrange(2)]
        for _ in range(nodes):
            words += [zero(), zero_low(), rng.randrange(2)]
        for _ in range(w * h):
            if rng.random() < old:
                most = 164 * layer
                passes = rng.choice([1, 2, 9, 10, 12, 13, 109, rng.randrange(1, most + 1), most])
                bits = rng.randrange(30, 33) if wide else rng.choice([3, 3, 3, 4, 5, 6, 10, 31, 32, rng.randrange(3, 33)])
                limit = rng.choice(limits)
                used = rng.choice([1, limit, rng.randrange(1, limit + 1)])
                words += [min(passes, most), bits] + ([limit, used] if role == 2 else [0, 0])
            else:
                words += [0, 0, 0, 0]
    return words


# ---- kinds of runs

def passes_in(words, bands):
    out, at = [], 13
    for w, h, _ in bands:
        at += 6 * sum(level_sizes(w, h))
        for _ in range(w * h):
            out.append(words[at])
            at += 4
    return out


def writing(rng, run, how, layers, large):
    """Some writing calls on the run's writer."""
    for _ in range(layers):
        if run.cost > COST_MOST:
            break
        density = rng.choice([0, 0.2, 0.5, 0.5, 0.9, 1])
        big = large and rng.random() < 0.7
        bits = rng.choice([12, 20, 31, 31, 31]) if big else rng.choice([2, 3, 4, 5, 6])
        sop, eph = rng.randrange(2), rng.randrange(2)
        if run.blocks and rng.random() < 0.12:
            counts, lengths, marks = ending_in_ff(rng, run, how, sop)
        else:
            counts, lengths, marks = some_contribution(rng, run, how, bits, density, 0.3 if run.blocks < 5 else 0.08)
        body = "*" if sum(lengths) <= BODY_MOST else "!"
        room = rng.choice(["exact", "exact", "more", "short"])
        front = run.write(sop, eph, some_number(rng), counts, lengths, marks, body, room)
        if front is None and rng.random() < 0.6:
            run.write(sop, eph, some_number(rng), counts, lengths, marks, body, "exact")


def writer_run(rng, run):
    run.start("writer")
    writing(rng, run, rng.choice(["matching", "some", "some", "all", "none"]), rng.randrange(1, 6), rng.random() < 0.5)


def absent_packet(rng, sop, eph):
    return [0xff, 0x91, 0, 4, 0, 0] * sop + [rng.choice([0, 0x7f, rng.randrange(128)])] + [0xff, 0x92] * eph


def some_input(rng, run, sop, eph, front):
    """An input for a read, where the crate's writer made `front` for it."""
    more = some_bytes(rng, 6)
    if rng.random() < 0.05:
        return absent_packet(rng, sop, eph) + more
    mode = rng.random()
    if mode < 0.40:
        return front + more
    if mode < 0.60:
        return damaged(rng, front + more)
    if mode < 0.70:
        return marker_trouble(rng, front + more, eph)
    if mode < 0.78:
        return some_bytes(rng, 20)
    if mode < 0.83:
        return front[:rng.randrange(len(front) + 1)]
    return hunted(rng, run, sop, eph, front, rng.choice(["failed align", "failed width"]), 150)[0]


def reader_run(rng, run):
    """A reader alone, fed with what the crate's writer made, damaged or not, and with other bytes."""
    run.start("reader")
    geometry = spaced(spaced(b) for b in run.bands)
    run.writer.ask("start writer %d %d %s %d %s" % (run.empty, len(run.bands), geometry, run.style, spaced(run.planes)))
    how = rng.choice(["matching", "matching", "matching", "some"])
    for _ in range(rng.randrange(1, 6)):
        counts, lengths, marks = some_contribution(rng, run, how, rng.choice([3, 5, 8, 12, 24]), rng.choice([0, 0.3, 0.6, 1]),
            0.25 if run.blocks < 5 else 0.06)
        sop, eph = rng.randrange(2), rng.randrange(2)
        answer = run.writer.ask_crate("write %d %d %d %d / %s / %s / %s / !"
            % (sop, eph, some_number(rng), AMPLE, spaced(counts), spaced(lengths), spaced(marks))).split()
        if answer[0] == "ok":
            front = list(bytes.fromhex(answer[2]))
            run.passes = [p + c for p, c in zip(run.passes, counts)]
        else:
            front = []
        if rng.random() < 0.1:
            sop, eph = rng.randrange(2), rng.randrange(2)
        data = some_input(rng, run, sop, eph, front)
        if run.read(sop, eph, data) and front and rng.random() < 0.5:
            run.read(sop, eph, front + some_bytes(rng, 3))


def read_back(rng, run, sop, eph, front):
    why = run.read(sop, eph, front + some_bytes(rng, 6))
    if why:
        raise Unexpected("the crate refuses to read its packet: %s" % run.log[-1][2])
    return why == 0


def trip_run(rng, run):
    """A writer with matching marks and a reader of its packets, in order; refused calls between them. The table asks the book too."""
    run.start("writer")
    run.start("reader")
    tripping(rng, run)


def tripping(rng, run):
    """Some writing calls, and reads of their packets."""
    large = rng.random() < 0.25
    waiting = []
    for _ in range(rng.randrange(1, 6)):
        if run.cost > COST_MOST // 2:
            break
        for _ in range(rng.choice([1, 1, 2])):
            bits = rng.choice([12, 20, 30]) if large else rng.choice([2, 3, 4, 5])
            sop, eph = rng.randrange(2), rng.randrange(2)
            if run.blocks and rng.random() < 0.12:
                counts, lengths, marks = ending_in_ff(rng, run, "matching", sop)
            else:
                counts, lengths, marks = some_contribution(rng, run, "matching", bits, rng.choice([0, 0.3, 0.6, 1]),
                    0.25 if run.blocks < 5 else 0.06)
            if not large:
                while sum(lengths) > BODY_MOST:
                    lengths = [n // 2 for n in lengths]
            front = run.write(sop, eph, some_number(rng), counts, lengths, marks, "!" if large else "*",
                rng.choice(["exact", "exact", "more", "short"]))
            if front is not None:
                waiting.append((sop, eph, front))
        while waiting and rng.random() < 0.8:
            sop, eph, front = waiting.pop(0)
            if rng.random() < 0.3:
                wanted = rng.choice(["failed align", "failed width"])
                data, found = hunted(rng, run, sop, eph, front, wanted, 80)
                if found:
                    run.read(sop, eph, data)
            if not read_back(rng, run, sop, eph, front):
                return
    for sop, eph, front in waiting:
        if not read_back(rng, run, sop, eph, front):
            return


def cut_run(rng, run):
    """A reader of what the crate's writer made: each header cut at some places, and then whole, from the same state."""
    run.start("reader")
    geometry = spaced(spaced(b) for b in run.bands)
    run.writer.ask("start writer %d %d %s %d %s" % (run.empty, len(run.bands), geometry, run.style, spaced(run.planes)))
    for _ in range(rng.randrange(1, 4)):
        counts, lengths, marks = some_contribution(rng, run, "matching", rng.choice([3, 5, 8, 12]), rng.choice([0.3, 0.6, 1]), 0.25)
        sop, eph = rng.choice([(0, 0), (0, 0), (0, 1), (1, 0), (1, 1)])
        answer = run.writer.ask_crate("write %d %d %d %d / %s / %s / %s / !"
            % (sop, eph, some_number(rng), AMPLE, spaced(counts), spaced(lengths), spaced(marks))).split()
        if answer[0] != "ok":
            return
        front, words = list(bytes.fromhex(answer[2])), run.reader.words()
        run.passes = [p + c for p, c in zip(run.passes, counts)]
        for end in sorted(rng.sample(range(len(front)), min(len(front), rng.randrange(1, 5)))):
            if run.read(sop, eph, front[:end] + [0xff] * (rng.random() < 0.1)) == 0:
                run.load("reader", words)
        if run.read(sop, eph, front) != 0:
            return


def some_layer(rng):
    return rng.choice([1, 1, 2, 2, 3, 5, 20, CRATE_LAYERS - 2, CRATE_LAYERS - 1, rng.randrange(1, CRATE_LAYERS)])


def loaded_writer_run(rng, run):
    words = some_state(rng, 1, run.bands, run.style, some_layer(rng))
    run.load("writer", words)
    run.passes = passes_in(words, run.bands)
    layers = min(rng.randrange(1, 4), CRATE_LAYERS - words[3])
    writing(rng, run, rng.choice(["matching", "some", "all", "none"]), layers, rng.random() < 0.4)


def loaded_reader_run(rng, run):
    words = some_state(rng, 2, run.bands, run.style, some_layer(rng))
    run.load("reader", words)
    reading(rng, run, words[3])


def reading(rng, run, layer):
    """Some reading calls on the run's reader, the crate's in its layers."""
    for _ in range(rng.randrange(1, 4)):
        if run.crate and layer == CRATE_LAYERS:
            break
        sop, eph = rng.choice([(0, 0), (0, 0), (0, 1), (1, 0), (1, 1)])
        base = some_bytes(rng, 16)
        if rng.random() < 0.45:
            data = hunted(rng, run, sop, eph, base, rng.choice(["failed align", "failed width"]), 150)[0]
        else:
            data = absent_packet(rng, sop, eph) + base if rng.random() < 0.08 else base
            if sop and rng.random() < 0.7:
                data = [0xff, 0x91, 0, 4, 0, 0] + data
        if run.read(sop, eph, data) == 0:
            layer += 1


# ---- kinds of runs beyond the crate's layers

def some_later_layer(rng):
    return rng.choice([CRATE_LAYERS - 1, CRATE_LAYERS, CRATE_LAYERS, CRATE_LAYERS + 1, NOT_YET_INCLUDED - 2, NOT_YET_INCLUDED - 1,
        rng.randrange(1, CRATE_LAYERS), rng.randrange(CRATE_LAYERS, NOT_YET_INCLUDED), rng.randrange(CRATE_LAYERS, NOT_YET_INCLUDED)])


def later_writer_run(rng, run):
    run.ask_the_scope()
    words = some_state(rng, 1, run.bands, run.style, some_later_layer(rng), NOT_YET_INCLUDED)
    run.load("writer", words)
    run.passes = passes_in(words, run.bands)
    writing(rng, run, rng.choice(["matching", "some", "all", "none"]), rng.randrange(1, 4), rng.random() < 0.4)


def later_reader_run(rng, run):
    run.ask_the_scope()
    words = some_state(rng, 2, run.bands, run.style, some_later_layer(rng), NOT_YET_INCLUDED)
    run.load("reader", words)
    reading(rng, run, words[3])


def told_absent(words, layer):
    """A started state in a later layer, each node of its inclusion trees told as far as that."""
    words = words[:3] + [layer] + words[4:]
    for block in sum(blocks_in(words), []):
        for node in block.path:
            words[block.inclusion + 3 * node + 1] = layer
    return words


def later_trip_run(rng, run):
    """A round trip that begins in a later layer."""
    run.ask_the_scope()
    layer = some_later_layer(rng)
    for side in ("writer", "reader"):
        run.start(side)
        run.load(side, told_absent(run.calls[-1][2]["after"], layer))
    tripping(rng, run)


def several_run(rng, run):
    """Layers of several precincts, of which the run's own is none."""
    run.ask_the_scope()
    for call in layer_calls.Layers(rng, sys.modules[__name__], lambda n: [rng.randrange(256) for _ in range(n)]).calls:
        run.write_layer(call)


def gathered_run(rng, run):
    """Headers moved in front and back, or some calls made by hand; the run's own precinct is none of theirs."""
    run.ask_the_scope()
    hand = list(gathered_calls.by_hand())
    calls = rng.sample(hand, 12) if rng.random() < 0.25 else gathered_calls.Gathered(rng, sys.modules[__name__]).calls
    for call in calls:
        run.gathered(call)


KINDS = [("writer", writer_run, 22), ("reader", reader_run, 24), ("trip", trip_run, 22), ("loaded writer", loaded_writer_run, 18),
    ("loaded reader", loaded_reader_run, 14), ("later writer", later_writer_run, 14), ("later reader", later_reader_run, 11),
    ("later trip", later_trip_run, 11), ("cut reader", cut_run, 16), ("layers", several_run, 14), ("gathered", gathered_run, 20)]


def make_run(seed, i, oracles, tally, only=None):
    rng = random.Random("%d/%d" % (seed, i))
    kind, fill, _ = rng.choices(KINDS, [k[2] if only in (None, k[0]) else 0 for k in KINDS])[0]
    bands, style, planes = some_shape(rng)
    run = Run(rng, oracles, tally, bands, style, planes, kind)
    run.name = "%d/%d" % (seed, i)
    fill(rng, run)
    tally["run: " + kind] += 1
    return run


# ---- the temporary repository

HEAD = """use mathlib.Core.Path.{◌≡◌, refl}
use Prim.Native.Nat.{ℕ}
use mathlib.Core.Bool.{true, false}
use mathlib.Core.List.{List, [], ◌∷◌}
use Rattle.t800.specs.declared.Band.{Band}
use Rattle.t800.specs.declared.Markers.{Markers}
use Rattle.t800.specs.WriteHeader.{Contribution}
use Rattle.t800.proofs.Table.{Writing, Reading, Step, loads_writer, loads-reader, holds-writer, holds-reader, writes, heads, reads}
use Rattle.t800.proofs.Table.{LayerWriting, writes_layer, Row, row_holds, failing}
use Rattle.t800.proofs.Table.{GatheredReading, Moving, ToGather, ToSpread, reads_gathered, gathers, spreads}

"""

STATEMENT = """
pub rows{0} : List Row
rows{0} =
{1}    []

pub all_rows_hold{0} : failing 0 rows{0} ≡ []
unfolding rows{0} failing row_holds
all_rows_hold{0} = refl
"""


class Repository:
    def __init__(self, where, jobs):
        self.where, self.jobs = where, jobs
        here = os.path.dirname(os.path.abspath(__file__))
        shutil.copytree(os.path.join(here, "..", "crates", "t800"), os.path.join(where, "crates", "t800"), ignore=shutil.ignore_patterns("out"))
        # the table of packets made by hand is proved in the project
        self.drop("Packets")
        self.names = []

    def drop(self, module):
        proofs = os.path.join(self.where, "crates", "t800", "proofs")
        with open(os.path.join(proofs, "Lib.antt"), encoding="utf-8") as f:
            lines = [x for x in f if x.strip() != "pub mod " + module]
        self.put(os.path.join(proofs, "Lib.antt"), "".join(lines))
        os.remove(os.path.join(proofs, module + ".antt"))

    def add(self, lists):
        """A crate with a statement for each list of rows."""
        name = "rows%03d" % len(self.names)
        base = os.path.join(self.where, "crates", name)
        os.makedirs(os.path.join(base, "src"))
        os.makedirs(os.path.join(base, "proofs"))
        texts = [STATEMENT.format("" if len(lists) == 1 else k, "".join("    %s ∷\n" % r for r in rows)) for k, rows in enumerate(lists)]
        self.put(os.path.join(base, "src", "lib.rt"), "// Rows alone.\n#![tactic(auto)]\n")
        self.put(os.path.join(base, "proofs", "Lib.antt"), "pub mod Rows\n")
        self.put(os.path.join(base, "proofs", "Rows.antt"), HEAD + "".join(texts))
        self.names.append(name)
        self.put(os.path.join(self.where, "crates.txt"), "t800:\n" + "".join("%s: t800\n" % n for n in self.names))
        return name

    @staticmethod
    def put(path, text):
        with open(path, "w", encoding="utf-8") as f:
            f.write(text)

    def check(self, names):
        """The names that are proved, and what the check wrote: of one crate its own check, of several that of all."""
        alone = len(names) == 1
        words = ["check", "--jobs", "1"] if alone else ["all", "check", "--jobs", str(self.jobs)]
        where = os.path.join(self.where, "crates", names[0]) if alone else self.where
        done = subprocess.run(["rt"] + words, cwd=where, stdout=subprocess.PIPE, stderr=subprocess.STDOUT, text=True)
        if alone:
            return set() if done.returncode else set(names), done.stdout
        return {n for n in names if re.search(r"^%s: ok$" % n, done.stdout, re.M)}, done.stdout

    def each(self, rows):
        """Rows with a statement each: the numbers of those that fail, of those that the check can't tell, and what it wrote."""
        name = self.add([[r] for r in rows] + [[]])
        proved, text = self.check([name])
        if proved:
            return [], [], text
        fail = [k for k in range(len(rows)) if "`all_rows_hold%d`: expected type" % k in text]
        unknown = [k for k in range(len(rows)) if k not in fail and "`all_rows_hold%d`" % k in text]
        return fail, unknown if fail or unknown else list(range(len(rows))), text


def explain(repository, run):
    """The first call of a failing run at which its row stops holding."""
    fail, _, text = repository.each([run.row(k) for k in range(1, len(run.steps) + 1)])
    first = fail[0] + 1 if fail else len(run.steps)
    print("  run %s, kind %s, bands %s, style %d, block planes %s" % (run.name, run.kind, run.bands, run.style, spaced(run.planes)))
    for at, side, line, answer in run.log:
        if at < first:
            print("    %s: %s" % (side, line))
            print("      %s" % answer)
    print("  the row stops holding at step %d: %s" % (first, run.steps[first - 1][:1500]) if fail else text[-2000:])


def main():
    parser = argparse.ArgumentParser(description=__doc__, formatter_class=argparse.RawDescriptionHelpFormatter)
    add_program(parser)
    parser.add_argument("--runs", type=int, default=600)
    parser.add_argument("--seed", type=int, default=1)
    parser.add_argument("--kind", choices=[k[0] for k in KINDS], help="runs of this kind alone")
    parser.add_argument("--jobs", type=int, default=1)
    parser.add_argument("--chunk", type=int, default=12, help="rows a chunk, at most")
    parser.add_argument("--text", type=int, default=80000, help="characters a chunk, at most")
    parser.add_argument("--keep", help="a new folder for the temporary repository, which is then kept")
    args = parser.parse_args()

    began = time.time()
    where = args.keep or tempfile.mkdtemp(prefix="compare-")
    os.makedirs(where, exist_ok=True)
    repository = Repository(where, args.jobs)

    tally = collections.Counter()
    oracles = [Oracle(args.program) for _ in range(3)]
    runs, odd = [], []
    for i in range(args.runs):
        try:
            runs.append(make_run(args.seed, i, oracles, tally, args.kind))
        except (Unexpected, Disagreement) as e:
            odd.append("%d/%d: %s" % (args.seed, i, e))
    for o in oracles:
        o.close()

    made = time.time()
    chunks, size, cost = [], 0, 0
    for run in runs:
        n = len(run.row())
        if not chunks or len(chunks[-1]) >= args.chunk or size + n > args.text or cost + run.cost > COST_MOST:
            chunks.append([])
            size = cost = 0
        chunks[-1].append(run)
        size += n
        cost += run.cost

    names = [repository.add([[r.row() for r in chunk]]) for chunk in chunks]
    holding, text = repository.check(names)
    bad, unknown = [], []
    for name, chunk in zip(names, chunks):
        if name not in holding:
            fail, open_rows, text = repository.each([r.row() for r in chunk])
            print("chunk %s is not proved; runs that fail: %s" % (name, spaced(chunk[k].name for k in fail)))
            bad += [chunk[k] for k in fail]
            unknown += [chunk[k] for k in open_rows]
            if open_rows:
                print("runs that the check can't tell: %s\n%s" % (spaced(chunk[k].name for k in open_rows), text[-2000:]))
            if not fail and not open_rows:
                print("  each of its rows holds by itself")
                holding.add(name)

    calls = sum(v for k, v in tally.items() if re.fullmatch(r"(writes|heads|reads|layers|reads gathered|gathers|spreads) \d+", k))
    print("seed %d: %d runs, %d calls, %d of %d chunks proved, %.0f s (%.0f s of them to ask the crate), %d MB at most a process" % (
        args.seed, len(runs), calls, len(holding), len(chunks), time.time() - began, made - began,
        resource.getrusage(resource.RUSAGE_CHILDREN).ru_maxrss // 1024))
    print("  styles %d, shapes %d, most blocks %d, pass counts written %d, layers of loaded states %d" % (
        len({r.style for r in runs}), len({tuple(b[:2] for b in r.bands) for r in runs}), max(r.blocks for r in runs),
        len(set().union(*(r.counts for r in runs))), len({r.layer for r in runs if r.layer})))
    for k in sorted(tally):
        print("  %-55s %d" % (k, tally[k]))
    for o in odd:
        print("answer without a number, or not the scope's: " + o)
    if bad:
        print("%d runs fail, %d can't be told; the smallest that fails:" % (len(bad), len(unknown)))
        explain(repository, min(bad, key=lambda r: len(r.row())))
    if not args.keep:
        shutil.rmtree(where)
    sys.exit(0 if runs and len(holding) == len(chunks) and not odd else 1)


if __name__ == "__main__":
    main()
