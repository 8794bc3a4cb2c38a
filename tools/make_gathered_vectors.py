#!/usr/bin/env python3
"""Writes the list of crates/gathered_vectors: calls with headers gathered in front, with the answers that they must give, all by scope.py.
In the repository's root:

    python3 tools/make_gathered_vectors.py

This gives the file that is there byte for byte; --seed gives another. First come the calls of gathered_calls.py made by hand, then random
ones: rows of up to four precincts in mixed order, as they are and damaged, their segments cut anywhere. Each number comes but 15, for which
16 MB of headers are needed.

The list is crates/gathered_vectors/data/gathered, words of four bytes, the highest first: how many calls and how many answers it has, and
then each call; it ends with the last one. Bytes stand four to a word, with zeros up to a whole one.

    0 load      n, n words: the first of the states from here on
    1 poke      place, word: the states' word there
    2 read      words of the state, of scratch, SOP + 2 EPH, words of reports, of records, n header bytes, n bytes beside; headers, bytes
                beside; the answer's eight numbers, check(state), check(scratch), check(reports), check(records)
    3 gather    words of states, of scratch, SOP + 2 EPH, n places, n bytes of the row, bytes lent for headers, for bodies; places, row;
                refusal, header bytes, body bytes, check(scratch), check(headers), check(bodies)
    4 spread    words of states, of scratch, SOP + 2 EPH, n places, n bytes of segments, n bytes of bodies, bytes lent for the row;
                places, segments, bodies; refusal, bytes, check(scratch), check(row)

Scratch is filled with 5, reports with 9, records with 8 and outputs with 165 before. A read moves the state, the others only look at
theirs. check is that of make_vectors.py.
"""
import argparse
import collections
import os
import random

import compare_definitions as generator
from gathered_calls import GatherCall, Gathered, ReadCall, SpreadCall, by_hand, told
from make_vectors import OUTPUT, RECORDS, REPORTS, SCRATCH, check

WORDS_MOST, BYTES_MOST = 16383, 4096
KINDS = {ReadCall: ("read", 2), GatherCall: ("gather", 3), SpreadCall: ("spread", 4)}
FILL = dict(scratch=SCRATCH, reports=REPORTS, records=RECORDS)


def answer_of(call):
    if type(call) is ReadCall:
        return told(call, **FILL)
    return told(call, scratch=SCRATCH, headers=OUTPUT, bodies=OUTPUT, row=OUTPUT)


def packed(data):
    data = data + [0] * (-len(data) % 4)
    return [int.from_bytes(data[i:i + 4], "big") for i in range(0, len(data), 4)]


class Replayed:
    """The list in the making, and the words of the states in its replay."""

    def __init__(self):
        self.words, self.states, self.calls, self.answers, self.tally = [], [0] * WORDS_MOST, 0, 0, collections.Counter()

    def meet(self, states):
        """The replay's words become these: those that differ, or all."""
        differ = [i for i, w in enumerate(states) if w != self.states[i]]
        if 3 * len(differ) < len(states) + 2:
            for i in differ:
                self.words += [1, i, states[i]]
            self.calls += len(differ)
        else:
            self.words += [0, len(states)] + states
            self.calls += 1
        self.states[:len(states)] = states

    def add(self, c):
        name, kind = KINDS[type(c)]
        t, markers = answer_of(c), c.sop + 2 * c.eph
        states = c.state if type(c) is ReadCall else c.states
        self.meet(states)
        self.words += [kind, len(states), c.scratch, markers]
        if type(c) is ReadCall:
            self.words += [c.reports, c.records, len(c.headers), len(c.src)] + packed(c.headers) + packed(c.src)
            self.words += t.answer + [check(xs) for xs in (t.state, t.scratch, t.reports, t.records)]
            self.states[:len(states)] = t.state
        elif type(c) is GatherCall:
            self.words += [len(c.places), len(c.row), c.headers, c.bodies] + c.places + packed(c.row)
            self.words += t.answer + [check(xs) for xs in (t.scratch, t.headers, t.bodies)]
        else:
            self.words += [len(c.places), len(c.headers), len(c.bodies), c.row] + c.places + packed(c.headers) + packed(c.bodies)
            self.words += t.answer + [check(xs) for xs in (t.scratch, t.row)]
        self.calls += 1
        self.answers += 1
        self.tally["%s %2d" % (name, t.answer[0])] += 1

    def bytes(self):
        return b"".join(w.to_bytes(4, "big") for w in [self.calls, self.answers] + self.words)


def fits(c):
    """The replay has room for the lists, and the list for the call."""
    if len(getattr(c, "places", [])) > 100:
        return False
    lent = [getattr(c, name) for name in ("headers", "bodies", "row", "src") if hasattr(c, name)]
    sizes = [x if isinstance(x, int) else len(x) for x in lent]
    states = c.state if type(c) is ReadCall else c.states
    return max(sizes) <= BYTES_MOST and len(states) < 100 and getattr(c, "records", 0) < 400


def main():
    parser = argparse.ArgumentParser(description=__doc__, formatter_class=argparse.RawDescriptionHelpFormatter)
    parser.add_argument("--seed", type=int, default=1)
    parser.add_argument("--out", help="another file for the list")
    args = parser.parse_args()
    replayed, k = Replayed(), 0
    for c in by_hand():
        replayed.add(c)
    print("%d words, %d answers by hand" % (len(replayed.words), replayed.answers))
    had = collections.Counter()
    while len(replayed.words) < WORDS_MOST - 1000:
        k += 1
        for c in Gathered(random.Random("gathered/%d/%d" % (args.seed, k)), generator, 2).calls:
            # no number takes the room of the others
            key = type(c), told(c).answer[0]
            if fits(c) and had[key] < (40 if key[1] == 0 else 12) and len(replayed.words) < WORDS_MOST - 1000:
                had[key] += 1
                replayed.add(c)
    data = replayed.bytes()
    print("%d bytes, %d answers" % (len(data), replayed.answers))
    for key in sorted(replayed.tally):
        print("  %-10s %d" % (key, replayed.tally[key]))
    assert len(data) <= 4 * WORDS_MOST
    where = args.out or os.path.join(os.path.dirname(os.path.abspath(__file__)), "..", "crates", "gathered_vectors", "data", "gathered")
    os.makedirs(os.path.dirname(os.path.abspath(where)), exist_ok=True)
    with open(where, "wb") as f:
        f.write(data)


if __name__ == "__main__":
    main()
