#!/usr/bin/env python3
"""Writes the list of crates/layer_vectors: layer calls with the answers that they must give, all by scope.py. In the repository's root:

    python3 tools/make_layer_vectors.py

This gives the file that is there byte for byte; --seed gives another. The calls are layer_calls.py's, random ones: several layers of up to
16 precincts, each tried with damaged lists first, and calls of 17 precincts and of none.

The list is crates/layer_vectors/data/layer, words of four bytes, the highest first: how many calls and how many answers it has, and then
each call; it ends with the last one.

    0 load      n, n words: the first of the states from here on
    1 poke      place, word: the states' word there
    2 layer     words of states, words of scratch, SOP + 2 EPH, body bytes, output bytes, how many numbers, counts, lengths, marks; numbers,
                counts, lengths, marks (bytes, and zeros up to a whole word); refusal, place, bytes, check(states), check(scratch),
                check(output)

Scratch is filled with 5 and output with 165 before; a body has (7 i + 3) mod 256 at i, and all words of states that were never loaded are
0. check is that of make_vectors.py.
"""
import argparse
import collections
import os
import random

import compare_definitions as generator
from layer_calls import Layers, told
from make_vectors import OUTPUT, SCRATCH, body_of, check

ANSWERS, WORDS_MOST, BYTES_MOST = 200, 16383, 4096


class Replayed:
    """The list in the making, and the words of the states in its replay."""

    def __init__(self):
        self.words, self.states, self.calls, self.answers = [], [0] * WORDS_MOST, 0, 0

    def meet(self, states):
        """The replay's words become these: those that differ, or all."""
        differ = [i for i, w in enumerate(states) if w != self.states[i]]
        if 3 * len(differ) < len(states) + 2:
            for i in differ:
                self.words += [1, i, states[i]]
            self.calls += len(differ)
        else:
            self.words += [0, len(states)] + states
            self.calls += 1
        self.states[:len(states)] = states

    def add(self, c):
        t = told(c, SCRATCH, OUTPUT)
        self.meet(c.states)
        self.words += [2, len(c.states), c.scratch, c.sop + 2 * c.eph, len(c.bodies), c.output, len(c.numbers), len(c.counts),
            len(c.lengths), len(c.marks)] + c.numbers + c.counts + c.lengths
        marks = c.marks + [0] * (-len(c.marks) % 4)
        self.words += [int.from_bytes(marks[i:i + 4], "big") for i in range(0, len(marks), 4)]
        self.words += t.answer + [check(t.states), check(t.scratch), check(t.output)]
        self.states[:len(c.states)] = t.states
        self.calls += 1
        self.answers += 1
        return t.answer

    def bytes(self):
        return b"".join(w.to_bytes(4, "big") for w in [self.calls, self.answers] + self.words)


def fits(c):
    """The replay has room for the lists."""
    return max(len(c.bodies), c.output) <= BYTES_MOST and len(c.states) < 400


def main():
    parser = argparse.ArgumentParser(description=__doc__, formatter_class=argparse.RawDescriptionHelpFormatter)
    parser.add_argument("--seed", type=int, default=3)
    parser.add_argument("--out", help="another file for the list")
    args = parser.parse_args()
    replayed, tally, k = Replayed(), collections.Counter(), 0
    while replayed.answers < ANSWERS:
        k += 1
        calls = Layers(random.Random("layer/%d/%d" % (args.seed, k)), generator, body_of).calls
        # calls of many passes take the room of many others
        if max(len(c.lengths) for c in calls) > 40 and k % 4:
            continue
        for c in calls:
            if fits(c):
                refusal, place, _ = replayed.add(c)
                tally["%2d at place %d" % (refusal, place) if refusal not in (0, 14) else "%2d" % refusal] += 1
    data = replayed.bytes()
    assert len(data) <= 4 * WORDS_MOST
    where = args.out or os.path.join(os.path.dirname(os.path.abspath(__file__)), "..", "crates", "layer_vectors", "data", "layer")
    with open(where, "wb") as f:
        f.write(data)
    print("%d bytes, %d answers" % (len(data), replayed.answers))
    for key in sorted(tally):
        print("  %-16s %d" % (key, tally[key]))


if __name__ == "__main__":
    main()
