"""Random layer calls on several precincts, answered by scope.py. compare_definitions.py makes rows of them, make_layer_vectors.py the list
of crates/layer_vectors."""
import collections

from scope import HEADER_WORDS, NOT_YET_INCLUDED, PRECINCTS_REFUSED, blocks_in, started, write_layer

# scratch and output by their lengths; bodies by their bytes
LayerCall = collections.namedtuple("LayerCall", "states scratch numbers counts lengths marks bodies sop eph output")
LayerTold = collections.namedtuple("LayerTold", "answer states scratch output")


def told(call, scratch, output):
    """What a call answers and leaves, where scratch and output are filled with these."""
    c = call._replace(scratch=[scratch] * call.scratch, output=[output] * call.output)
    return LayerTold(*write_layer(*c))


class Layers:
    """Precincts and their layers: `calls` has each call, those that are refused before the one that is not."""

    def __init__(self, rng, generator, body_of, most_precincts=17):
        self.rng, self.generator, self.body_of, self.calls = rng, generator, body_of, []
        some = min(most_precincts, rng.choice([0, 1, 1, 2, 2, 2, 3, 3, 3, 4, 5, 8, 16, 17]))
        self.states = [self.some_state(some) for _ in range(some)]
        for _ in range(rng.choice([1, 1, 2, 3])):
            if not self.layer():
                break

    def some_state(self, precincts):
        """A state that was started, or one in range."""
        rng = self.rng
        bands = self.generator.some_bands(rng, rng.choice([1, 1, 2, 3] if precincts < 4 else [1, 1, 1, 2]))
        style = rng.choice([0, 1, 4, rng.randrange(64)])
        if rng.random() < 0.5:
            return started(1, bands, style, [max(0, p - rng.randrange(4)) for w, h, p in bands for _ in range(w * h)])
        layer = rng.choice([1, 2, 7, 998, 999, 65533, 65534, 65534, 65535 if rng.random() < 0.3 else 3])
        return self.generator.some_state(rng, 1, bands, style, layer, NOT_YET_INCLUDED)

    def layer(self):
        """One layer, tried with damaged lists, and then as it is; whether it was written."""
        rng = self.rng
        counts, lengths, marks = [], [], []
        for words in self.states:
            blocks = sum(blocks_in(words), [])
            own = [self.generator.some_count(rng, 0.05) if rng.random() < 0.6 else 0 for _ in blocks]
            own_marks = self.generator.some_marks(rng, words[2], [words[b.at] for b in blocks], own, "matching")
            lengths += self.generator.some_lengths(rng, own, own_marks, rng.choice([2, 3, 4]))
            counts, marks = counts + own, marks + own_marks
        states = sum(self.states, [])
        good = LayerCall(states, len(states), [self.generator.some_number(rng) for _ in self.states], counts, lengths, marks,
            self.body_of(sum(lengths)), rng.randrange(2), rng.randrange(2), 1 << 16)
        refusal, _, size = told(good, 0, 0).answer
        size = len(good.bodies) + 40 * len(self.states) if refusal else size
        good = good._replace(output=size + rng.choice([0, 0, 1, 9]))
        for _ in range(rng.randrange(5)):
            self.calls.append(self.damaged(good, size))
        self.calls.append(good)
        answer, after, _, _ = told(good, 0, 0)
        if answer[0] or not self.states:
            return False
        ends = [sum(len(s) for s in self.states[:k + 1]) for k in range(len(self.states))]
        self.states = [after[end - len(s):end] for s, end in zip(self.states, ends)]
        return True

    def damaged(self, good, size):
        """One list, or two, other than they should be."""
        bad = self.one_damage(good, size)
        return self.one_damage(bad, size) if self.rng.random() < 0.25 else bad

    def one_damage(self, c, size):
        rng = self.rng
        how = rng.choice(["cut", "cut", "more", "more", "word", "word", "layer", "count", "length", "scratch", "output", "output",
            "numbers"])
        name = rng.choice(["states", "states", "counts", "lengths", "marks", "bodies"])
        xs = getattr(c, name)
        if name == "bodies" and how in ("cut", "more"):
            xs = self.body_of(max(0, len(xs) + rng.choice([-5, -1, -1, 1, 2])))
        elif how == "cut":
            xs = xs[:rng.choice([max(0, len(xs) - 1), rng.randrange(len(xs) + 1), 0])]
        elif how == "more":
            xs = xs + [rng.choice([0, 1]) for _ in range(rng.choice([1, 2]))]
        elif how == "word" and c.states:
            name, xs = "states", changed(c.states, rng.randrange(len(c.states)), rng.choice([0, 1, 2, 65, 166, 999, 65536, (1 << 32) - 1]))
        elif how == "layer" and self.states:
            k = rng.randrange(len(self.states))
            name, xs = "states", changed(c.states, sum(len(s) for s in self.states[:k]) + 3, NOT_YET_INCLUDED)
        elif how == "count" and c.counts:
            k = rng.randrange(len(c.counts))
            if rng.random() < 0.6 and len(c.lengths) == len(c.marks) == sum(c.counts):
                return with_passes(c, k, rng.choice([164, 165]))
            name, xs = "counts", changed(c.counts, k, rng.choice([0, 1, 164, 165, (1 << 32) - 1]))
        elif how == "length" and c.lengths:
            name, xs = "lengths", changed(c.lengths, rng.randrange(len(c.lengths)), rng.choice([0, (1 << 31) - 1, 1 << 31, (1 << 32) - 1]))
        elif how == "scratch":
            return c._replace(scratch=rng.choice([0, max(0, c.scratch - 1), c.scratch + 1, HEADER_WORDS]))
        elif how == "numbers":
            return c._replace(numbers=rng.choice([[], c.numbers[1:], c.numbers + [7], [7] * 17]))
        elif how == "output":
            return c._replace(output=rng.choice([max(0, size - 1), rng.randrange(size + 1), 0]))
        bad = c._replace(**{name: xs})
        return bad._replace(scratch=len(xs)) if name == "states" and rng.random() < 0.9 else bad


def with_passes(c, k, count):
    """So many passes of block k, with lists that have them, and no bytes in those that were not there."""
    at = sum(c.counts[:k])
    fit = lambda xs: xs[:at] + (xs[at:at + c.counts[k]] + [0] * count)[:count] + xs[at + c.counts[k]:]
    return c._replace(counts=changed(c.counts, k, count), lengths=fit(c.lengths), marks=fit(c.marks))


def changed(xs, at, value):
    return xs[:at] + [value] + xs[at + 1:] if at < len(xs) else xs
