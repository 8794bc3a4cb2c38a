"""Random calls with headers gathered in front, answered by scope.py: rows of packets moved and moved back, and headers read from the
gathered ones. compare_definitions.py makes rows of them, make_gathered_vectors.py the list of crates/gathered_vectors."""
import collections

from scope import Bits, Failed, HEADER_WORDS, NOT_YET_INCLUDED, blocks_in, gather, read_gathered, spread, started, write_one

# scratch, reports, records and outputs by their lengths, the others by what they hold
ReadCall = collections.namedtuple("ReadCall", "state scratch headers src sop eph reports records")
GatherCall = collections.namedtuple("GatherCall", "row states scratch places sop eph headers bodies")
SpreadCall = collections.namedtuple("SpreadCall", "headers bodies states scratch places sop eph row")

ReadTold = collections.namedtuple("ReadTold", "answer state scratch reports records")
GatherTold = collections.namedtuple("GatherTold", "answer scratch headers bodies")
SpreadTold = collections.namedtuple("SpreadTold", "answer scratch row")

LENT = {ReadCall: ["scratch", "reports", "records"], GatherCall: ["scratch", "headers", "bodies"], SpreadCall: ["scratch", "row"]}
ANSWERED = {ReadCall: (read_gathered, ReadTold), GatherCall: (gather, GatherTold), SpreadCall: (spread, SpreadTold)}


def told(call, **fill):
    """What a call answers and leaves, where the lists that it is lent are filled with these, or else with 0."""
    lent = {name: [fill.get(name, 0)] * getattr(call, name) for name in LENT[type(call)]}
    function, form = ANSWERED[type(call)]
    return form(*function(*call._replace(**lent)))


def cost_of(call):
    """About what it takes to compute a call, as in compare_definitions.py."""
    before = Bits.visits
    told(call)
    words, places = (call.state, []) if type(call) is ReadCall else (call.states, call.places)
    return (Bits.visits - before + 2 * len(words) + len(places)) * len(words)


Packet = collections.namedtuple("Packet", "place sop header body")


def parts(packets):
    """The row, the header bytes and the bodies of packets."""
    row = [x for p in packets for x in p.sop + p.header + p.body]
    return row, [x for p in packets for x in p.header], [x for p in packets for x in p.sop + p.body]


def segment(index, part):
    return [0xff, 0x61, len(part) + 3 >> 8, len(part) + 3 & 255, index & 255] + part


class Gathered:
    """A row of packets of some precincts, and calls on it in `calls`."""

    def __init__(self, rng, generator, most_blocks=3):
        self.rng, self.generator, self.most_blocks, self.calls = rng, generator, most_blocks, []
        self.sop, self.eph = rng.randrange(2), rng.randrange(2)
        kind = rng.random()
        if kind < 0.62:
            self.written()
        elif kind < 0.97:
            self.found()
        else:
            self.many()
        self.before, now = [], list(self.states)
        for p in self.packets:
            self.before.append(now[p.place])
            now[p.place] = told(self.read_of(now[p.place], p.header, p.sop)).state
        self.moves()
        self.moves_back()
        self.reads()

    # rows

    def shapes(self):
        rng = self.rng
        for _ in range(rng.choice([1, 1, 2, 2, 3, 4])):
            yield self.generator.some_bands(rng, rng.randrange(1, self.most_blocks + 1)), rng.choice([0, 1, 4, rng.randrange(64)])

    def written(self):
        """Packets as a writer makes them, most of them with the markers that are chosen."""
        rng, states, writers = self.rng, [], []
        layer = rng.choice([0, 0, 0, 0, 1, 5, 998, 65532, 65533])
        for bands, style in self.shapes():
            planes = [max(0, p - rng.randrange(4)) for w, h, p in bands for _ in range(w * h)]
            pair = [started(role, bands, style, own) for role, own in ((1, planes), (2, []))]
            writer, reader = [self.generator.told_absent(words, layer) for words in pair] if layer else pair
            states.append(reader)
            writers.append(writer)
        self.states, self.packets, strays = states, [], rng.random() < 0.2
        for _ in range(rng.choice([0, 1, 2, 3, 4, 5, 6])):
            place = rng.randrange(len(states))
            sop, eph = [used ^ (strays and rng.random() < 0.3) for used in (self.sop, self.eph)]
            packet = self.write(writers, place, sop, eph)
            if packet is not None:
                self.packets.append(packet)

    def write(self, writers, place, sop, eph):
        rng, words = self.rng, writers[place]
        blocks = sum(blocks_in(words), [])
        counts = [self.generator.some_count(rng, 0.05) if rng.random() < 0.6 else 0 for _ in blocks]
        marks = self.generator.some_marks(rng, words[2], [words[b.at] for b in blocks], counts, "matching")
        lengths = self.generator.some_lengths(rng, counts, marks, rng.choice([2, 3, 4]))
        body = [rng.choice([0xff, 0x91, 0x61, rng.randrange(256)]) for _ in range(sum(lengths))]
        try:
            packet, after = write_one(words, counts, lengths, marks, body, sop, eph, self.generator.some_number(rng), 1 << 16)
        except Failed:
            return None
        writers[place] = after
        return Packet(place, packet[:6 * sop], packet[6 * sop:len(packet) - len(body)], body)

    def found(self):
        """Headers of any bits that the readers of any states accept, with bodies that fit."""
        rng = self.rng
        layer = rng.choice([1, 2, 7, 998, 999, 65533, 65534])
        self.states = [self.generator.some_state(rng, 2, bands, style, layer, NOT_YET_INCLUDED) for bands, style in self.shapes()]
        now, self.packets = list(self.states), []
        for _ in range(rng.choice([1, 2, 3, 4])):
            place = rng.randrange(len(now))
            packet = self.find(now, place)
            if packet is not None:
                self.packets.append(packet)

    def find(self, now, place):
        rng, words = self.rng, now[place]
        sop = [0xff, 0x91] + [rng.randrange(256) for _ in range(4)] if self.sop else []
        for _ in range(20):
            header = self.generator.some_bytes(rng, 12) + [0xff, 0x92] * rng.randrange(2)
            r = told(self.read_of(words, header, sop))
            size = sum(r.records[3:4 * r.answer[4]:4])
            if r.answer[0] == 0 and r.answer[7] == 0 and size < 80:
                now[place] = r.state
                return Packet(place, sop, header[:r.answer[2]], [rng.randrange(256) for _ in range(size)])
        return None

    def many(self):
        """As many packets without blocks as there may be segments, or one more."""
        n = self.rng.choice([256, 257])
        self.states, self.sop, self.eph = [started(2, [(0, 0, 1)], 0, [])], 0, 0
        self.packets = [Packet(0, [], [0], [])] * n

    def refused(self, k):
        """A header that is refused as the k-th packet's with 9 or 12, or the last one tried."""
        rng, words, own = self.rng, self.before[k], self.packets[k].header
        wanted = rng.choice([9, 12])
        for _ in range(60):
            if wanted == 9:
                header = rng.choice([[0xff, 0x7f] * rng.randrange(3, 9), self.generator.some_bytes(rng, 14)])
            else:
                header = own[:rng.randrange(len(own) + 1)] + rng.choice([[0xff], self.generator.some_bytes(rng, 3) + [0xff]])
            if told(self.read_of(words, header, [])).answer[0] == wanted:
                break
        return header

    # calls

    def read_of(self, words, headers, src):
        """A read with records enough."""
        return ReadCall(words, len(words), headers, src, self.sop, self.eph, 4 * len(sum(blocks_in(words), [])), 4 * 700)

    def moves(self):
        row, headers, bodies = parts(self.packets)
        states = sum(self.states, [])
        size = len(headers) + 5 * (headers != [])
        good = GatherCall(row, states, len(states), [p.place for p in self.packets], self.sop, self.eph, size, len(bodies))
        self.tried(good, self.gather_damage)

    def moves_back(self):
        row, headers, bodies = parts(self.packets)
        states = sum(self.states, [])
        good = SpreadCall(self.in_segments(headers), bodies, states, len(states), [p.place for p in self.packets], self.sop, self.eph,
            len(row))
        self.tried(good, self.spread_damage)

    def tried(self, good, damage):
        """A call with lists that are damaged, and as it is, with some room left."""
        rng, many, outputs = self.rng, len(self.packets) > 100, [name for name in LENT[type(good)] if name != "scratch"]
        for _ in range(0 if many else rng.randrange(1, 5)):
            bad = damage(good)
            bad = damage(bad) if rng.random() < 0.3 else bad
            less = {name: shorter(rng, getattr(bad, name)) for name in outputs if rng.random() < 0.15}
            self.calls.append(bad._replace(**less))
        self.calls.append(good._replace(**{name: getattr(good, name) + rng.choice([0, 0, 1, 9]) for name in outputs}))

    def in_segments(self, headers):
        """Headers cut into segments, as the move does it or anywhere."""
        rng = self.rng
        most = 1 if len(self.packets) > 100 else rng.choice([1, 2, 5, 1 << 15])
        out, index = [], 0
        while headers:
            n = rng.randrange(1, most + 1)
            out, headers, index = out + segment(index, headers[:n]), headers[n:], index + 1
        return out

    def gather_damage(self, c):
        rng = self.rng
        how = rng.choice(["refused", "row", "row", "row", "cut", "more", "headers", "bodies", "shared", "shared", "shared"])
        if how == "refused" and self.packets:
            k = rng.randrange(len(self.packets))
            row = parts(self.packets[:k])[0] + self.packets[k].sop + self.refused(k)
            return c._replace(row=row, places=c.places[:rng.choice([k + 1, len(c.places)])])
        if how == "row":
            return c._replace(row=self.generator.damaged(rng, c.row))
        if how == "cut":
            return c._replace(row=c.row[:rng.choice([max(0, len(c.row) - 1), rng.randrange(len(c.row) + 1)])])
        if how == "more":
            return c._replace(row=c.row + [rng.choice([0, 255, 0x80]) for _ in range(rng.choice([1, 2, 8]))])
        if how in ("headers", "bodies"):
            return c._replace(**{how: shorter(rng, getattr(c, how))})
        return self.shared_damage(c)

    def spread_damage(self, c):
        rng = self.rng
        how = rng.choice(["refused", "segments", "segments", "segments", "bodies", "bodies", "row", "shared", "shared", "shared"])
        if how == "refused" and self.packets:
            k = rng.randrange(len(self.packets))
            headers = parts(self.packets[:k])[1] + self.refused(k)
            return c._replace(headers=self.in_segments(headers), places=c.places[:rng.choice([k + 1, len(c.places)])])
        if how == "segments":
            return c._replace(headers=self.segment_damage(c.headers))
        if how == "bodies":
            n = len(c.bodies)
            return c._replace(bodies=rng.choice([self.generator.damaged(rng, c.bodies), c.bodies + [7], c.bodies[:max(0, n - 1)],
                c.bodies[:rng.randrange(n + 1)]]))
        if how == "row":
            return c._replace(row=shorter(rng, c.row))
        return self.shared_damage(c)

    def segment_damage(self, headers):
        """The list cut, a segment with a wrong index, marker or length, or one more, with a part or without, or other header bytes."""
        rng, at, begins = self.rng, 0, []
        while at + 4 < len(headers):
            begins.append(at)
            at += 2 + 256 * headers[at + 2] + headers[at + 3]
        how = rng.choice(["cut", "cut", "last", "more", "empty", "marker", "length", "index", "swap", "byte", "byte"])
        out = list(headers)
        if how == "cut":
            return out[:rng.randrange(len(out) + 1)]
        if how == "last":
            return out[:begins[-1]] if begins else out
        if how in ("more", "empty"):
            return out + segment(len(begins), [rng.choice([0, 0x80, 0xff])] * (how == "more"))
        if not begins:
            return [rng.choice([0, 0xff])] * rng.randrange(1, 7)
        k = rng.choice(begins)
        if how == "marker":
            out[k + rng.randrange(2)] ^= rng.choice([1, 0xff])
        elif how == "length":
            out[k + rng.choice([2, 3, 3, 3])] = rng.choice([0, 3, 4, out[k + 3] - 1 & 255, out[k + 3] + 1 & 255, 255])
        elif how == "index":
            out[k + 4] = rng.choice([out[k + 4] ^ 1, 255, len(begins)])
        elif how == "swap" and len(begins) > 1:
            out = out[begins[1]:] + out[:begins[1]]
        else:
            at = rng.randrange(len(out))
            out[at] ^= 1 << rng.randrange(8)
        return out

    def shared_damage(self, c):
        """Places, states, scratch or the chosen markers other than they should be."""
        rng = self.rng
        how = rng.choice(["place", "place", "places", "states", "states", "states", "layer", "layer", "scratch", "markers", "markers"])
        if how == "place" and c.places:
            at = rng.randrange(len(c.places))
            place = rng.choice([len(self.states), len(self.states) - 1, 0, (1 << 32) - 1])
            return c._replace(places=c.places[:at] + [place] + c.places[at + 1:])
        if how == "places":
            return c._replace(places=rng.choice([c.places[1:], c.places[:-1], c.places + [0], [], c.places[::-1]]))
        if how == "scratch":
            return c._replace(scratch=rng.choice([0, max(0, c.scratch - 1), c.scratch + 1, HEADER_WORDS]))
        if how == "markers":
            return c._replace(**{rng.choice(["sop", "eph"]): rng.randrange(2)})
        states = self.bad_states(c.states, how)
        return c._replace(states=states, scratch=len(states) if rng.random() < 0.95 else c.scratch)

    def bad_states(self, states, how):
        rng = self.rng
        if how == "layer":
            at = sum(len(s) for s in self.states[:rng.randrange(len(self.states))]) + 3
            return states[:at] + [NOT_YET_INCLUDED] + states[at + 1:]
        how = rng.randrange(5)
        if how == 0:
            return states[:rng.choice([max(0, len(states) - 1), rng.randrange(len(states) + 1), 0])]
        if how == 1:
            return states + rng.choice([[0], [2], started(1, [(0, 0, 1)], 0, []), started(2, [(0, 0, 1)], 0, []), states[:HEADER_WORDS]])
        at = rng.randrange(len(states)) if states else 0
        value = rng.choice([0, 1, 2, 3, 64, 65, 164, 999, 1000, 65535, 65536, (1 << 32) - 1])
        return states[:at] + [value] + states[at + 1:]

    def reads(self):
        """Headers read from the gathered ones, from whole lists and from others."""
        rng = self.rng
        for k, words in enumerate(self.before[:6]):
            _, headers, bodies = parts(self.packets[k:])
            good = self.read_of(words, headers, bodies)
            segments = told(good).answer[4]
            good = good._replace(records=4 * (segments + rng.choice([0, 0, 1, 3])))
            for _ in range(rng.choice([0, 0, 1, 2])):
                self.calls.append(self.read_damage(good, k, segments))
            if rng.random() < 0.5:
                self.calls.append(good)

    def read_damage(self, c, k, segments):
        rng, own = self.rng, self.packets[k].header
        how = rng.choice(["refused", "refused", "cut", "cut", "cut", "damaged", "src", "src", "records", "reports", "scratch", "word",
            "word", "layer", "markers"])
        if how == "refused":
            return c._replace(headers=self.refused(k), records=4 * rng.choice([0, 1, 170]))
        if how == "cut":
            return c._replace(headers=own[:rng.randrange(len(own) + 1)], records=4 * 20)
        if how == "damaged":
            return c._replace(headers=self.generator.damaged(rng, own), records=4 * 20)
        if how == "src":
            return c._replace(src=rng.choice([[], c.src[:rng.randrange(8)], [0xff, 0x91] + c.src, c.src[1:]]))
        if how == "records":
            return c._replace(records=4 * max(0, segments - rng.choice([1, 1, 2, 99])))
        if how in ("reports", "scratch"):
            return c._replace(**{how: max(0, getattr(c, how) + rng.choice([-1, 1, -99]))})
        if how == "markers":
            return c._replace(sop=rng.randrange(2), eph=rng.randrange(2))
        at = 3 if how == "layer" else rng.randrange(len(c.state))
        value = NOT_YET_INCLUDED if how == "layer" else rng.choice([0, 1, 2, 65, 999, 65536])
        return c._replace(state=c.state[:at] + [value] + c.state[at + 1:])


def shorter(rng, n):
    return rng.choice([max(0, n - 1), max(0, n - 1), rng.randrange(n + 1), 0])


# ---- by hand: one block with eight planes, style 0

HEADERS = [[0xe5], [0xea, 0], [0xff, 0x78, 6, 0x40], [0xfe, 0xad, 0xff, 0], [0], []]
BODIES = [5, 8, 200, 511, 0, 0]


def one_block(layer=0):
    words = started(2, [(1, 1, 8)], 0, [])
    return words[:3] + [layer] + words[4:]


def moves(headers, bodies, states, places, sop, eph):
    """The move of packets with their markers, and the way back from one segment and from segments of one byte."""
    packets = [([0xff, 0x91, 0, 4, 0, k] * sop, h + [0xff, 0x92] * eph, [k + 1] * n) for k, (h, n) in enumerate(zip(headers, bodies))]
    row = [x for a, b, c in packets for x in a + b + c]
    front = [x for _, b, _ in packets for x in b]
    behind = [x for a, _, c in packets for x in a + c]
    words = sum(states, [])
    size = len(front) + 5 * (front != [])
    yield GatherCall(row, words, len(words), places, sop, eph, size, len(behind))
    for cut in (len(front) + 1, 1):
        segments = [x for k, i in enumerate(range(0, len(front), cut)) for x in segment(k, front[i:i + cut])]
        yield SpreadCall(segments, behind, words, len(words), places, sop, eph, len(row))


def by_hand():
    """Calls of each number, and with reasons for two of them."""
    fresh, last = one_block(), one_block(NOT_YET_INCLUDED)
    bad = [1] + fresh[1:]
    # short packets by themselves, with each choice of markers, and all in one row
    for sop, eph in ((0, 0), (1, 0), (0, 1), (1, 1)):
        for header, n in zip(HEADERS, BODIES):
            if n < 100:
                yield from moves([header], [n], [fresh], [0], sop, eph)
    yield from moves(HEADERS, BODIES, [fresh] * 6, [3, 0, 5, 1, 4, 2], 1, 1)
    # headers read from gathered ones, in order, cut, refused, and with SOP whole, cut or not there
    sop, eph = [0xff, 0x91, 0, 4, 0, 7], [0xff, 0x92]
    for header in ([0xe5], [0xe5] + eph, [0xe5, 0xff], [0xff, 0x78], [0xfe, 0xad, 0xff], [0xfe, 0xad, 0xff, 0], [0xff, 0x7f] * 5, [0], []):
        for src in (sop + [1], sop[:5], [0xff, 0x92] + sop):
            yield ReadCall(fresh, len(fresh), header, src, 1, 1, 4, 8)
    for header in ([0xe5], [0xff, 0x7f] * 5):
        for reports, records, scratch in ((4, 0, 23), (3, 8, 23), (4, 8, 22)):
            yield ReadCall(fresh, scratch, header, [], 0, 0, reports, records)
    yield ReadCall(last, len(last), [0xe5], [], 0, 0, 3, 8)
    # a missing marker
    yield GatherCall([0, 0xff, 0x91, 0, 4, 0, 0], fresh, len(fresh), [0, 0], 1, 0, 6, 6)
    yield SpreadCall([0xff, 0x61, 0, 4, 0, 0], [0xff, 0x91, 0, 4, 0, 0], fresh, len(fresh), [0, 0], 1, 0, 7)
    # two refusals at once: states, places, scratch, and row, headers, bodies that another number would be given for
    wide, cut, body = [0xff, 0x7f] * 5, [0xfe, 0xad, 0xff], [1, 2, 3, 4, 5]
    rows = [[0xe5] + body, [0xe5] + body[1:], [0xe5] + body + [0], wide, cut]
    for states, places, more in (([fresh], [0], 0), ([fresh], [0], 1), ([fresh, bad], [0], 0), ([fresh], [1], 0), ([last], [0], 0)):
        words = sum(states, [])
        for room in (99, 0):
            for row in rows:
                yield GatherCall(row, words, len(words) + more, places, 0, 0, room, room)
            for header, behind in (([0xe5], body), ([0xe5], body[1:]), ([0xe5, 0], body), ([0xe5], body + [0]), (wide, []), (cut, [])):
                yield SpreadCall(segment(0, header), behind, words, len(words) + more, places, 0, 0, room)
        yield SpreadCall(segment(0, [0xe5])[:-1], body, words, len(words) + more, places, 0, 0, 0)
        yield SpreadCall(segment(1, [0xe5]), body, words, len(words) + more, places, 0, 0, 6)
    for row in ([], [0]):
        yield GatherCall(row, [], 0, [], 0, 0, 9, 9)
        yield SpreadCall(segment(0, row) if row else [], [], [], 0, [], 0, 0, 9)
    # 256 segments and one more
    none = started(2, [(0, 0, 1)], 0, [])
    for n in (256, 257):
        yield SpreadCall([x for k in range(n) for x in segment(k, [0])], [], none, len(none), [0] * n, 0, 0, n)
