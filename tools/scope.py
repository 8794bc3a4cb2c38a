"""The scope (docs/SCOPE.md) as plain Python, in every layer: for states in range and lists of the right lengths, and for any of them in a
layer written whole or not at all and in calls with headers gathered in front. It is written from the paper's words and knows nothing of
the definitions; below layer 999 compare_definitions.py and make_vectors.py hold it to the crate, but for packets written without passes."""
import collections

NOT_YET_INCLUDED = 65535
NOT_YET_PLANES = 999
HEADER_WORDS = 13


# ---- words and bytes as text

def spaced(xs):
    return " ".join(str(x) for x in xs)


def hexed(data):
    return bytes(data).hex() if data else "-"


def whole(text):
    return [int(x) for x in text.split()]


# ---- trees

def levels(w, h):
    """The sides of each level of a tree over w × h leaves, from theirs to the root's."""
    sides = []
    while w * h:
        sides.append((w, h))
        if w * h == 1:
            break
        w, h = (w + 1) // 2, (h + 1) // 2
    return sides


def level_sizes(w, h):
    """Nodes of each level of a tree over w × h leaves."""
    return [a * b for a, b in levels(w, h)]


def path_to(w, h, leaf):
    """The nodes from the root to a leaf."""
    path, first, x, y = [], 0, leaf % w, leaf // w
    for a, b in levels(w, h):
        path.append(first + y * a + x)
        first, x, y = first + a * b, x // 2, y // 2
    return path[::-1]


# ---- the scope as plain Python

LAYERS_REFUSED = "refused 6"
READ_REFUSALS = {"failed width": 9, "failed align": 12, LAYERS_REFUSED: 6}
WRITER, READER = 1, 2


class Failed(Exception):
    """A call that is refused, by crate_answers' words for it or by LAYERS_REFUSED."""


# where the block's words stand, its band's inclusion tree and zero-plane tree; its path in both; its band's planes
Block = collections.namedtuple("Block", "at inclusion zero_planes path planes")


def bands_of(words):
    return [tuple(words[4 + 3 * i:7 + 3 * i]) for i in range(words[1])]


def blocks_in(words):
    """The blocks of each band."""
    out, start = [], HEADER_WORDS
    for w, h, planes in bands_of(words):
        nodes = sum(level_sizes(w, h))
        at = start + 6 * nodes
        out.append([Block(at + 4 * i, start, start + 3 * nodes, path_to(w, h, i), planes) for i in range(w * h)])
        start = at + 4 * w * h
    return out


def started(role, bands, style, planes):
    """The words of a started state."""
    words = [role, len(bands), style, 0] + [x for b in (list(bands) + [(0, 0, 0)] * 3)[:3] for x in b]
    for w, h, _ in bands:
        nodes = sum(level_sizes(w, h))
        words += [NOT_YET_INCLUDED, 0, 0] * nodes + [NOT_YET_PLANES, 0, 0] * nodes + [0, 0, 0, 0] * (w * h)
    for block, own in zip(sum(blocks_in(words), []), planes):
        set_leaf(words, block.zero_planes, block.path, block.planes - own)
    return words


def set_leaf(words, tree, path, value):
    for node in reversed(path):
        if words[tree + 3 * node] <= value:
            return
        words[tree + 3 * node] = value


def code_path(words, tree, path, threshold):
    """The bits that are put."""
    bits, low = [], 0
    for node in path:
        at = tree + 3 * node
        low = max(low, words[at + 1])
        while low < min(threshold, words[at]):
            bits.append(0)
            low += 1
        if low < threshold:
            bits += [] if words[at + 2] else [1]
            words[at + 2] = 1
        words[at + 1] = low
    return bits


def read_path(words, tree, path, threshold, bits):
    """The leaf's value."""
    low = 0
    Bits.visits += len(path)
    for node in path:
        at = tree + 3 * node
        low = max(low, words[at + 1])
        while low < min(threshold, words[at]):
            if bits.take(1):
                words[at] = low
            else:
                low += 1
        words[at + 1] = low
    return words[tree + 3 * path[-1]]


def bits_of(n, width):
    return [n >> k & 1 for k in reversed(range(width))]


def stuffed(bits):
    """Bits as bytes, with the stuffed bit after FF, and zeros up to the last byte's end."""
    out, byte, left = [], 0, 8
    for b in bits + [0] * 7:
        left -= 1
        byte |= b << left
        if left == 0:
            out.append(byte)
            left = 7 if byte == 0xff else 8
            byte = 0
    return out


def log2(n):
    return n.bit_length() - 1


def pass_bits(n):
    """The codeword of n passes."""
    for first, code, width in ((37, "111111111", 7), (6, "1111", 5), (3, "11", 2), (2, "10", 0)):
        if n >= first:
            return [int(b) for b in code] + bits_of(n - first, width)
    return [0]


def read_passes(bits):
    for width, first in ((1, 1), (1, 2), (2, 3), (5, 6)):
        n = bits.take(width)
        if n + 1 < 1 << width:
            return first + n
    return 37 + bits.take(7)


def segments_of(lengths, marks):
    """Passes and bytes of each segment that a block's passes are written as."""
    out, passes, size = [], 0, 0
    for k, (length, mark) in enumerate(zip(lengths, marks)):
        passes, size = passes + 1, size + length
        if mark or k + 1 == len(lengths):
            out.append((passes, size))
            passes, size = 0, 0
    return out


def code_block(words, block, segments):
    """The bits of one block, after its band's inclusion tree has been set."""
    new = words[block.at] == 0
    bits = code_path(words, block.inclusion, block.path, words[3] + 1) if new else [int(segments != [])]
    if not segments:
        return bits
    if new:
        bits += code_path(words, block.zero_planes, block.path, NOT_YET_PLANES)
        words[block.at + 1] = 3
    passes = sum(p for p, _ in segments)
    increment = max(0, *(max(1, size.bit_length()) - words[block.at + 1] - log2(p) for p, size in segments))
    words[block.at] += passes
    words[block.at + 1] += increment
    bits += pass_bits(passes) + [1] * increment + [0]
    for p, size in segments:
        width = words[block.at + 1] + log2(p)
        if width > 32:
            raise Failed("panic")
        bits += bits_of(size, width)
    return bits


def code_header(words, counts, lengths, marks):
    """The header's bytes, and the words after the packet. Without a pass in any block the first bit is all, and only the layer moves."""
    if not any(counts):
        return stuffed([0]), words[:3] + [words[3] + 1] + words[4:]
    words, bits, at, k = list(words), [1], 0, 0
    for band in blocks_in(words):
        segments = []
        for block in band:
            segments.append(segments_of(lengths[at:at + counts[k]], marks[at:at + counts[k]]))
            if segments[-1] and words[block.at] == 0:
                set_leaf(words, block.inclusion, block.path, words[3])
            at, k = at + counts[k], k + 1
        for block, own in zip(band, segments):
            bits += code_block(words, block, own)
    words[3] += 1
    return stuffed(bits), words


# ---- a layer of several precincts

WRITE_REFUSALS = {"state": 5, "layers": 6, "list": 3, "passes": 7, "length": 8, "width": 9, "body": 10, "space": 11}
PRECINCTS_REFUSED = 14


def asked_words(words):
    """How many words the state has that begins with these, or None where its bands don't tell."""
    if len(words) < HEADER_WORDS or not 1 <= words[1] <= 3:
        return None
    return HEADER_WORDS + sum(6 * sum(level_sizes(w, h)) + 4 * w * h for w, h, _ in bands_of(words))


def limits_of(style):
    return [1] if style & 4 else [10, 2, 1] if style & 1 else [109]


def in_range(role, words):
    """The ranges of refusal 5, for a state as long as its bands ask."""
    own, count, style, layer = words[:4]
    bands = bands_of(words)
    if own != role or style > 63 or layer > NOT_YET_INCLUDED or any(words[4 + 3 * count:HEADER_WORDS]):
        return False
    if any(w > 64 or h > 64 or planes >= NOT_YET_PLANES for w, h, planes in bands):
        return False
    at = HEADER_WORDS
    for w, h, _ in bands:
        nodes = sum(level_sizes(w, h))
        for most in (NOT_YET_INCLUDED, NOT_YET_PLANES):
            for _ in range(nodes):
                value, low, known = words[at:at + 3]
                if value > most or low > most or known > 1:
                    return False
                at += 3
        for _ in range(w * h):
            passes, length_bits, limit, used = words[at:at + 4]
            if passes > 164 * layer or not (3 <= length_bits <= 32 if passes else length_bits == 0):
                return False
            if not (limit in limits_of(style) and 1 <= used <= limit if passes and role == READER else limit == used == 0):
                return False
            at += 4
    return True


def write_one(state, counts, lengths, marks, body, sop, eph, number, room):
    """A packet and the state after it, or the refusal of the single call."""
    if len(state) != asked_words(state) or not in_range(WRITER, state):
        raise Failed("state")
    if state[3] == NOT_YET_INCLUDED:
        raise Failed("layers")
    blocks = sum(w * h for w, h, _ in bands_of(state))
    if len(counts) != blocks or len(lengths) != sum(counts) or len(marks) != sum(counts):
        raise Failed("list")
    if any(c > 164 for c in counts):
        raise Failed("passes")
    at = 0
    for c in counts:
        if any(size >= 1 << 31 for _, size in segments_of(lengths[at:at + c], marks[at:at + c])):
            raise Failed("length")
        at += c
    try:
        header, after = code_header(state, counts, lengths, marks)
    except Failed:
        raise Failed("width")
    if len(body) != sum(lengths):
        raise Failed("body")
    packet = [0xff, 0x91, 0, 4, number >> 8 & 255, number & 255] * sop + header + [0xff, 0x92] * eph + list(body)
    if len(packet) > room:
        raise Failed("space")
    return packet, after


def write_layer(states, scratch, numbers, counts, lengths, marks, bodies, sop, eph, output):
    """The answer's refusal, place and bytes; states, scratch and output after the call."""
    if len(numbers) > 16:
        return [PRECINCTS_REFUSED, 0, 0], states, scratch, output
    if not numbers:
        return [0, 0, 0], states, scratch, output
    left, after, packets, place = [states, counts, lengths, marks, bodies], [], [], 0

    def first(k, n):
        """A precinct's part of a list, cut where the list ends; of the last one all that is left."""
        part = left[k] if place + 1 == len(numbers) else left[k][:n]
        left[k] = left[k][len(part):]
        return part

    try:
        if len(scratch) != len(states):
            raise Failed("state")
        for place, number in enumerate(numbers):
            size = asked_words(left[0])
            if size is None or size > len(left[0]):
                raise Failed("state")
            state = first(0, size)
            own = first(1, sum(w * h for w, h, _ in bands_of(state)))
            own_lengths, own_marks = first(2, sum(own)), first(3, sum(own))
            packet, words = write_one(state, own, own_lengths, own_marks, first(4, sum(own_lengths)), sop, eph, number,
                len(output) - len(packets))
            packets, after = packets + packet, after + words
    except Failed as why:
        return [WRITE_REFUSALS[str(why)], place, 0], states, [0] * len(scratch), [0] * len(output)
    return [0, 0, len(packets)], after, after, packets + output[len(packets):]


# ---- reading

class Bits:
    """An input, read from a place on; `past` counts the bits taken whose byte is not in it, `room` the records left. `visits` counts the
    nodes of trees that were met with any input."""
    visits = 0

    def __init__(self, data, at, room=float("inf")):
        self.data, self.next, self.byte, self.left, self.past, self.room = data, at, 0, 0, 0, room

    def take(self, width):
        n = 0
        for _ in range(width):
            if self.left == 0:
                self.left = 7 if self.byte == 0xff else 8
                self.byte = self.data[self.next] if self.next < len(self.data) else 0
                self.next += 1
            self.left -= 1
            self.past += self.next > len(self.data)
            n = 2 * n + (self.byte >> self.left & 1)
        return n

    def end(self):
        """The place after the header."""
        if self.byte == 0xff and self.next == len(self.data):
            raise Failed("failed align")
        return min(self.next + (self.byte == 0xff), len(self.data))


def next_limit(style, last):
    if style & 4:
        return 1
    return {0: 10, 2: 1}.get(last, 2) if style & 1 else 109


def read_segments(words, at, left, bits):
    """Of each segment: 1 if it opens, passes, bytes."""
    out = []
    while left:
        opens = words[at + 2] == words[at + 3]
        if opens:
            words[at + 2:at + 4] = [next_limit(words[2], words[at + 2]), 0]
        passes = min(left, words[at + 2] - words[at + 3])
        width = words[at + 1] + log2(passes)
        if width > 32:
            raise Failed("failed width")
        if bits.room == 0:
            raise Failed("records")
        bits.room -= 1
        out.append([int(opens), passes, bits.take(width)])
        words[at + 3] += passes
        left -= passes
    return out


def read_block(words, block, bits):
    """A block's report and its segments."""
    new = words[block.at] == 0
    included = read_path(words, block.inclusion, block.path, words[3] + 1, bits) <= words[3] if new else bits.take(1)
    if not included:
        return [0, 0, 0, 0], []
    report = [2, 0, 0]
    if new:
        threshold = 0
        while read_path(words, block.zero_planes, block.path, threshold, bits) >= threshold:
            threshold += 1
        zero = words[block.zero_planes + 3 * block.path[-1]]
        report = [1, zero, (block.planes - zero) % (1 << 32)]
        words[block.at + 1] = 3
    passes = read_passes(bits)
    while bits.take(1):
        words[block.at + 1] += 1
    segments = read_segments(words, block.at, passes, bits)
    words[block.at] += passes
    return report + [passes], segments


def skipped(used, data, at, marker, size):
    """A marker's mark, and the place after it."""
    if not used:
        return 0, at
    if len(data) - at < size:
        return 1, at
    return (0, at + size) if data[at:at + 2] == marker else (2, at)


def read_header(words, bits):
    """The first bit, each block's report and segments, and the words after the packet."""
    if words[3] == NOT_YET_INCLUDED:
        raise Failed(LAYERS_REFUSED)
    words, present = list(words), bits.take(1)
    told = [read_block(words, block, bits) if present else ([0, 0, 0, 0], []) for block in sum(blocks_in(words), [])]
    words[3] += 1
    return present, told, words


def records_of(told):
    return [[k] + segment for k, (_, segments) in enumerate(told) for segment in segments]


# ---- headers gathered in front

GATHERED_REFUSALS = dict(READ_REFUSALS, **{"state": 5, "list": 3, "body": 10, "space": 11, "records": 13, "segments": 15, "segment": 16})
SEGMENT_BYTES, SEGMENTS_MOST = 65532, 256


def read_gathered(state, scratch, headers, src, sop, eph, reports, records):
    """The answer: refusal, present, header bytes, bytes of src, segments, SOP mark, EPH mark, bits past the end; state, scratch, reports
    and records, four words each, after the call."""
    try:
        if len(state) != asked_words(state) or not in_range(READER, state) or len(scratch) != len(state):
            raise Failed("state")
        if state[3] == NOT_YET_INCLUDED:
            raise Failed(LAYERS_REFUSED)
        if len(reports) != 4 * len(sum(blocks_in(state), [])):
            raise Failed("list")
        bits = Bits(headers, 0, len(records) // 4)
        present, told, after = read_header(state, bits)
        sop_mark, beside = skipped(sop, src, 0, [0xff, 0x91], 6)
        eph_mark, taken = skipped(eph, headers, bits.end(), [0xff, 0x92], 2)
    except Failed as why:
        refusal = GATHERED_REFUSALS[str(why)]
        if refusal in (9, 12, 13):
            scratch, reports, records = [0] * len(scratch), [0] * len(reports), [0] * len(records)
        return [refusal] + [0] * 7, state, scratch, reports, records
    own = sum(records_of(told), [])
    answer = [0, present, taken, beside, len(own) // 4, sop_mark, eph_mark, bits.past]
    return answer, after, after, sum((report for report, _ in told), []), own + records[len(own):]


def states_for(states, scratch, places):
    """The readers' states that lie behind one another."""
    if len(scratch) != len(states):
        raise Failed("state")
    each, left = [], states
    while left:
        size = asked_words(left)
        if size is None or size > len(left) or not in_range(READER, left[:size]):
            raise Failed("state")
        each.append(left[:size])
        left = left[size:]
    if any(place >= len(each) for place in places):
        raise Failed("state")
    return each


def header_at(words, data, at, eph):
    """Where a header ends that begins there, its EPH behind it; how many bytes its body has; and the words after the packet."""
    bits = Bits(data, at)
    _, told, after = read_header(words, bits)
    _, end = skipped(eph, data, bits.end(), [0xff, 0x92], 2)
    return end, sum(size for _, segments in told for _, _, size in segments), after


def in_segments(headers):
    """Header bytes as PPT marker segments."""
    parts = [headers[i:i + SEGMENT_BYTES] for i in range(0, len(headers), SEGMENT_BYTES)]
    if len(parts) > SEGMENTS_MOST:
        raise Failed("segments")
    return [x for index, part in enumerate(parts) for x in [0xff, 0x61, len(part) + 3 >> 8, len(part) + 3 & 255, index] + part]


def out_of_segments(data):
    """The header bytes of PPT marker segments."""
    headers, index, at = [], 0, 0
    while at < len(data):
        if len(data) - at < 5 or data[at:at + 2] != [0xff, 0x61] or data[at + 4] != index:
            raise Failed("segment")
        size = 256 * data[at + 2] + data[at + 3]
        if size < 4 or len(data) - at < 2 + size:
            raise Failed("segment")
        headers += data[at + 5:at + 2 + size]
        index, at = index + 1, at + 2 + size
    return headers


def gather(row, states, scratch, places, sop, eph, headers, bodies):
    """The answer's refusal, bytes put in headers and in bodies; scratch, headers and bodies after the call."""
    front, segments, behind, at = [], [], [], 0
    try:
        each = states_for(states, scratch, places)
        for place in places:
            _, begin = skipped(sop, row, at, [0xff, 0x91], 6)
            end, size, each[place] = header_at(each[place], row, begin, eph)
            if end + size > len(row):
                raise Failed("body")
            front += row[begin:end]
            behind += row[at:begin] + row[end:end + size]
            segments, at = in_segments(front), end + size
            if len(segments) > len(headers) or len(behind) > len(bodies):
                raise Failed("space")
        if at < len(row):
            raise Failed("body")
    except Failed as why:
        return [GATHERED_REFUSALS[str(why)], 0, 0], [0] * len(scratch), [0] * len(headers), [0] * len(bodies)
    return [0, len(segments), len(behind)], sum(each, []), segments + headers[len(segments):], behind + bodies[len(behind):]


def spread(headers, bodies, states, scratch, places, sop, eph, row):
    """The answer's refusal and bytes put in row; scratch and row after the call."""
    packets, at, beside = [], 0, 0
    try:
        front = out_of_segments(headers)
        each = states_for(states, scratch, places)
        for place in places:
            _, begin = skipped(sop, bodies, beside, [0xff, 0x91], 6)
            end, size, each[place] = header_at(each[place], front, at, eph)
            if begin + size > len(bodies):
                raise Failed("body")
            packets += bodies[beside:begin] + front[at:end] + bodies[begin:begin + size]
            at, beside = end, begin + size
            if len(packets) > len(row):
                raise Failed("space")
        if at < len(front) or beside < len(bodies):
            raise Failed("body")
    except Failed as why:
        return [GATHERED_REFUSALS[str(why)], 0], [0] * len(scratch), [0] * len(row)
    return [0, len(packets)], sum(each, []), packets + row[len(packets):]


def without_count(answer):
    """The part of an answer that the crate gives too: a read's five numbers, without the bits past the end."""
    first, slash, rest = answer.partition("/")
    return spaced(first.split()[:6]) + " / " + rest if slash else answer


class Scope:
    """The scope (docs/SCOPE.md) for states in range and lists of the right lengths, asked as crate_answers is, in every layer. A read
    tells one number more, the bits past the end, after the EPH mark."""

    def ask(self, line):
        name, _, rest = line.partition(" ")
        try:
            return getattr(self, name)(rest)
        except Failed as why:
            return str(why)

    def words(self):
        return list(self.state)

    def start(self, rest):
        role, _, rest = rest.partition(" ")
        _, count, *rest = whole(rest)
        bands = [tuple(rest[3 * i:3 * i + 3]) for i in range(count)]
        self.state = started(1 if role == "writer" else 2, bands, rest[3 * count], rest[3 * count + 1:])
        return "ok"

    def load(self, rest):
        self.state = whole(rest)[1:]
        return "ok"

    def write(self, rest):
        first, counts, lengths, marks = [whole(part) for part in rest.split("/")[:4]]
        sop, eph, number, room = first
        if self.state[3] == NOT_YET_INCLUDED:
            raise Failed(LAYERS_REFUSED)
        header, after = code_header(self.state, counts, lengths, marks)
        front = [0xff, 0x91, 0, 4, number >> 8 & 255, number & 255] * sop + header + [0xff, 0x92] * eph
        size = len(front) + (sum(lengths) if rest.endswith("*") else 0)
        if size > room:
            raise Failed("failed")
        self.state = after
        return "ok %d %s body=" % (size, hexed(front))

    def read(self, rest):
        sop, eph, data = rest.split()
        data = [] if data == "-" else list(bytes.fromhex(data))
        sop_mark, at = skipped(int(sop), data, 0, [0xff, 0x91], 6)
        bits = Bits(data, at)
        present, told, words = read_header(self.state, bits)
        eph_mark, taken = skipped(int(eph), data, bits.end(), [0xff, 0x92], 2)
        self.state = words
        records = records_of(told)
        return "ok %s / %s / %s" % (spaced([present, taken, len(records), sop_mark, eph_mark, bits.past]),
            spaced(x for report, _ in told for x in report), spaced(x for r in records for x in r))
