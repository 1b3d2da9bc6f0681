"""Works out what `satellite drill` has to print, by a plain model of its own.

    python3 cases/drills.py START CALLS     prints the text

A drill makes its calls out of a number: segments, offers, settled orders, audits, repairs and tallies over twelve nodes,
of which the third, the sixth and the ninth alter whatever they are given, and then closes its month. The model keeps a
dictionary of segments and a list of nodes. Pieces are bytes; it finds near stripes by trying each pair of answers, since
two shares rebuild a stripe here. It knows docs/FORMATS.md and docs/TARIFF.md, and nothing of the machine's code.
"""
import sys

U64 = (1 << 64) - 1
BEGAN, CLOSED, MONTH = 1772323200, 1775001600, "2026-03"
K, M, O, N, SHARE = 2, 5, 6, 6, 16
NODES, ALTERING = 12, (3, 6, 9)
GET_RATE, STORAGE_RATE = 20000000, 1500000
WIDTHS = (6, 4, 12, 12, 12, 12, 12, 3, 12, 12, 12, 12)
HEADINGS = ("node", "age", "get", "audit", "repair", "storage", "gross", "%", "held", "paid", "returned", "pot")


# ---- the field of 256 elements, reduced by 0x11D


def product(a, b):
    total = 0
    while b:
        if b & 1:
            total ^= a
        a <<= 1
        if a & 0x100:
            a ^= 0x11D
        b >>= 1
    return total


TIMES = [bytes(product(a, b) for b in range(256)) for a in range(256)]
INVERSE = [0] + [next(b for b in range(256) if product(a, b) == 1) for a in range(1, 256)]


def times(data, factor):
    return data.translate(TIMES[factor])


def plus(a, b):
    return (int.from_bytes(a, "big") ^ int.from_bytes(b, "big")).to_bytes(len(a), "big")


def line_at(first, slope, point):
    """The values at a point of the lines that have these values at 0 and these slopes."""
    return plus(first, times(slope, point))


def line_through(x, at_x, y, at_y):
    slope = times(plus(at_x, at_y), INVERSE[x ^ y])
    return plus(at_x, times(slope, x)), slope


def rows_of(data):
    """The two rows of all stripes, one behind the other: the pieces 0 and 1."""
    data += bytes(-len(data) % (K * SHARE))
    stripes = [data[at : at + K * SHARE] for at in range(0, len(data), K * SHARE)]
    return b"".join(s[:SHARE] for s in stripes), b"".join(s[SHARE:] for s in stripes)


def piece_of(rows, index):
    return line_at(rows[0], plus(*rows), index)


def near(answers):
    """The stripe that at most (r - k) / 2 of the answers differ from, as a line, and the indexes that do."""
    radius = (len(answers) - K) // 2
    items = sorted(answers.items())
    for i, (x, at_x) in enumerate(items):
        for y, at_y in items[i + 1 :]:
            line = line_through(x, at_x, y, at_y)
            altered = [index for index, share in items if line_at(*line, index) != share]
            if len(altered) <= radius:
                return line, altered
    return None


# ---- the tables


class Node:
    def __init__(self):
        self.alpha, self.beta, self.passes, self.gone = 10000, 0, 0, False
        self.held, self.got, self.byte_hours = {}, 0, 0

    def judge(self, passed):
        if self.gone:
            return
        self.alpha, self.beta = self.alpha * 950 // 1000, self.beta * 950 // 1000
        if passed:
            self.alpha += 1000
            self.passes += 1
        else:
            self.beta += 1000
            self.gone = self.alpha * 1000 // (self.alpha + self.beta) < 600


class Segment:
    def __init__(self, data, pieces):
        self.rows, self.pieces = rows_of(data), pieces

    def size(self):
        return len(self.rows[0])


class Drill:
    def __init__(self, start):
        self.state, self.now, self.hour = start, BEGAN, BEGAN // 3600
        self.nodes = {number: Node() for number in range(1, NODES + 1)}
        self.segments, self.live, self.last = {}, [], None
        self.next_segment, self.order = 1, None
        self.entries = NODES + 1
        self.committed = self.settled = self.amount = self.again = 0
        self.audits = self.blamed = self.repairs = self.wrong = self.refused = 0

    def words(self, count):
        drawn, state = [], self.state
        for _ in range(count):
            state = (state + 0x9E3779B97F4A7C15) & U64
            z = ((state ^ state >> 30) * 0xBF58476D1CE4E5B9) & U64
            z = ((z ^ z >> 27) * 0x94D049BB133111EB) & U64
            drawn.append(z ^ z >> 31)
        self.state = state
        return drawn

    def refuse(self):
        self.entries += 1
        self.refused += 1

    def place(self, need, taken, words):
        """The nodes of the picks. Each node has a subnet of its own, and room for any piece."""
        picks = []
        for vetted in (True, False):
            while len(picks) < need:
                able = [number for number, node in self.nodes.items()
                        if not node.gone and number not in taken and number not in picks and (node.passes >= 1) == vetted]
                if not able:
                    break
                picks.append(able[words[len(picks)] % len(able)])
        return picks

    def put(self, node, segment, index, piece):
        self.nodes[node].held[segment, index] = plus(piece, b"\1" * len(piece)) if node in ALTERING else piece

    def healthy(self, segment):
        return {index: node for index, node in sorted(segment.pieces.items()) if not self.nodes[node].gone}

    # -- turns

    def begin(self, a):
        words = self.words(128)
        picks = self.place(N, (), words)
        if len(picks) < N:
            return self.refuse()
        number, self.next_segment = self.next_segment, self.next_segment + 1
        data = bytes(word & 255 for word in self.words(1 + a % 4096))
        segment = Segment(data, dict(enumerate(picks)))
        for index, node in segment.pieces.items():
            self.put(node, number, index, piece_of(segment.rows, index))
        self.segments[number] = segment
        self.live.append(number)
        self.entries += 2
        self.committed += 1

    def fetch(self, a):
        if not self.live:
            return
        segment = self.segments[self.live[a % len(self.live)]]
        places = list(self.healthy(segment).values())
        if len(places) < K:
            return self.refuse()
        node = places[(a // 65536) % len(places)]
        self.order = segment.size()
        self.nodes[node].got += self.order
        self.entries += 2
        self.settled += 1
        self.amount += self.order

    def repeat(self):
        if self.order is None:
            return
        self.entries += 1
        self.again += 1

    def audit(self):
        first, second = self.words(2)
        if not self.live:
            return self.refuse()
        number = self.live[first % len(self.live)]
        segment = self.segments[number]
        at = second % (segment.size() // SHARE) * SHARE
        asked = self.healthy(segment)
        answers = {index: self.nodes[node].held[number, index][at : at + SHARE] for index, node in asked.items()}
        found = near(answers) if len(answers) >= K + 2 else None
        self.entries += 2
        self.audits += 1
        if found:
            self.blamed += len(found[1])
            for index, node in asked.items():
                self.nodes[node].judge(index not in found[1])

    def repair(self):
        words = self.words(128)
        wanting = [(len(self.healthy(self.segments[number])), number) for number in self.live]
        wanting = [pair for pair in wanting if K <= pair[0] < M]
        if not wanting:
            return self.refuse()
        count, number = min(wanting)
        segment = self.segments[number]
        sources = self.healthy(segment)
        picks = self.place(O - count, set(sources.values()), words)
        if not picks:
            return self.refuse()
        targets = dict(zip([index for index in range(N) if index not in sources], picks))
        self.entries += 2
        self.mend(number, segment, sources, targets)

    def mend(self, number, segment, sources, targets):
        held = {index: self.nodes[node].held[number, index] for index, node in sources.items()}
        lines, blamed = [], set()
        for at in range(0, segment.size(), SHARE):
            found = near({index: piece[at : at + SHARE] for index, piece in held.items()})
            if found is None:
                return
            lines.append(found[0])
            blamed.update(found[1])
        kept = {index: node for index, node in sources.items() if index not in blamed}
        if len(kept) < K:
            return
        for index, node in targets.items():
            piece = b"".join(line_at(*line, index) for line in lines)
            self.wrong += piece != piece_of(segment.rows, index)
            self.put(node, number, index, piece)
        for index in sorted(blamed):
            self.nodes[sources[index]].judge(False)
        segment.pieces = kept | targets
        self.repairs += 1

    def tally(self):
        hour = self.now // 3600
        if hour < self.hour:
            return self.refuse()
        for number in self.live:
            segment = self.segments[number]
            for node in segment.pieces.values():
                self.nodes[node].byte_hours += segment.size()
        self.hour = hour + 1
        self.entries += 1

    def turn(self, i):
        self.now = BEGAN + 60 * i
        (word,) = self.words(1)
        a = word // 8
        turns = {2: self.fetch, 3: self.fetch, 0: self.begin, 1: self.begin}
        if word % 8 in turns:
            turns[word % 8](a)
        else:
            (self.repeat, self.audit, self.repair, self.tally)[word % 8 - 4]()

    # -- the text

    def sheet(self):
        yield HEADINGS
        sums = [0] * 9
        for number, node in self.nodes.items():
            get = node.got * GET_RATE // 10**12
            storage = node.byte_hours * STORAGE_RATE // (720 * 10**12)
            gross = get + storage
            percent = 100 if node.gone else 75
            held = gross * percent // 100
            earned, rest = [get, 0, 0, storage, gross], [held, gross - held, 0, held]
            sums = [a + b for a, b in zip(sums, earned + rest)]
            yield [number, 1, *earned, percent, *rest]
        yield ["total", "-", *sums[:5], "-", *sums[5:]]

    def text(self):
        self.entries += 1  # the month's close
        lines = [f"entries {self.entries}", f"segments {self.committed}", f"settled {self.settled} {self.amount}",
                 f"again {self.again}", f"audits {self.audits} blamed {self.blamed}",
                 f"repairs {self.repairs} wrong {self.wrong}", f"refused {self.refused}"]
        lines += [" ".join(str(field).rjust(width) for field, width in zip(fields, WIDTHS)) for fields in self.sheet()]
        return "\n".join(lines) + "\n"


def text_of(start, calls):
    drill = Drill(start)
    for i in range(1, calls + 1):
        drill.turn(i)
    return drill.text()


if __name__ == "__main__":
    match sys.argv[1:]:
        case [start, calls] if start.isdigit() and calls.isdigit():
            print(text_of(int(start), int(calls)), end="")
        case _:
            sys.exit(__doc__)
