"""What planrun prints for a job, worked out naively: a list of moves, and both passes over it at every question.

It shares no code with the library and none of its ideas: no summaries, no search, and every list is walked whole.
"""
from math import isqrt

MOST_BYTES = 32768
CAPACITY = 256
LENGTHS = {0x01: 20, 0x02: 2, 0x03: 5, 0x04: 6, 0x07: 20, 0x08: 12, 0x7F: 1}
END = 0x7F


class Refused(Exception):
    def __init__(self, number, layer, offset=None, junction=None):
        self.number, self.layer, self.offset, self.junction = number, layer, offset, junction

    def line(self, at):
        place = at if self.offset is None else self.offset
        tail = "" if self.junction is None else f" junction {self.junction}"
        return f"refused {self.number} {self.layer} {place}{tail}\n"


def number(data, signed=False):
    return int.from_bytes(data, "big", signed=signed)


def fields(job):
    """The fields of a job as (offset, tag, body); raises at the first fault."""
    found, at = [], 0
    while True:
        if len(job) - at < 3:
            raise Refused(10, "job", at)
        tag = job[at]
        if tag not in LENGTHS:
            raise Refused(11, "job", at)
        if number(job[at + 1:at + 3]) != LENGTHS[tag]:
            raise Refused(12, "job", at)
        body = job[at + 3:at + 3 + LENGTHS[tag]]
        if len(body) < LENGTHS[tag]:
            raise Refused(10, "job", at)
        if tag == END:
            told = 0
            for byte in job[:at]:
                told ^= byte
            if body[0] != told:
                raise Refused(13, "job", at)
            if at + 4 < len(job):
                raise Refused(14, "job", at + 4)
            return found
        found.append((at, tag, body))
        at += 3 + LENGTHS[tag]


def position(body):
    return tuple(number(body[k:k + 4], signed=True) for k in (0, 4, 8))


def check_position(p):
    if abs(p[0]) > 100_000 or abs(p[1]) > 100_000 or abs(p[2]) > 10_000:
        raise Refused(3, "plan")


class Book:
    """A start and a list of [target, a, f, r, p]."""

    def __init__(self, capacity=CAPACITY):
        self.start, self.moves, self.capacity = (0, 0, 0), [], capacity

    @staticmethod
    def move(target, a, f, r):
        check_position(target)
        if not (1 <= a <= 2000 and 1 <= f <= 5000 and r <= 10_000):
            raise Refused(4, "plan")
        return [target, a, f, r, 100]

    def insert(self, i, move):
        if i > len(self.moves):
            raise Refused(1, "sequence")
        if len(self.moves) == self.capacity:
            raise Refused(2, "sequence")
        self.moves.insert(i, move)

    def place(self, i):
        if i >= len(self.moves):
            raise Refused(1, "sequence")
        return i

    def override(self, i, j, p):
        if not 10 <= p <= 200:
            raise Refused(5, "plan")
        for k in self.part(i, j):
            self.moves[k][4] = p

    def lengths(self):
        begin, told = self.start, []
        for target, *_ in self.moves:
            told.append(isqrt((target[0] - begin[0]) ** 2 + (target[1] - begin[1]) ** 2))
            begin = target
        return told

    def figures(self):
        """Change, own cap and corner cap of each block."""
        return [
            (2 * a * length, max(1, f * p // 100) ** 2, r * r)
            for length, (_, a, f, r, p) in zip(self.lengths(), self.moves)
        ]

    def caps(self, blocks):
        n = len(blocks)
        if n == 0:
            return [0]
        inner = [min(blocks[j - 1][1], blocks[j - 1][2], blocks[j][1]) for j in range(1, n)]
        return [blocks[0][1]] + inner + [0]

    def move_start(self, p):
        check_position(p)
        self.start = p

    def part(self, i, j):
        """The places of a range."""
        if i > j or j > len(self.moves):
            raise Refused(1, "plan")
        return range(i, j)

    def junction(self, j, s):
        if s > 100_000_000:
            raise Refused(7, "plan")
        if j > len(self.moves):
            raise Refused(1, "plan")
        blocks = self.figures()
        caps, n = self.caps(blocks), len(blocks)

        def back(m):
            """The reverse pass from junction m."""
            b = [0] * (m + 1)
            b[m] = caps[m]
            for k in range(m - 1, -1, -1):
                b[k] = min(caps[k], b[k + 1] + blocks[k][0])
            return b

        reverse = back(n)
        if s > reverse[0]:
            raise Refused(8, "plan", junction=next(m for m in range(n + 1) if s > back(m)[0]))
        v = s
        for k in range(j):
            v = min(reverse[k + 1], v + blocks[k][0])
        return v

    def run(self, tag, body):
        if tag in (0x01, 0x07):
            move = self.move(position(body[2:]), *(number(body[k:k + 2]) for k in (14, 16, 18)))
            if tag == 0x01:
                self.insert(number(body[:2]), move)
            else:
                self.moves[self.place(number(body[:2]))] = move
        elif tag == 0x02:
            del self.moves[self.place(number(body))]
        elif tag == 0x03:
            self.override(number(body[:2]), number(body[2:4]), body[4])
        elif tag == 0x08:
            self.move_start(position(body))
        else:
            return f"v {self.junction(number(body[:2]), number(body[2:]))}\n"
        return "ok\n"


def output(data):
    job = data[:MOST_BYTES]
    try:
        found = fields(job)
    except Refused as why:
        return why.line(0)
    book, lines = Book(), []
    for at, tag, body in found:
        try:
            lines.append(book.run(tag, body))
        except Refused as why:
            lines.append(why.line(at))
    return "".join(lines)
