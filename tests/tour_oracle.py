#!/usr/bin/env python3
"""Reads what the tour prints and works every line again, naively: lists are Python lists, and speeds come from both
passes over the whole list (oracle.py). Exit status 1 at the first line that differs."""
import pathlib
import re
import sys

sys.dont_write_bytecode = True
sys.path.insert(0, str(pathlib.Path(__file__).resolve().parent))
from oracle import Book, Refused

REASONS = {
    1: "no such place or range",
    2: "the sequence is full",
    3: "coordinate out of range",
    4: "acceleration, feed or corner speed out of range",
    5: "override out of range",
    6: "reading above 2000",
    7: "start speed above 100000000",
    8: "no lawful profile",
}


def words(why):
    tail = "" if why.junction is None else ", junction %d" % why.junction
    return "refused %d %s: %s%s" % (why.number, why.layer, REASONS[why.number], tail)


def numbers(text):
    return [int(n) for n in re.findall(r"-?\d+", text)]


class Readings:
    """A sequence of readings with a capacity."""

    def __init__(self, capacity):
        self.list, self.capacity = [], capacity

    def insert(self, i, reading):
        if i > len(self.list):
            raise Refused(1, "sequence")
        if len(self.list) == self.capacity:
            raise Refused(2, "sequence")
        self.list.insert(i, reading)

    def place(self, i):
        if i >= len(self.list):
            raise Refused(1, "sequence")
        return i

    def part(self, i, j, layer):
        if i > j or j > len(self.list):
            raise Refused(1, layer)
        return self.list[i:j]


class Survey(Readings):
    def call(self, text):
        n = numbers(text)
        if text.startswith("note"):
            if n[0] > 2000:
                raise Refused(6, "survey")
            self.insert(n[1], n[0])
            return "ok"
        if text.startswith("strike"):
            del self.list[self.place(n[0])]
            return "ok"
        part = self.part(*n, "survey")
        return "%d at %d" % (min(part), n[0] + part.index(min(part))) if part else "none"


class Sequence(Readings):
    def call(self, text):
        n = numbers(text)
        if text == "capacity":
            return str(self.capacity)
        if text == "count":
            return str(len(self.list))
        if text.startswith("range join"):
            part = self.part(*n, "sequence")
            return "(%d, %d)" % (min(part + [65535]), sum(part))
        if text.startswith("element"):
            return str(self.list[self.place(n[0])])
        if text.startswith("insert"):
            self.insert(n[1], n[0])
        elif text.startswith("delete"):
            del self.list[self.place(n[0])]
        else:
            self.list[self.place(n[0])] = n[1]
        return "ok"


class Plan(Book):
    @property
    def list(self):
        return self.moves

    def call(self, text):
        word, n = text.split()[0], numbers(text)
        if word == "junction":
            return str(self.junction(*n))
        if word == "span":
            return str(min(sum(self.lengths()[k] for k in self.part(*n)), 2 ** 32 - 1))
        if word == "reach":
            axes = list(zip(*(self.moves[k][0] for k in self.part(*n))))
            return ", ".join("%s %d to %d" % (a, min(z), max(z)) for a, z in zip("xyz", axes)) or "none"
        if word == "insert":
            self.insert(n[0], self.move(tuple(n[1:4]), *n[4:]))
        elif word == "replace":
            move = self.move(tuple(n[1:4]), *n[4:])
            self.moves[self.place(n[0])] = move
        elif word == "delete":
            del self.moves[self.place(n[0])]
        elif word == "override":
            self.override(*n)
        else:
            self.move_start(tuple(n))
        return "ok"


def depth_allows(depth, n):
    fewest = [0, 1]
    while len(fewest) <= depth:
        fewest.append(fewest[-1] + fewest[-2] + 1)
    return fewest[depth] <= n <= 2 ** depth - 1


def passes_lines():
    book = Book()
    for k, (target, f, r) in enumerate([((3000, 4000, 0), 2000, 600), ((3000, 4900, 0), 2000, 500), ((9000, 4900, 0), 1000, 0)]):
        book.insert(k, book.move(target, 100, f, r))
    figures = book.figures()
    for length, figure in zip(book.lengths(), figures):
        yield "length %d, change %d, own cap %d, corner cap %d" % (length, *figure)
    yield "caps: %s" % book.caps(figures)
    for s in (0, 1360000, 1360001):
        try:
            yield "speeds from %d: %s" % (s, [book.junction(j, s) for j in range(4)])
        except Refused as why:
            yield "no lawful profile from %d: blocked at junction %d" % (s, why.junction)


PARTS = [
    ("Ice survey", lambda: Survey(12)),
    ("A sequence of readings", lambda: Sequence(4)),
    ("The same calls", lambda: Sequence(4)),
    ("A plan over", lambda: Plan(4)),
    ("The same plan", lambda: Plan(4)),
]


def main(path):
    state, expected, checked = None, iter(()), 0
    for line in open(path, encoding="utf-8").read().splitlines():
        opened = [make for title, make in PARTS if line.startswith(title)]
        if opened:
            state = opened[0]()
            continue
        if "by both passes" in line:
            state, expected = None, passes_lines()
            continue
        if line.startswith("depth: "):
            if not depth_allows(int(line[7:]), len(state.list)):
                sys.exit("%s for %d elements" % (line, len(state.list)))
        elif state is None:
            want = next(expected)
            if want != line:
                sys.exit("%s\n  should be %s" % (line, want))
        else:
            call, got = line.split(": ", 1)
            try:
                want = state.call(call)
            except Refused as why:
                want = words(why)
            if want != got:
                sys.exit("%s\n  should be %s" % (line, want))
        checked += 1
    print("tour: %d lines worked again, all the same" % checked)


if __name__ == "__main__":
    main(sys.argv[1])
