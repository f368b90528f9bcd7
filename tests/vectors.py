"""Named jobs, each with what planrun must print, written out by hand or by count."""
from generate import field, sealed

MOST_BYTES = 32768


def insert(i, target, a, f, r, tag=0x01):
    body = i.to_bytes(2, "big") + b"".join(t.to_bytes(4, "big", signed=True) for t in target)
    return field(tag, body + b"".join(n.to_bytes(2, "big") for n in (a, f, r)))


def replace(i, *move):
    return insert(i, *move, tag=0x07)


def delete(i):
    return field(0x02, i.to_bytes(2, "big"))


def override(i, j, p):
    return field(0x03, i.to_bytes(2, "big") + j.to_bytes(2, "big") + bytes([p]))


def junction(j, s):
    return field(0x04, j.to_bytes(2, "big") + s.to_bytes(4, "big"))


def start(*p):
    return field(0x08, b"".join(t.to_bytes(4, "big", signed=True) for t in p))


FIRST = insert(0, (3000, 4000, 0), 100, 2000, 600)
PLAN_A = FIRST + insert(1, (3000, 4900, 0), 100, 2000, 500) + insert(2, (9000, 4900, 0), 100, 1000, 0)
SPEEDS = b"".join(junction(j, 0) for j in range(4))
OK3 = "ok\n" * 3


def full():
    """257 inserts: the last finds the sequence full, and a place past the count is refused before that."""
    body = b"".join(insert(k, (k, 0, 0), 1, 1, 0) for k in range(257)) + insert(300, (0, 0, 0), 1, 1, 0)
    return sealed(body), "ok\n" * 256 + f"refused 2 sequence {256 * 23}\nrefused 1 sequence {257 * 23}\n"


def long_job(extra):
    """A job of exactly 32,768 bytes, and bytes after it that are never read."""
    parts, size = [FIRST], len(FIRST)
    while size + 9 + 4 <= MOST_BYTES - 14:
        parts.append(junction(0, 0))
        size += 9
    lines = len(parts) - 1
    left = MOST_BYTES - 4 - size
    tails = {5: [delete(9)], 8: [override(0, 0, 100)], 9: [junction(0, 0)], 10: [delete(9)] * 2, 13: [delete(9), override(0, 0, 100)],
             14: [delete(9), junction(0, 0)], 15: [start(0, 0, 0)], 16: [override(0, 0, 100)] * 2, 17: [override(0, 0, 100), junction(0, 0)],
             18: [delete(9), delete(9), override(0, 0, 100)], 19: [delete(9), delete(9), junction(0, 0)], 20: [delete(9), start(0, 0, 0)],
             21: [delete(9), override(0, 0, 100), override(0, 0, 100)], 22: [delete(9), override(0, 0, 100), junction(0, 0)]}[left]
    text, at = "ok\n" + "v 0\n" * lines, size
    for part in tails:
        text += f"refused 1 sequence {at}\n" if part[0] == 2 else "v 0\n" if part[0] == 4 else "ok\n"
        at += len(part)
    job = sealed(b"".join(parts + tails))
    assert len(job) == MOST_BYTES
    return job + extra, text


def too_long():
    """A job whose end field lies past the first 32,768 bytes: it is cut inside a field."""
    body = delete(0) * 6554
    return sealed(body), f"refused 10 job {MOST_BYTES // 5 * 5}\n"


def vectors():
    example = bytes.fromhex("0100140000" "00000BB8" "00000FA0" "00000000" "006407D00258" "0400060000" "000F4241" "0400060000" "000F4240" "7F0001E1")
    yield "example", example, "ok\nrefused 8 plan 23 junction 1\nv 1000000\n"
    yield "speeds", sealed(PLAN_A + SPEEDS), OK3 + "v 0\nv 360000\nv 250000\nv 0\n"
    yield "fastest", sealed(PLAN_A + junction(0, 1360000) + junction(1, 1360000)), OK3 + "v 1360000\nv 360000\n"
    yield "too_fast", sealed(PLAN_A + junction(0, 1360001)), OK3 + "refused 8 plan 69 junction 1\n"
    yield "deleted", sealed(PLAN_A + delete(1) + SPEEDS), OK3 + "ok\nv 0\nv 360000\nv 0\nrefused 1 plan 101\n"
    yield "replaced", sealed(PLAN_A + replace(1, (3000, 4100, 0), 100, 2000, 500) + SPEEDS), OK3 + "ok\nv 0\nv 270000\nv 250000\nv 0\n"
    yield "slowed", sealed(PLAN_A + override(1, 2, 25) + SPEEDS), OK3 + "ok\nv 0\nv 250000\nv 250000\nv 0\n"
    yield "started", sealed(FIRST + start(3000, 0, 0) + junction(0, 800001) + junction(0, 800000)), "ok\nok\nrefused 8 plan 38 junction 1\nv 800000\n"
    yield "nothing_planned", sealed(junction(0, 1) + junction(0, 0) + junction(1, 0)), "refused 8 plan 0 junction 0\nv 0\nrefused 1 plan 18\n"
    yield "no_place", sealed(delete(0) + insert(1, (0, 0, 0), 1, 1, 0) + replace(0, (0, 0, 0), 1, 1, 0)), "refused 1 sequence 0\nrefused 1 sequence 5\nrefused 1 sequence 28\n"
    yield "no_range", sealed(FIRST + override(1, 0, 100) + override(0, 2, 100) + override(1, 1, 100)), "ok\nrefused 1 plan 23\nrefused 1 plan 31\nok\n"
    yield "full", *full()
    yield "coordinate", sealed(insert(0, (100001, 0, 0), 1, 1, 0) + start(0, -100001, 0) + start(0, 0, 10001) + start(-100000, 100000, -10000)), "refused 3 plan 0\nrefused 3 plan 23\nrefused 3 plan 38\nok\n"
    yield "rate", sealed(insert(0, (0, 0, 0), 0, 1, 0) + insert(0, (0, 0, 0), 1, 0, 0) + insert(0, (0, 0, 0), 1, 1, 10001) + insert(9, (0, 0, 0), 2001, 1, 0)), "refused 4 plan 0\nrefused 4 plan 23\nrefused 4 plan 46\nrefused 4 plan 69\n"
    yield "percent", sealed(FIRST + override(0, 1, 9) + override(9, 9, 201) + override(0, 1, 10) + override(0, 1, 200)), "ok\nrefused 5 plan 23\nrefused 5 plan 31\nok\nok\n"
    yield "start_speed", sealed(junction(9, 100000001) + junction(9, 100000000)), "refused 7 plan 0\nrefused 1 plan 9\n"
    yield "only_end", sealed(b""), ""
    yield "empty", b"", "refused 10 job 0\n"
    yield "cut_head", FIRST + b"\x02\x00", "refused 10 job 23\n"
    yield "cut_body", FIRST + delete(0)[:-1], "refused 10 job 23\n"
    yield "no_end", FIRST, "refused 10 job 23\n"
    yield "tag", FIRST + b"\x05\x00\x00", "refused 11 job 23\n"
    yield "tag_before_length", b"\x00\x00\x02\x00\x00", "refused 11 job 0\n"
    yield "length", FIRST + b"\x02\x00\x03\x00\x00\x00", "refused 12 job 23\n"
    yield "length_swapped", FIRST + b"\x02\x02\x00\x00\x00", "refused 12 job 23\n"
    yield "length_before_cut", b"\x01\x00\x02", "refused 12 job 0\n"
    yield "end_byte", b"\x7F\x00\x01\x01", "refused 13 job 0\n"
    yield "end_byte_before_trailing", FIRST + b"\x7F\x00\x01\x00\x00", "refused 13 job 23\n"
    yield "trailing", b"\x7F\x00\x01\x00\x00", "refused 14 job 4\n"
    yield "trailing_field", sealed(FIRST) + delete(0), "refused 14 job 27\n"
    yield "longest", *long_job(b"")
    yield "longer", *long_job(b"\xFF" * 99)
    yield "too_long", *too_long()
