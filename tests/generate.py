"""Random jobs, whole and damaged, from a fixed seed."""
import random

SEED = 20261118


def field(tag, body):
    return bytes([tag]) + len(body).to_bytes(2, "big") + body


def sealed(body):
    told = 0
    for byte in body:
        told ^= byte
    return body + field(0x7F, bytes([told]))


def move(rng, wild):
    def axis(most):
        if wild and rng.random() < 0.05:
            return rng.choice([most + 1, -most - 1, 2**31 - 1, -2**31])
        return rng.choice([rng.randint(-most, most), rng.randint(-most // 50, most // 50)])

    def rate(least, most):
        if wild and rng.random() < 0.05:
            return rng.choice([max(0, least - 1), most + 1, 65535])
        return rng.choice([rng.randint(least, most), rng.randint(least, max(least, most // 20))])

    target = b"".join(axis(m).to_bytes(4, "big", signed=True) for m in (100_000, 100_000, 10_000))
    return target + b"".join(rate(*b).to_bytes(2, "big") for b in ((1, 2000), (1, 5000), (0, 10_000)))


def one_field(rng, count, wild):
    """A field, and how the count of blocks may change."""
    def place(most):
        if wild and rng.random() < 0.08:
            return rng.choice([most + 1, most + 2, 65535])
        return rng.randint(0, max(0, most))

    kind = rng.choices([0x01, 0x07, 0x02, 0x03, 0x04, 0x08], [9, 3, 2, 3, 9, 1])[0]
    if kind == 0x01:
        return field(kind, place(count).to_bytes(2, "big") + move(rng, wild)), 1
    if kind == 0x07:
        return field(kind, place(count - 1).to_bytes(2, "big") + move(rng, wild)), 0
    if kind == 0x02:
        return field(kind, place(count - 1).to_bytes(2, "big")), -1
    if kind == 0x03:
        i, j = sorted((place(count), place(count)))
        if wild and rng.random() < 0.05:
            i, j = j, i
        p = rng.choice([0, 9, 201, 255]) if wild and rng.random() < 0.08 else rng.randint(10, 200)
        return field(kind, i.to_bytes(2, "big") + j.to_bytes(2, "big") + bytes([p])), 0
    if kind == 0x04:
        s = rng.choice([0, 0, rng.randint(0, 4000), rng.randint(0, 4_000_000), rng.randint(0, 100_000_000)])
        if wild and rng.random() < 0.05:
            s = rng.choice([100_000_001, 2**32 - 1, 2**31])
        return field(kind, place(count).to_bytes(2, "big") + s.to_bytes(4, "big")), 0
    return field(kind, move(rng, wild)[:12]), 0


def body_of(rng, fields, wild):
    parts, count = [], 0
    for _ in range(fields):
        part, change = one_field(rng, count, wild)
        parts.append(part)
        count = max(0, count + change)
    return b"".join(parts)


def damaged(rng, job):
    way = rng.randrange(5)
    if way == 0:
        return job[:rng.randrange(len(job))]
    if way == 1:
        return job + bytes(rng.randrange(256) for _ in range(rng.randint(1, 9)))
    at = rng.randrange(len(job))
    if way == 2:
        return job[:at] + bytes([job[at] ^ (1 << rng.randrange(8))]) + job[at + 1:]
    if way == 3:
        return job[:at] + job[at + 1:]
    return job[:at] + bytes([rng.randrange(256)]) + job[at:]


def jobs(count):
    rng = random.Random(SEED)
    for k in range(count):
        job = sealed(body_of(rng, rng.choice([1, 3, 10, 40, 120]), wild=k % 3 != 0))
        yield damaged(rng, job) if k % 4 == 3 else job
