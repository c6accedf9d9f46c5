#!/usr/bin/env python3
"""Writes the data/ and the stdout of crates/cases, and the expected files of crates/seamlist and crates/deck, from the
paper alone: the rows by the row rule over plain breadth-first counts, the file by its layout, the refusals by the order
of the reader's tests. It shares nothing with the library. Run it at the root, then look at what changed; with a folder as its
argument it writes them below that instead.
"""
import os
import shutil
import sys
from collections import deque


# ---- the paper's block: distances, the row rule
def lists(n, links):
    return [sorted([b for a, b in links if a == v] + [a for a, b in links if b == v]) for v in range(n)]


def counts_from(near, a):
    far = [None] * len(near)
    far[a] = 0
    queue = deque([a])
    while queue:
        u = queue.popleft()
        for w in near[u]:
            if far[w] is None:
                far[w] = far[u] + 1
                queue.append(w)
    return far


def rule_rows(n, links, order, k):
    near = lists(n, links)
    d = [counts_from(near, a) for a in range(n)]

    def between(h, v, q):
        w = order[q]
        return d[h][w] is not None and d[w][v] is not None and d[h][w] + d[w][v] == d[h][v]

    return [
        [(r, d[order[r]][v]) for r in range(k) if d[order[r]][v] is not None and not any(between(order[r], v, q) for q in range(r))]
        for v in range(n)
    ]


# ---- the layout: bit-packed fields, most significant first
def pack(fields, fill=0):
    bits = "".join(format(value, "0%db" % width) for value, width in fields)
    bits += format(fill, "0%db" % (-len(bits) % 8)) if len(bits) % 8 else ""
    return bytes(int(bits[i : i + 8], 2) for i in range(0, len(bits), 8))


def index(n, k, order, rows, version=1, spare=0, counts=None, fill=0):
    fields = [(version, 4), (n - 1, 12), (k, 13), (spare, 3)] + [(v, 12) for v in order]
    for v, row in enumerate(rows):
        fields.append(((counts or {}).get(v, len(row)), 9))
        for rank, joins in row:
            fields += [(rank, 12), (joins, 12)]
    return pack(fields, fill)


# ---- the reader's tests, in bit order
class Refused(Exception):
    pass


def read(data, w):
    bits = "".join(format(b, "08b") for b in data)
    at = 0

    def field(width):
        nonlocal at
        if at + width > len(bits):
            raise Refused(10, at)
        at += width
        return int(bits[at - width : at], 2)

    if field(4) != 1:
        raise Refused(11, 0)
    n = field(12) + 1
    k = field(13)
    if k > n:
        raise Refused(12, 16)
    if field(3) != 0:
        raise Refused(12, 29)
    if n > 256:
        raise Refused(1, None)
    order = []
    for r in range(n):
        v = field(12)
        if v >= n or v in order:
            raise Refused(12, at - 12)
        order.append(v)
    rows = []
    for v in range(n):
        count = field(9)
        if count > 256:
            raise Refused(12, at - 9)
        if count > w:
            raise Refused(6, v)
        row = []
        for _ in range(count):
            rank = field(12)
            if rank >= k or (row and rank <= row[-1][0]):
                raise Refused(12, at - 12)
            joins = field(12)
            if joins >= n:
                raise Refused(12, at - 12)
            row.append((rank, joins))
        rows.append(row)
    used = (at + 7) // 8
    if "1" in bits[at : 8 * used]:
        raise Refused(12, at)
    if len(data) > used:
        raise Refused(13, used)
    return n, k, order, rows


def listing(data):
    """What the listing program prints, and the place of a refusal by the reader."""
    try:
        n, k, order, rows = read(data[:25253], 32)
    except Refused as refused:
        return "refused %d\n" % refused.args[0], refused.args[1]
    spread = max([2 * joins for row in rows for rank, joins in row if rank == 0], default=0)
    text = "frames %d hubs %d entries %d spread %d\n" % (n, k, sum(map(len, rows)), spread)
    for v, row in enumerate(rows):
        text += " ".join([str(v)] + ["%d:%d" % (order[rank], joins) for rank, joins in row]) + "\n"
    return text, None


# ---- the blocks
def chain(k):
    order = [1, 2, 0, 3]
    return 4, k, order, rule_rows(4, [(0, 1), (1, 2), (2, 3)], order, k)


def order_scattered(n, links):
    """More links first; of equal degree, the lower v * 2531 mod 4096 first."""
    near = lists(n, links)
    return sorted(range(n), key=lambda v: (-len(near[v]), v * 2531 % 4096))


def deck():
    """Seven strips of 32 frames and a ramp of 32 that no frame of the deck overlaps, in order scattered."""
    links = [(v, v + 1) for v in range(256) if v % 32 < 31] + [(v, v + 32) for v in range(6 * 32)]
    order = order_scattered(256, links)
    return 256, 256, order, rule_rows(256, links, order, 256)


def files():
    whole = index(*chain(4))
    assert len(whole) == 39
    yield "the chain, k = 4", whole
    yield "an empty input", b""
    yield "one frame, k = 0", bytes.fromhex("10 00 00 00 00 00 00")
    yield "one frame, k = 1", bytes.fromhex("10 00 00 08 00 00 08 00 00 00")
    yield "the chain, k = 0: empty rows", index(*chain(0))
    yield "the chain, k = 1", index(*chain(1))
    yield "the chain, k = 3: the last row is not its own hub's", index(*chain(3))
    ring = [(0, 1), (1, 2), (2, 3), (0, 3)]
    yield "the ring, order 0 1 2 3", index(4, 4, [0, 1, 2, 3], rule_rows(4, ring, [0, 1, 2, 3], 4))
    yield "the ring, order 3 1 0 2", index(4, 4, [3, 1, 0, 2], rule_rows(4, ring, [3, 1, 0, 2], 4))
    yield "three frames, one link", index(3, 3, [2, 0, 1], rule_rows(3, [(0, 1)], [2, 0, 1], 3))
    none = index(8, 0, list(range(8)), [[]] * 8)
    assert len(none) == 25
    yield "eight frames, no entry: no fill bits", none
    wide = [[(r, r % 7) for r in range(32)]] + [[]] * 39
    yield "a row of 32 entries, the others empty", index(40, 33, list(range(39, -1, -1)), wide)
    largest = index(256, 256, [(r * 77 + 5) % 256 for r in range(256)], [[(8 * i + v % 8, (v + i) % 256) for i in range(32)] for v in range(256)])
    assert len(largest) == 25252
    yield "the largest file that is taken", largest
    # appended bytes and fill bits
    yield "the largest and a byte more", largest + b"\0"
    yield "the largest and 5,000 bytes more", largest + b"\xff" * 5000
    yield "no fill bits, a byte more", none + b"\0"
    yield "the chain and a zero byte", whole + b"\0"
    yield "the chain and three bytes", whole + b"\x10\0\0"
    for fill in (1, 8, 15):
        yield "the chain, fill bits %d" % fill, index(*chain(4), fill=fill)
    yield "a set fill bit and a byte more", index(*chain(4), fill=1) + b"\0"
    # cuts: inside and between the fields of the header, the order, a count, a rank, joins
    for size in (1, 2, 3, 4, 5, 6, 9, 10, 11, 12, 13, 14, 20, 30, 37, 38):
        yield "the chain cut to %d bytes" % size, whole[:size]
    # the header's fields
    for version in (0, 2, 3, 9, 15):
        yield "version %d" % version, index(*chain(4), version=version)
    yield "version 2, cut to a byte", b"\x20"
    yield "version 2, k over n, spare set", index(4, 5, *chain(4)[2:], version=2, spare=7)
    yield "k over n by one", index(4, 5, *chain(4)[2:])
    yield "k 8,191", index(4, 8191, *chain(4)[2:])
    yield "k over n, spare set", index(4, 5, *chain(4)[2:], spare=1)
    for spare in (1, 4):
        yield "spare %d" % spare, index(*chain(4), spare=spare)
    yield "spare set, cut behind the header", index(*chain(4), spare=2)[:4]
    # over 256 frames, tested after the header
    yield "257 frames", index(257, 0, list(range(257)), [[]] * 257)
    yield "4,096 frames, nothing but the header", index(4096, 4096, [], [])
    yield "257 frames, a broken order", index(257, 0, [0] * 257, [[]] * 257)
    yield "257 frames, k over n", index(257, 258, [], [])
    yield "257 frames, spare set", index(257, 257, [], [], spare=1)
    yield "257 frames, version 0", index(257, 257, [], [], version=0)
    yield "257 frames, cut in the header", index(257, 257, [], [])[:3]
    # the order
    yield "a frame number n in the order", index(4, 4, [1, 4, 0, 3], chain(4)[3])
    yield "a frame number 4,095 in the order", index(4, 4, [1, 2, 0, 4095], chain(4)[3])
    yield "a repeat in the order", index(4, 4, [1, 2, 1, 3], chain(4)[3])
    yield "a repeat, then a frame number n", index(4, 4, [1, 1, 4, 3], chain(4)[3])
    # the counts
    yield "a count of 257", index(*chain(4), counts={1: 257})
    yield "a count of 511 behind a count of 33", index(*chain(4), counts={1: 511, 0: 33})
    yield "a count of 33", index(*chain(4), counts={2: 33})
    yield "a count of 256", index(*chain(4), counts={3: 256})
    yield "a row of 33 entries", index(40, 40, list(range(40)), [[]] * 5 + [[(r, 0) for r in range(33)]] + [[]] * 34)
    yield "a count one too high", index(*chain(4), counts={3: 4})
    yield "a count one too low", index(*chain(4), counts={3: 2})
    # the entries
    rows = chain(4)[3]
    yield "a rank twice", index(4, 4, [1, 2, 0, 3], [rows[0], rows[1], [(0, 1), (0, 0)], rows[3]])
    yield "ranks that fall", index(4, 4, [1, 2, 0, 3], [rows[0], rows[1], rows[2], [(0, 2), (3, 0), (1, 1)]])
    yield "a rank at k", index(4, 3, [1, 2, 0, 3], rows)
    yield "a rank at k in the first row", index(4, 2, [1, 2, 0, 3], rows)
    yield "rank 4,095", index(4, 4, [1, 2, 0, 3], [[(4095, 0)], [], [], []])
    yield "joins at n", index(4, 4, [1, 2, 0, 3], [rows[0], [(0, 4)], rows[2], rows[3]])
    yield "joins 4,095", index(4, 4, [1, 2, 0, 3], [rows[0], rows[1], rows[2], [(0, 2), (1, 4095)]])
    yield "a rank at k and joins at n", index(4, 4, [1, 2, 0, 3], [[(4, 4)], [], [], []])
    yield "rows that no build left, in shape", index(4, 4, [1, 2, 0, 3], [[(3, 3)], [], [(0, 0), (3, 1)], [(1, 3)]])
    # one bit turned in each kind of field
    for bit in (3, 15, 12, 28, 27, 31, 43, 42, 67, 79, 88, 87, 80, 100, 99, 112, 111, 136, 160, 250, 283, 307):
        turned = bytearray(whole)
        turned[bit // 8] ^= 128 >> bit % 8
        yield "the chain, bit %d turned" % bit, bytes(turned)


UNSTARRED = """chain, k = 4, W = 3: file of 39 bytes
three frames, link 0-1, k = 3: pair (2,2) 0
one frame, k = 0: file 10 00 00 00 00 00 00
n 4,096: 4096 entries
n 4,097: refused 1 at 0
W 256: 1 entries
W 257: refused 1 at 0
W 0: refused 1 at 0
link 0-0: refused 4 at 0
"""


def main(root):
    crates = os.path.join(root, "crates")
    shutil.rmtree(crates + "/cases/data", ignore_errors=True)
    for folder in "cases/data", "seamlist", "deck":
        os.makedirs("%s/%s" % (crates, folder), exist_ok=True)
    text = UNSTARRED
    made = list(files())
    assert len(made) <= 100
    for number, (what, data) in enumerate(made):
        with open("%s/cases/data/%02d" % (crates, number), "wb") as out:
            out.write(data)
        lines, place = listing(data)
        text += "%02d\n%s" % (number, lines) + ("" if place is None else "at %d\n" % place)
        print("%02d  %s: %s" % (number, what, lines.split("\n")[0] + ("" if place is None else " at %d" % place)))
    with open(crates + "/cases/stdout", "w") as out:
        out.write(text)
    with open(crates + "/seamlist/stdin", "wb") as out:
        out.write(made[0][1])
    with open(crates + "/seamlist/stdout", "w") as out:
        out.write(listing(made[0][1])[0])
    with open(crates + "/deck/stdout", "wb") as out:
        out.write(index(*deck()))


if __name__ == "__main__":
    main(sys.argv[1] if len(sys.argv) > 1 else ".")
