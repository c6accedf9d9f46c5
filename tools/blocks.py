#!/usr/bin/env python3
"""Prints what crates/blocks must print, from the paper alone: the same random blocks drawn anew, their builds, entries and
pairs counted. No walk is made: by the row rule a row holds a hub exactly if it has the lowest rank of all frames on the shortest
chains between the two, and a build is refused exactly where some row has over W entries. These frames come from plain breadth-first
searches; on the grid they are those of the rectangle that the two span. Run it at the root:
python3 tools/blocks.py > crates/blocks/stdout
"""
from collections import deque

P, BLOCKS, SIDE = 2147483647, 300, 200


def roll(seed):
    return seed % P * 48271 % P


def shuffled(n, seed):
    order = list(range(n))
    for last in range(n - 1, 0, -1):
        seed = roll(seed)
        other = seed % (last + 1)
        order[other], order[last] = order[last], order[other]
    return order


def by_degree(lists):
    return sorted(range(len(lists)), key=lambda v: (-len(lists[v]), v))


def drawn(n, kind, seed):
    lists = [set() for _ in range(n)]

    def join(s, t):
        if s != t:
            lists[s].add(t)
            lists[t].add(s)

    if kind < 2:
        for v in range(1, n):
            join(v - 1, v)
    for _ in range([0, n // 8, n // 2, n, 3 * n, 30 * n][kind]):
        one = roll(seed)
        seed = roll(one)
        join(one % n, seed % n)
    return lists


def between(lists, s):
    """For each frame that a chain joins to s, the frames on a shortest chain between the two, as bits."""
    d, on = {s: 0}, {s: 1 << s}
    queue = deque([s])
    while queue:
        u = queue.popleft()
        for v in lists[u]:
            if v not in d:
                d[v] = d[u] + 1
                on[v] = 1 << v
                queue.append(v)
            if d[v] == d[u] + 1:
                on[v] |= on[u]
    return on


def rows(chains, order):
    """The entries of all rows, and those of the longest, at each stop."""
    counts, lower = [0] * len(order), 0
    totals, longest = [0], [0]
    for hub in order:
        for v, on in chains[hub].items():
            counts[v] += not on & lower
        lower |= 1 << hub
        totals.append(sum(counts))
        longest.append(max(counts))
    return totals, longest


def blocks():
    builds = refused = entries = pairs = 0
    for block in range(1, BLOCKS + 1):
        one = roll(block)
        two = roll(one)
        three = roll(two)
        n = block if block <= SIDE else 1 + one % 40
        w = min(n, 1 + two % 16) if block % 4 == 3 else n
        stops = {0, 1, 2, n // 2, n - 1, n} & set(range(n + 1))
        lists = drawn(n, three % 6, three)
        chains = [between(lists, v) for v in range(n)]
        for order in shuffled(n, three // 2), by_degree(lists):
            totals, longest = rows(chains, order)
            fitting = [k for k in stops if longest[k] <= w]
            builds += len(fitting)
            refused += len(stops) - len(fitting)
            entries += sum(totals[k] for k in fitting)
            pairs += len(fitting) * n * n
    print(f"blocks {BLOCKS} builds {builds} refused {refused} entries {entries} pairs {pairs}\nall equal")


def grid_rows(rank, most):
    """The entries of each row, for the hubs of rank below `most`."""
    counts = [[0] * 64 for _ in range(64)]
    for x in range(64):
        for y in range(64):
            if rank[x][y] < most:
                for down in 1, -1:
                    for right in 1, -1:
                        count_quarter(rank, counts, x, y, down, right)
    return counts


def count_quarter(rank, counts, x, y, down, right):
    """One quarter around the hub. How far its rank is the lowest of the rectangle never grows from line to line; what two
    quarters share is counted in the one that goes down or right."""
    end = 64 if right == 1 else -1
    for line in range(x, 64 if down == 1 else -1, down):
        at = y
        while at != end and rank[line][at] >= rank[x][y]:
            counts[line][at] += (down == 1 or line != x) and (right == 1 or at != y)
            at += right
        end = at


def ranks(order):
    rank = [[0] * 64 for _ in range(64)]
    for r, v in enumerate(order):
        rank[v // 64][v % 64] = r
    return rank


def grid():
    counts = grid_rows(ranks(shuffled(4096, 64)), 4096)
    assert max(map(max, counts)) <= 256
    print(f"grid shuffled entries {sum(map(sum, counts))} pairs {64 * 4096}\nall equal")
    beside = lambda v: [u for u in (v - 64, v + 64) if 0 <= u < 4096] + [u for u in (v - 1, v + 1) if u // 64 == v // 64]
    rank = ranks(by_degree([beside(v) for v in range(4096)]))
    full = next(r for r in range(4096) if max(map(max, grid_rows(rank, r + 1))) > 256)
    print(f"grid by degree refused 6 at {full}")


blocks()
grid()
