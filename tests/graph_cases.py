"""The expected output of the program graph_cases, worked out apart from it.

    python3 tests/graph_cases.py | diff - crates/graph_cases/stdout

Whether rows of up to six moments agree is found by trying all their placements; the groups, by searching the steps
from each moment; the turns, by the steps that enter a group.
"""

import itertools

BEFORE, TOGETHER, AFTER = 1, 2, 4
BLANK = (0, 999)


def relation(left, right):
    return BEFORE if left < right else TOGETHER if left == right else AFTER


def some_placement(moments, rows):
    """Tries every placement; as many numbers as moments are enough."""
    return any(
        all(s & relation(p[a], p[b]) for a, s, b in rows)
        for p in itertools.product(range(moments), repeat=moments)
    )


def steps(moments, rows):
    after = [set() for _ in range(moments)]
    for a, s, b in rows:
        if not s & AFTER:
            after[a].add(b)
        if not s & BEFORE:
            after[b].add(a)
    return after


def reached(after, start):
    seen, waiting = {start}, [start]
    while waiting:
        for moment in after[waiting.pop()] - seen:
            seen.add(moment)
            waiting.append(moment)
    return seen


def leaders(moments, after):
    reach = [reached(after, m) for m in range(moments)]
    return [min(k for k in reach[m] if m in reach[k]) for m in range(moments)]


def order(moments, rows):
    """The number of places, and the place and leader of each moment."""
    after = steps(moments, rows)
    leader = leaders(moments, after)
    enters = {(leader[p], leader[q]) for p in range(moments) for q in after[p]}
    unplaced, place = set(leader), {}
    while unplaced:
        ready = [q for q in unplaced if not any((p, q) in enters for p in unplaced - {q})]
        place[min(ready)] = len(place) + 1
        unplaced.remove(min(ready))
    return len(place), [(place[leader[m]], leader[m]) for m in range(moments)]


def agree(moments, rows):
    leader = leaders(moments, steps(moments, rows))
    found = not any(not s & TOGETHER and leader[a] == leader[b] for a, s, b in rows)
    if moments <= 6:
        assert found == some_placement(moments, rows), rows
    return found


def show(name, last, rows, length):
    moments = last + 1
    agrees = agree(moments, rows)
    entries = [BLANK] * length
    if length < moments:
        answer = "refused\t15"
    elif not agrees:
        answer = "refused\t22"
    else:
        places, entries[:moments] = order(moments, rows)
        answer = f"places\t{places}"
    fields = [name, str(agrees).lower(), answer] + [f"{p}.{l}" for p, l in entries]
    print("\t".join(fields))


def ring(name, around, back, length):
    rows = [(m, around, m + 1) for m in range(255)] + [(255, back, 0)]
    show(name, 255, rows, length)


def numbers(seed):
    while True:
        seed = (seed * 1103515245 + 12345) % 2**31
        yield seed // 65536


def random_scenes(count):
    some = numbers(2026)
    for _ in range(count):
        last, rows = next(some) % 6, next(some) % 9
        moments = last + 1
        draw = lambda: (next(some) % moments, 1 + next(some) % 7, next(some) % moments)
        show("random", last, [draw() for _ in range(rows)], moments)


def main():
    show("no rows", 2, [], 3)
    show("weak both ways", 1, [(0, 3, 1), (1, 3, 0)], 2)
    show("diamond", 3, [(0, 3, 1), (0, 3, 2), (1, 3, 3), (2, 3, 3), (1, 5, 2)], 4)
    show("before itself", 0, [(0, 1, 0)], 1)
    show("apart from itself", 0, [(0, 5, 0)], 1)
    show("together or apart from itself", 0, [(0, 7, 0), (0, 2, 0)], 1)
    show("weak ring", 2, [(0, 3, 1), (1, 3, 2), (2, 3, 0)], 3)
    show("weak ring with two apart", 2, [(0, 3, 1), (1, 3, 2), (2, 3, 0), (0, 5, 2)], 3)
    show("ring with one strict", 2, [(0, 3, 1), (1, 1, 2), (2, 3, 0)], 3)
    show("falling", 2, [(2, 1, 1), (1, 1, 0)], 3)
    show("after and together or after", 2, [(0, 4, 1), (1, 6, 2)], 3)
    show("two groups of two", 3, [(1, 2, 3), (2, 2, 0), (3, 1, 0)], 4)
    show("any relation", 2, [(0, 7, 1), (1, 7, 2), (2, 7, 0)], 3)
    show("apart", 2, [(0, 5, 1), (1, 5, 2), (2, 5, 0)], 3)
    show("no entry", 0, [], 0)
    show("one entry too few", 2, [(0, 1, 1)], 2)
    show("too few, and a clash", 2, [(0, 1, 0)], 2)
    show("a clash", 2, [(0, 1, 0)], 3)
    show("two entries more", 2, [(2, 1, 1)], 5)
    show("256 moments, no rows", 255, [], 256)
    ring("256 moments rising", 1, 7, 256)
    ring("256 moments falling", 4, 7, 256)
    ring("256 moments in one group", 3, 3, 256)
    ring("256 moments in a strict ring", 1, 1, 256)
    ring("255 entries for 256 moments", 3, 3, 255)
    random_scenes(400)


main()
