"""An independent reading of a record `PBR`, of both versions, and an independent stitch, written from documents 01 and 02 and from nothing else.

`answer(data)` gives the lines that the program `replay` has to print for the bytes `data`.
"""

import math
import struct

CLASSES_OR_AND = ([1, 0, "any"], [0, 1, "any"], [1, 0, "any"], [0, 1, "any"])
CLASSES_NOT_XOR = ([1, "any", "any"], [0, "any", "any"], [1, 0, None], [0, 1, None])
LIMIT = 2.0**30

# Document 02, K1 and K14: the head, a slice, and the most bytes of each version. Version 2 has both tolerances where the one stood, then two editions; and an
# edition at the end of a slice.
FORMS = {
    1: ("<3s HHH B d HHH H", "<BB HH 6d", 4610),
    2: ("<3s HHH B dd II HHH H", "<BB HH 6d I", 4738),
}
VERTEX = "<3d"


class Refused(Exception):
    pass


def taken(data):
    """The fields of a record, by their places; the faults of documents 02 and 01 in the order in which they are looked at."""
    if len(data) < 5 or data[0:3] != b"PBR":
        raise Refused(11)
    version = data[3] + 256 * data[4]
    if version not in FORMS:
        raise Refused(12)
    head, entry, most = FORMS[version]
    if not struct.calcsize(head) <= len(data) <= most:
        raise Refused(13)
    _, _, one, two, selector, *between, first, second, third, n = struct.unpack_from(head, data)
    vc, starts = [one, two], [first, second, third]
    # "a version 1 record reads as equal tolerances and edition 0"
    tolerances, editions = (between[:2], between[2:]) if version == 2 else (between * 2, [0, 0])
    at, width, stride = struct.calcsize(head), struct.calcsize(VERTEX), struct.calcsize(entry)
    if len(data) != at + width * (one + two) + stride * n:
        raise Refused(13)
    outlines = []
    for count in vc:
        outlines.append([struct.unpack_from(VERTEX, data, at + width * k) for k in range(count)])
        at += width * count
    slices = []
    for k in range(n):
        source, inverted, start, offset, *numbers = struct.unpack_from(entry, data, at + stride * k)
        slices.append((source, inverted, start, offset, numbers[:6], numbers[6] if version == 2 else 0))

    def bad(x):
        return not math.isfinite(x) or abs(x) > LIMIT

    faults = [
        (1, n > 28),
        (2, any(c < 2 or c > 64 for c in vc)),
        (3, selector > 1 or any(s[0] not in (1, 2) or s[1] > 1 for s in slices)),
        (4, any(not 0 < t <= 1 for t in tolerances)),
        (5, any(bad(x) for o in outlines for v in o for x in v) or any(bad(x) for s in slices for x in s[4])),
        (6, any(s[2] >= vc[s[0] - 1] for s in slices if s[0] in (1, 2))),
        (7, any(s[3] > vc[s[0] - 1] for s in slices if s[0] in (1, 2))),
        (8, not starts[0] <= starts[1] <= starts[2] <= n),
        (14, any(s[5] != editions[s[0] - 1] for s in slices if s[0] in (1, 2))),
    ]
    for number, there in faults:
        if there:
            raise Refused(number)
    return outlines, slices, starts, selector, tolerances


def view(outline, piece):
    """The vertices of a slice's view, forward or inverted: document 01, "Vertices of a view"."""
    _, inverted, start, offset, (x, y, bulge, end_bulge, ex, ey), _ = piece
    vc = len(outline)
    if not inverted:
        made = [(x, y, bulge)]
        for k in range(1, offset + 1):
            vx, vy, vb = outline[(start + k) % vc]
            made.append((vx, vy, end_bulge if k == offset else vb))
        return made + [(ex, ey, 0.0)]
    made = [(ex, ey, -end_bulge)]
    for k in range(1, offset + 1):
        if k == offset:
            vx, vy, _ = outline[(start + 1) % vc]
            made.append((vx, vy, -bulge))
        else:
            at = start + offset - k + 1
            vx, vy, _ = outline[at % vc]
            made.append((vx, vy, -outline[(at - 1) % vc][2]))
    if offset == 0:
        made = [(ex, ey, -end_bulge)]
    return made + [(x, y, 0.0)]


def stitch(outlines, slices, starts, selector, tolerances):
    """Chains of slices, each with how it ended and its loop's vertices: document 01, "Stitching"."""
    tx, ty = tolerances
    views = [view(outlines[s[0] - 1], s) for s in slices]
    table = (CLASSES_OR_AND, CLASSES_NOT_XOR)[selector]

    def class_of(i):
        return 0 if i < starts[0] else 1 if i < starts[1] else 2 if i < starts[2] else 3

    def add(chain, vertices):
        for v in vertices:
            if chain and abs(chain[-1][0] - v[0]) < tx and abs(chain[-1][1] - v[1]) < ty:
                chain[-1] = (chain[-1][0], chain[-1][1], v[2])
            else:
                chain.append(v)

    def choose(current, offered):
        for choice in table[class_of(current)]:
            if choice is None:
                return None
            fitting = [i for i in offered if choice == "any" or class_of(i) == choice]
            if fitting:
                return min(fitting)
        return None

    visited, chains, rounds = [False] * len(slices), [], 0
    while not all(visited):
        first = visited.index(False)
        visited[first] = True
        order, built, current = [first], [], first
        add(built, views[first])
        while True:
            rounds += 1
            ex, ey = built[-1][0], built[-1][1]
            offered = [
                i
                for i in range(len(slices))
                if (not visited[i] or i == first) and ex - tx <= views[i][0][0] <= ex + tx and ey - ty <= views[i][0][1] <= ey + ty
            ]
            if not offered:
                chains.append((order, "empty", 0))
                break
            chosen = choose(current, offered)
            if chosen is None:
                chains.append((order, "unselected", 0))
                break
            if chosen == first:
                chains.append((order, "small", 0) if len(built) < 3 else (order, "closed", len(built) - 1))
                break
            built.pop()
            add(built, views[chosen])
            visited[chosen] = True
            order.append(chosen)
            current = chosen
    return rounds, chains


def answer(data):
    try:
        held = taken(data)
    except Refused as number:
        return f"refused {number}\n"
    rounds, chains = stitch(*held)
    loops = sum(how == "closed" for _, how, _ in chains)
    lines = [f"slices {len(held[1])} rounds {rounds} loops {loops}"]
    lines += [" ".join(map(str, [*order, how, vertices])) for order, how, vertices in chains]
    return "\n".join(lines) + "\n"
