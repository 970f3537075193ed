#!/usr/bin/env python3
"""Test recipes for the reader, with the numbers that document 01 and the requests W-201, W-203, W-205, W-207 and W-209 give them.

    python3 tools/recipes.py check    compare every number with tools/model.py

tools/vectors.py stores them: crates/cases/data/numbers, and the first lines of crates/cases/stdout.

The number of every case is written here by hand or, for damaged bytes, by `number`, which is made from those papers alone; both are
held against each other where a case has both.

The file `numbers` is a sequence of cases: the label's length (1 byte), the label, the recipe's length (2 bytes, low one first), the recipe.
"""
import re
import sys


# ---- the format

def two(v):
    return bytes([v % 256, v // 256])


def dimension(length, tile, count):
    return bytes([1, 0]) + two(length) + two(tile) + two(count) + bytes(8)


def distance(components, weight=1):
    return bytes([2, 0]) + bytes((list(components) + [0, 0, 0, 0])[:4]) + two(weight) + bytes(8)


def wide(components, weight=1):
    return bytes([4, 0]) + b"".join(two(x) for x in (list(components) + [0, 0, 0, 0])[:4]) + two(weight) + bytes(4)


def bound(side, dimension, earlier, slope, offset):
    return bytes([5, side, dimension, earlier, slope % 256, 0]) + two(offset % 65536) + bytes(8)


def close(shift=0, shore=0):
    return bytes([3, shift, 0, 0]) + shore.to_bytes(4, "little") + bytes(8)


def recipe(lengths, tiles, counts, distances, shift=0, shore=0, weights=None, bounds=()):
    weights = weights or [1] * len(distances)
    return (b"".join(dimension(*d) for d in zip(lengths, tiles, counts)) + b"".join(bound(*b) for b in bounds)
            + b"".join((wide if max(d) > 255 else distance)(d, w) for d, w in zip(distances, weights)) + close(shift, shore))


# ---- document 01, lines 1 to 8 of its table; line 6 as W-201 has it, lines 16, 17 and 7 as W-203 and W-205 have them, line 18 and kind 4
# as W-207 has them, line 20 and kind 5 as W-209 has them

def signed(v, bits):
    return v - 2 ** bits if v >= 2 ** (bits - 1) else v


def rows_left(N, bounds):
    """The rows of the shape along the last dimension: for each place before it the first and the last component that are left, where
    some are. A bound of an earlier dimension keeps a row or drops it, one of the last dimension moves an end."""
    starts = [()]
    for length in N[:-1]:
        starts = [s + (i,) for s in starts for i in range(length)]
    for s in starts:
        first, last = 0, N[-1] - 1
        for side, j, e, slope, offset in bounds:
            limit = offset + (s[e] if slope == 1 else -s[e] if slope == -1 else 0)
            if j == len(N) - 1:
                first, last = (max(first, limit), last) if side == 0 else (first, min(last, limit))
            elif (s[j] < limit) if side == 0 else (s[j] > limit):
                last = -1
        if first <= last:
            yield s, first, last


def number(b):
    if len(b) == 0 or len(b) % 16 != 0:
        return 1
    records = [b[i:i + 16] for i in range(0, len(b), 16)]
    if not re.fullmatch(rb"\x01{2,4}\x05{0,4}[\x02\x04]{1,8}\x03", bytes(r[0] for r in records)):
        return 2
    named = {1: (0, 2, 3, 4, 5, 6, 7), 2: (0, 2, 3, 4, 5, 6, 7), 3: (0, 1, 4, 5, 6, 7), 4: (0, 2, 3, 4, 5, 6, 7, 8, 9, 10, 11),
             5: (0, 1, 2, 3, 4, 6, 7)}
    for r in records:
        if any(r[i] != 0 for i in range(16) if i not in named[r[0]]):
            return 2
    if records[-1][1] > 31:
        return 2
    B = [(r[1], r[2], r[3], signed(r[4], 8), signed(r[6] + 256 * r[7], 16)) for r in records if r[0] == 5]
    if any(side > 1 or not e < j < sum(r[0] == 1 for r in records) or abs(slope) > 1 for side, j, e, slope, _ in B):
        return 2
    ones = [r for r in records if r[0] == 1]
    field = lambda i: [r[i] + 256 * r[i + 1] for r in ones]
    n, N, k, P = len(ones), field(2), field(4), field(6)
    D = [tuple(r[2:6]) if r[0] == 2 else tuple(r[i] + 256 * r[i + 1] for i in (2, 4, 6, 8)) for r in records if r[0] in (2, 4)]
    if any(not 1 <= v <= 1024 for v in N):
        return 3
    cells = 1
    for v in N:
        cells *= v
    if cells > 16384:
        return 4
    if any(r[0] == 4 and not any(r[3:10:2]) for r in records):
        return 18
    if B and next(rows_left(N, B), None) is None:
        return 20
    if any(not any(d) for d in D) or len(set(D)) < len(D) or any(any(d[n:]) for d in D):
        return 5
    if any(not 1 <= k[j] <= 1024 or any(k[j] < d[j] for d in D) for j in range(n)):
        return 6
    spread = [j for j in range(n) if P[j] != 0]
    boards = 1
    for j in spread:
        boards *= P[j]
    if spread == [] or spread != list(range(len(spread))):
        return 16
    if n - 1 in spread:
        return 17
    if boards > 64:
        return 7
    tiles = 1
    for j in range(n):
        tiles *= len({i // k[j] for i in range(N[j])})
    if B:
        before = {}
        for s, first, last in rows_left(N, B):
            before.setdefault(tuple(i // q for i, q in zip(s, k)), set()).update(range(first // k[-1], last // k[-1] + 1))
        tiles = sum(len(q) for q in before.values())
    return 8 if tiles > 1024 else 0


# ---- the cases

CASES = []


def case(label, b, expected=None):
    got = number(b)
    assert expected is None or expected == got, (label, expected, got)
    assert len(label) < 256 and len(b) < 65536
    CASES.append((label, b, got))


def splice(b, at, value):
    return b[:at] + bytes([value]) + b[at + 1:]


A = recipe([8, 8], [2, 2], [2, 0], [(1, 0), (0, 1), (1, 1)])
C = recipe([8, 8, 8], [4, 4, 4], [2, 2, 0], [(2, 1, 0)])
D = recipe([4, 1], [2, 1], [2, 0], [(1, 0)])
FOUR = recipe([4, 3, 5, 2], [2, 2, 4, 3], [2, 3, 0, 0], [(1, 0, 3, 2), (0, 1, 0, 0)], 31, 4294967295, [0, 65535])

# the rows of the table
case("row-A", A, 0)
case("row-B", recipe([8, 8], [4, 4], [2, 0], [(2, 1)]), 0)
case("row-C", C, 0)
case("row-D", D, 0)
case("row-E", recipe([5, 1], [2, 1], [2, 0], [(1, 0)]), 0)
case("row-F", recipe([1, 2], [2, 1], [2, 0], [(1, 0)]), 0)
case("row-G", recipe([4, 1], [1, 1], [2, 0], [(1, 0)]), 0)
case("row-H", recipe([4, 1], [2, 1], [1, 0], [(1, 0)]), 0)
case("four-dimensions", FOUR, 0)

# line 1
case("empty", b"", 1)
for size in (1, 15, 17, 31, 63, 65):
    case("bytes-%d" % size, (D + D)[:size], 1)
case("whole-less-one", A[:-1], 1)
case("whole-and-one", A + b"\0", 1)

# line 2: kinds, order and counts
case("one-record", D[:16], 2)
case("zeros", bytes(64), 2)
for r in range(6):
    for kind in (0, 1, 2, 3, 4, 5, 255):
        if kind != A[16 * r]:
            # the first distance read as a third dimension has tile length 0; read as kind 4 the weight is its third component, and in the
            # others the second component is a high byte; read as kind 5 it says that the second component is at least 1
            expected = {(2, 1): 6, (2, 4): 18, (2, 5): 0, (3, 4): 5, (4, 4): 5}.get((r, kind), 2)
            case("kind-%d-in-record-%d" % (kind, r), splice(A, 16 * r, kind), expected)
RA = [A[i:i + 16] for i in range(0, 96, 16)]
for r, expected in enumerate((16, 2, 0, 0, 2)):
    case("records-%d-and-%d-swapped" % (r, r + 1), b"".join(RA[:r] + [RA[r + 1], RA[r]] + RA[r + 2:]), expected)
case("reversed", b"".join(reversed(RA)), 2)
case("close-first", RA[5] + b"".join(RA[:5]), 2)
case("no-close", A[:-16], 2)
case("two-closes", A + RA[5], 2)
case("a-recipe-twice", D + D, 2)
case("no-dimension", b"".join(RA[2:]), 2)
case("one-dimension", recipe([8], [2], [2], [(1,)]), 2)
case("five-dimensions", recipe([2] * 5, [2] * 5, [2, 0, 0, 0, 0], [(1, 0)]), 2)
case("no-distance", recipe([8, 8], [2, 2], [2, 0], []), 2)
EIGHT = [(1, 0), (0, 1), (1, 1), (2, 0), (0, 2), (2, 1), (1, 2), (2, 2)]
case("one-distance", recipe([8, 8], [4, 4], [2, 0], EIGHT[:1]), 0)
case("eight-distances", recipe([8, 8], [4, 4], [2, 0], EIGHT), 0)
case("nine-distances", recipe([8, 8], [4, 4], [2, 0], EIGHT + [(3, 3)]), 2)
case("thirteen-records", recipe([2, 2, 2, 2], [3, 3, 3, 1], [2, 0, 0, 0], EIGHT), 0)
case("fourteen-records", recipe([2, 2, 2, 2], [3, 3, 3, 1], [2, 0, 0, 0], EIGHT + [(3, 3)]), 2)
case("hundred-records", b"".join([RA[0]] * 100), 2)

# line 2: bytes not named, and the shift
for place in (1, 8, 9, 10, 11, 12, 13, 14, 15):
    case("dimension-byte-%d" % place, splice(A, 16 + place, 1), 2)
    case("distance-byte-%d" % place, splice(A, 48 + place, 128), 2)
for place in (2, 3, 8, 9, 10, 11, 12, 13, 14, 15):
    case("close-byte-%d" % place, splice(A, 80 + place, 255), 2)
for shift, expected in ((0, 0), (1, 0), (31, 0), (32, 2), (33, 2), (255, 2)):
    case("shift-%d" % shift, recipe([8, 8], [2, 2], [2, 0], [(1, 0)], shift), expected)
case("shore-4294967295", recipe([8, 8], [2, 2], [2, 0], [(1, 0)], 0, 4294967295), 0)

# line 3
for length, expected in ((0, 3), (1, 0), (1024, 0), (1025, 3), (1280, 3), (65535, 3)):
    case("length-%d-then-16" % length, recipe([length, 16], [1024, 16], [2, 0], [(1, 0)]), expected)
    case("length-16-then-%d" % length, recipe([16, length], [16, 1024], [2, 0], [(1, 0)]), expected)
case("length-0-in-the-last-of-four", recipe([2, 2, 2, 0], [2, 2, 2, 2], [2, 0, 0, 0], [(1, 0)]), 3)

# line 4
case("cells-128-128", recipe([128, 128], [4, 4], [2, 0], [(1, 0)]), 0)
case("cells-128-129", recipe([128, 129], [4, 4], [2, 0], [(1, 0)]), 4)
case("cells-16384", recipe([16, 32, 32], [4, 4, 4], [2, 0, 0], [(1, 0)]), 0)
case("cells-16385", recipe([113, 145], [8, 8], [2, 0], [(1, 0)]), 4)
case("cells-1024-16", recipe([1024, 16], [32, 2], [2, 0], [(1, 0)]), 0)
case("cells-1024-17", recipe([1024, 17], [32, 2], [2, 0], [(1, 0)]), 4)
case("cells-2^40", recipe([1024] * 4, [1024] * 4, [2, 0, 0, 0], [(1, 0)]), 4)
case("cells-2^32", recipe([256] * 4, [1024] * 4, [2, 0, 0, 0], [(1, 0)]), 4)

# line 5
case("distance-zero", recipe([8, 8], [4, 4], [2, 0], [(0, 0)]), 5)
case("distance-zero-last", recipe([8, 8], [4, 4], [2, 0], EIGHT[:7] + [(0, 0)]), 5)
case("distance-twice", recipe([8, 8], [4, 4], [2, 0], [(1, 2), (1, 2)]), 5)
case("distance-twice-other-weight", recipe([8, 8], [4, 4], [2, 0], [(1, 2), (1, 2)], weights=[1, 2]), 5)
case("distance-first-is-eighth", recipe([8, 8], [4, 4], [2, 0], EIGHT[:7] + [(1, 0)]), 5)
case("distance-seventh-is-eighth", recipe([8, 8], [4, 4], [2, 0], EIGHT[:7] + [(1, 2)]), 5)
case("component-3-of-2", recipe([8, 8], [4, 4], [2, 0], [(1, 0, 1)]), 5)
case("component-4-of-2", recipe([8, 8], [4, 4], [2, 0], [(1, 0, 0, 255)]), 5)
case("component-4-of-3", recipe([8, 8, 8], [4, 4, 4], [2, 0, 0], [(1, 0, 0, 1)]), 5)
case("component-3-of-3", recipe([8, 8, 8], [4, 4, 4], [2, 0, 0], [(0, 0, 1)]), 0)
case("component-4-of-4", recipe([4, 4, 4, 4], [4, 4, 4, 4], [2, 0, 0, 0], [(0, 0, 0, 1)]), 0)
case("weight-0", recipe([8, 8], [4, 4], [2, 0], [(1, 0)], weights=[0]), 0)
case("weight-65535", recipe([8, 8], [4, 4], [2, 0], [(1, 0)], weights=[65535]), 0)

# kind 4 and line 18
def mixed(*records, n=2, tile=1024):
    return b"".join(dimension(8, tile if j == 0 else 4, 2 if j == 0 else 0) for j in range(n)) + b"".join(records) + close()


for first, expected in ((0, 18), (1, 18), (255, 18), (256, 0), (300, 0), (511, 0), (1024, 0), (1025, 6), (65535, 6)):
    case("wide-%d" % first, mixed(wide((first, 0))), expected)
    case("wide-1-%d" % first, recipe([8, 8], [4, 1024], [2, 0], [])[:32] + wide((1, first)) + close(), expected)
for place in (2, 3):
    case("wide-high-byte-in-component-%d-of-2" % place, mixed(wide([0] * place + [256])), 5)
    case("wide-low-byte-in-component-%d-of-2" % place, mixed(wide([0] * place + [1])), 18)
case("wide-in-the-last-of-four", recipe([2, 2, 2, 600], [2, 2, 2, 300], [2, 0, 0, 0], [(0, 0, 0, 300), (1, 1, 1, 0)]), 0)
case("wide-as-an-earlier-distance", mixed(distance((1, 0)), wide((1, 0))), 18)
case("wide-as-an-earlier-wide-one", mixed(wide((300, 0)), distance((1, 0)), wide((300, 0), 7)), 5)
case("wide-and-a-distance-of-its-low-byte", mixed(wide((300, 0)), distance((44, 0))), 0)
case("wide-between-two-distances", mixed(distance((1, 0)), wide((300, 2), 65535), distance((2, 0))), 0)
case("narrow-behind-a-wide-one", mixed(wide((300, 0)), wide((2, 255))), 18)
case("wide-before-the-dimensions", wide((300, 0)) + mixed(distance((1, 0))), 2)
case("wide-behind-the-close", mixed(distance((1, 0))) + wide((300, 0)), 2)
for wides in (0, 1, 4, 7, 8):
    both = [wide((256 + x, 0)) for x in range(wides)] + [distance((1 + x, 0)) for x in range(8 - wides)]
    case("wides-%d-of-eight" % wides, mixed(*both), 0)
    case("wides-%d-of-nine" % wides, mixed(*both, distance((99, 0))), 2)
    case("wides-%d-of-nine-and-one" % wides, mixed(wide((999, 0)), *both), 2)
for place in (1, 12, 13, 14, 15):
    case("wide-byte-%d" % place, splice(mixed(wide((300, 0))), 32 + place, 1), 2)
case("narrow-and-distance-zero", mixed(distance((0, 0)), wide((2, 0))), 18)
case("narrow-and-too-large", recipe([129, 128], [8, 8], [2, 0], [])[:32] + wide((2, 0)) + close(), 4)
case("tile-299-distance-300", mixed(wide((300, 0)), tile=299), 6)
case("tile-300-distance-300", mixed(wide((300, 0)), tile=300), 0)

# kind 5 and line 20
def shape(*bounds, N=(8, 8), k=(4, 4), P=(2, 0), V=((1, 0),)):
    return recipe(N, k, P, list(V), bounds=bounds)


BAND = (0, 1, 0, 1, -2)
for side, expected in ((0, 0), (1, 0), (2, 2), (3, 2), (128, 2), (255, 2)):
    case("bound-side-%d" % side, shape((side, 1, 0, 0, 3)), expected)
for j, e, expected in ((0, 0, 2), (1, 0, 0), (1, 1, 2), (1, 2, 2), (2, 0, 2), (2, 1, 2), (0, 1, 2), (1, 255, 2), (255, 0, 2), (255, 254, 2)):
    case("bound-of-%d-by-%d-of-2" % (j, e), shape((1, j, e, 0, 3)), expected)
for j, e, expected in ((0, 0, 2), (1, 0, 0), (2, 0, 0), (2, 1, 0), (3, 0, 0), (3, 1, 0), (3, 2, 0), (3, 3, 2), (2, 3, 2), (4, 0, 2)):
    case("bound-of-%d-by-%d-of-4" % (j, e), shape((0, j, e, 0, 1), N=(4,) * 4, k=(4,) * 4, P=(2, 0, 0, 0)), expected)
for j, e, expected in ((1, 0, 0), (2, 0, 0), (2, 1, 0), (3, 0, 2), (2, 2, 2)):
    case("bound-of-%d-by-%d-of-3" % (j, e), shape((0, j, e, 1, 0), N=(4,) * 3, k=(4,) * 3, P=(2, 2, 0)), expected)
for slope, expected in ((0, 0), (1, 0), (-1, 0), (2, 2), (-2, 2), (127, 2), (-128, 2), (-127, 2)):
    case("bound-slope-%d" % slope, shape((1, 1, 0, slope, 3)), expected)
for place in (5, 8, 9, 10, 11, 12, 13, 14, 15):
    case("bound-byte-%d" % place, splice(shape(BAND), 32 + place, 1), 2)
for count in range(7):
    case("bounds-%d" % count, shape(*[BAND] * count), 0 if count < 5 else 2)
case("bounds-4-distances-8-of-four", recipe([2] * 4, [3, 3, 3, 1], [2, 0, 0, 0], EIGHT, bounds=[(0, 3, 2, 1, 0)] * 4), 0)
case("bounds-4-distances-9", recipe([8, 8], [4, 4], [2, 0], EIGHT + [(3, 3)], bounds=[BAND] * 4), 2)
case("bound-before-the-dimensions", bound(*BAND) + shape(), 2)
case("bound-between-the-dimensions", shape()[:16] + bound(*BAND) + shape()[16:], 2)
case("bound-behind-a-distance", shape()[:-16] + bound(*BAND) + close(), 2)
case("bound-between-distances", shape(V=EIGHT)[:-32] + bound(*BAND) + shape(V=EIGHT)[-32:], 2)
case("bound-behind-the-close", shape() + bound(*BAND), 2)
case("bound-in-the-distances-place", shape()[:32] + bound(*BAND) + close(), 2)
case("bound-of-one-dimension", recipe([8], [4], [2], [(1,)], bounds=[(0, 1, 0, 0, 0)]), 2)
case("bound-fourth-faulty", shape(BAND, BAND, BAND, (0, 1, 0, 2, 0)), 2)
case("bound-and-a-wide-distance", shape(BAND, k=(300, 4), V=((300, 0), (1, 0))), 0)
# the last offset with a cell, and the first without one: by each side and slope
for side, slope, offset in ((0, 0, 7), (0, 1, 7), (0, -1, 14), (1, 0, 0), (1, 1, -7), (1, -1, 0)):
    worse = offset + 1 if side == 0 else offset - 1
    case("shape-%d-slope-%d-%d" % (side, slope, offset), shape((side, 1, 0, slope, offset)), 0)
    case("shape-%d-slope-%d-%d" % (side, slope, worse), shape((side, 1, 0, slope, worse)), 20)
for offset in (-32768, -1024, -256, -8, 8, 255, 256, 1024, 32767):
    for side in (0, 1):
        case("shape-%d-offset-%d" % (side, offset), shape((side, 1, 0, 0, offset)), 20 if (offset > 0) == (side == 0) else 0)
for slope in (1, -1):
    for side, offset in ((0, -32768), (0, 32767), (1, -32768), (1, 32767)):
        expected = 20 if (offset > 0) == (side == 0) else 0
        case("shape-1024-long-%d-slope-%d-offset-%d" % (side, slope, offset),
             shape((side, 1, 0, slope, offset), N=(1024, 16), k=(64, 16)), expected)
case("shape-between-two-bounds", shape((0, 1, 0, 1, 2), (1, 1, 0, 1, 2)), 0)
case("shape-between-no-bounds", shape((0, 1, 0, 1, 2), (1, 1, 0, 1, 1)), 20)
case("shape-crossed", shape((0, 1, 0, 1, 0), (1, 1, 0, -1, 0)), 0)
case("shape-of-the-last-cell", shape((0, 1, 0, 0, 7), (0, 1, 0, -1, 14)), 0)
case("shape-of-no-cell-by-three", shape((0, 1, 0, 0, 7), (0, 1, 0, -1, 14), (1, 1, 0, 1, -1)), 20)
case("shape-of-cell-63-by-three", shape((0, 1, 0, 0, 7), (0, 1, 0, -1, 14), (1, 1, 0, 1, 0)), 0)
case("shape-through-an-unbounded-middle", shape((0, 2, 0, 1, 0), (1, 2, 1, -1, 0), N=(4,) * 3, k=(4,) * 3, P=(2, 0, 0)), 0)
case("shape-of-no-cell-in-the-middle", shape((0, 1, 0, 1, 0), (1, 1, 0, 0, -1), N=(4,) * 3, k=(4,) * 3, P=(2, 0, 0)), 20)
case("shape-of-16384-cells", shape((0, 1, 0, -1, 254), N=(128, 128), k=(16, 16)), 0)
case("shape-of-no-cell-of-16384", shape((0, 1, 0, -1, 255), N=(128, 128), k=(16, 16)), 20)
# line 8 counts the tiles that hold a cell
for offset, expected in ((62, 0), (63, 0), (64, 8), (65, 8)):
    case("shape-tiles-upto-%d" % offset, shape((1, 1, 0, 0, offset), N=(128, 128), k=(4, 2)), expected)
for bounds, expected in ((((1, 1, 0, 1, 0),), 8), (((1, 1, 0, 1, -5),), 0), (((1, 1, 0, 1, -1),), 8), (((0, 1, 0, 1, 0), (1, 1, 0, 1, 30)), 0)):
    case("shape-tiles-sloping-" + "-".join(str(b[4]) for b in bounds), shape(*bounds, N=(128, 128), k=(4, 2)), expected)
case("shape-tiles-1024-of-2048", recipe([64, 32, 4], [2, 1, 2], [2, 0, 0], [(1, 0, 0)], bounds=[(0, 2, 0, 0, 2)]), 0)
case("shape-tiles-1056-of-2112", recipe([64, 33, 4], [2, 1, 2], [2, 0, 0], [(1, 0, 0)], bounds=[(0, 2, 0, 0, 2)]), 8)
case("shape-tiles-1023-of-1364", recipe([2, 2, 11, 31], [1] * 4, [2, 0, 0, 0], [(1, 1, 0, 0)], bounds=[(0, 1, 0, 1, 0)]), 0)
case("shape-of-one-tile-of-16384", shape((0, 1, 0, -1, 254), N=(128, 128), k=(1, 1), V=((1, 1),)), 0)
# a record of kind 5 with each byte damaged in turn
SLOPED = shape((1, 1, 0, -1, 259), N=(200, 64), k=(8, 16))
case("sloped", SLOPED, 0)
for at in range(32, 48):
    case("sloped-byte-%d-one-more" % at, splice(SLOPED, at, (SLOPED[at] + 1) % 256))
    case("sloped-byte-%d-high-bit" % at, splice(SLOPED, at, SLOPED[at] ^ 128))

# line 6
for tile, expected in ((0, 6), (1, 6), (2, 0), (3, 0), (1024, 0), (1025, 6), (65535, 6)):
    case("tile-%d-distance-2" % tile, recipe([8, 8], [tile, 4], [2, 0], [(2, 0)]), expected)
    case("tile-%d-distance-2-in-the-second" % tile, recipe([8, 8], [4, tile], [2, 0], [(1, 2)]), expected)
case("tile-1-distance-0", recipe([8, 8], [2, 1], [2, 0], [(1, 0)]), 0)
case("tile-254-distance-255", recipe([8, 8], [254, 2], [2, 0], [(255, 0)]), 6)
case("tile-255-distance-255", recipe([8, 8], [255, 2], [2, 0], [(255, 0)]), 0)
case("tile-256-distance-255", recipe([8, 8], [256, 2], [2, 0], [(255, 0)]), 0)
case("tile-equals-the-eighth-distance", recipe([8, 8], [4, 4], [2, 0], EIGHT[:7] + [(4, 0)]), 0)
case("tile-below-the-eighth-distance", recipe([8, 8], [4, 4], [2, 0], EIGHT[:7] + [(5, 0)]), 6)
case("tile-equals-in-the-last-of-four", recipe([2, 2, 2, 8], [2, 2, 2, 3], [2, 0, 0, 0], [(0, 0, 0, 3)]), 0)
case("tile-below-in-the-last-of-four", recipe([2, 2, 2, 8], [2, 2, 2, 3], [2, 0, 0, 0], [(0, 0, 0, 4)]), 6)
case("tile-1-in-both-distance-1-1", recipe([8, 8], [1, 1], [2, 0], [(1, 1)]), 0)

# lines 16, 17 and 7
for counts, expected in (((0, 0), 16), ((1, 0), 0), ((0, 1), 16), ((0, 2), 16), ((1, 1), 17), ((2, 1), 17), ((2, 2), 17), ((2, 0), 0),
                         ((64, 0), 0), ((65, 0), 7), ((256, 0), 7), ((65535, 0), 7), ((0, 65535), 16), ((65535, 65535), 17),
                         ((2, 0, 0), 0), ((2, 2, 0), 0), ((2, 2, 2), 17), ((2, 0, 2), 16), ((2, 0, 1), 16), ((0, 2, 0), 16), ((0, 0, 2), 16),
                         ((0, 2, 2), 16), ((0, 1, 0), 16), ((2, 1, 0), 0), ((1, 2, 0), 0), ((1, 1, 0), 0), ((1, 2, 2), 17), ((1, 0, 2), 16),
                         ((8, 8, 0), 0), ((32, 2, 0), 0), ((13, 5, 0), 7), ((5, 13, 0), 7), ((13, 5, 2), 17), ((65, 0, 2), 16),
                         ((4, 4, 4, 0), 0), ((4, 4, 5, 0), 7), ((2, 2, 16, 0), 0), ((2, 2, 2, 2), 17), ((2, 2, 0, 2), 16), ((2, 0, 2, 0), 16),
                         ((2, 0, 0, 2), 16), ((2, 0, 0, 0), 0), ((32768, 32768, 4, 0), 7), ((65535, 65535, 65535, 0), 7),
                         ((65535, 65535, 65535, 65535), 17), ((65535, 65535, 0, 65535), 16), ((0, 0, 0, 0), 16),
                         ((1, 6, 0), 0), ((6, 1, 0), 0), ((1, 64, 0), 0), ((1, 65, 0), 7), ((65, 1, 0), 7), ((64, 1, 1, 0), 0), ((1, 64, 1, 0), 0),
                         ((1, 1, 64, 0), 0), ((1, 1, 65, 0), 7), ((1, 1, 1, 0), 0), ((2, 1, 33, 0), 7), ((1, 0, 0, 1), 16), ((1, 1, 1, 1), 17)):
    n = len(counts)
    case("counts-" + "-".join(map(str, counts)), recipe([4] * n, [2] * n, list(counts), [(1, 0)]), expected)

# line 8
case("tiles-1024", recipe([64, 32], [2, 1], [2, 0], [(1, 0)]), 0)
case("tiles-1025", recipe([82, 25], [2, 1], [2, 0], [(1, 0)]), 8)
case("tiles-1025-short-edge", recipe([81, 25], [2, 1], [2, 0], [(1, 0)]), 8)
case("tiles-1000", recipe([80, 25], [2, 1], [2, 0], [(1, 0)]), 0)
case("tiles-8192", recipe([128, 128], [2, 1], [2, 0], [(1, 0)]), 8)
case("tiles-1-of-1024", recipe([1024, 16], [1024, 1024], [2, 0], [(1, 0)]), 0)

# two faults at once: the first line counts, in the order in which the lines are tested
ORDER = (1, 2, 3, 4, 18, 20, 5, 6, 16, 17, 7, 8)


def with_faults(faults, bounds=b""):
    """A recipe of four dimensions with these lines true, and with these records behind its dimensions."""
    N, k, P, V = [4, 4, 1, 1], [2, 2, 2, 2], [2, 0, 0, 0], [(1, 0)]
    if 8 in faults:
        N, k = [64, 33, 1, 1], [2, 1, 2, 2]
    if 4 in faults:
        N = [1024, 1024, 1, 1]
    if 3 in faults:
        N[3] = 1025
    if 5 in faults:
        V = [(1, 0), (0, 0)]
    if 6 in faults:
        k[2] = 1025
    if 16 in faults:
        P = [2, 0, 2, 0]
    if 17 in faults:
        P = [2, 2, 2, 2] if 16 not in faults else [2, 0, 2, 2]
    if 7 in faults:
        P[0] = 65
    b = recipe(N, k, P, V)
    if 18 in faults:
        b = b[:-16] + wide((0, 1)) + b[-16:]
    if 20 in faults:
        bounds += bound(1, 1, 0, 0, -1)
    b = b[:64] + bounds + b[64:]
    if 2 in faults:
        b = splice(b, 9, 1)
    if 1 in faults:
        b = b + b"\0"
    return b


for first in ORDER:
    for second in ORDER[ORDER.index(first) + 1:]:
        case("faults-%d-and-%d" % (first, second), with_faults((first, second)), first)

# line 2 by a bound, and line 8 by the tiles of a shape that cuts cells off, each with every other line
for other in ORDER:
    if other != 2:
        case("faults-bound-and-%d" % other, with_faults((other,), bound(2, 1, 0, 0, 0)), 1 if other == 1 else 2)
    if other not in (4, 8):
        case("faults-shape-and-%d" % other, with_faults((other, 8), bound(0, 1, 0, 1, -58)), other)
case("shape-tiles-1050-of-1056", with_faults((8,), bound(0, 1, 0, 1, -58)), 8)
case("shape-tiles-924-of-1056", with_faults((8,), bound(0, 1, 0, 1, -40)), 0)

# an accepted recipe of 96 bytes with each byte damaged in turn
WHOLE = recipe([8, 9, 7], [4, 3, 2], [2, 3, 0], [(1, 2, 1), (3, 0, 0)], 5, 67305985, [513, 7])
case("whole", WHOLE, 0)
for at in range(len(WHOLE)):
    case("byte-%d-one-more" % at, splice(WHOLE, at, (WHOLE[at] + 1) % 256))
    case("byte-%d-high-bit" % at, splice(WHOLE, at, WHOLE[at] ^ 128))
    if WHOLE[at] != 0:
        case("byte-%d-cleared" % at, splice(WHOLE, at, 0))


def data():
    """The file `numbers`."""
    content = b"".join(bytes([len(l)]) + l.encode() + two(len(b)) + b for l, b, _ in CASES)
    # the room of the program that reads it whole
    assert len(content) <= 120000, len(content)
    assert len({l for l, _, _ in CASES}) == len(CASES)
    return content


def text():
    """What the program prints for it."""
    return "".join("%s %d\n" % (l, n) for l, _, n in CASES).encode()


def check():
    import model
    wrong = ["%s: %d, the model %d" % (l, n, model.read(b)[0]) for l, b, n in CASES if n != model.read(b)[0]]
    counts = {n: sum(1 for c in CASES if c[2] == n) for n in sorted({c[2] for c in CASES})}
    print("\n".join(wrong) or "%d cases, %d bytes, each number as the model has it: %s" % (len(CASES), len(data()), counts))
    sys.exit(1 if wrong else 0)


if __name__ == "__main__":
    if sys.argv[1:] != ["check"]:
        sys.exit(__doc__)
    check()
