#!/usr/bin/env python3
"""Prints the values of the samples in proofs/Samples.antt of the crates volume_infill, volume_layout and volume_mode, reckoned from 000 and 02 by other means: 000's table as it is printed, over positions in the list of weights, held to a walk along the sorted fractions;
blocks and places by counting; block modes by the rows of 000's table, bit by bit, and back by trying all.

infill BLOCK GRID PLANES : WEIGHTS    the weights of the texels (0, 0, 0), (1, 2, 0), .. below, plane by plane
block SIZE FOOTPRINT : INDEXES        which block shows these texels
count SIZE FOOTPRINT : BLOCKS NUMBERS
modes : DIGEST                        of what all 2,048 modes of a volume say
bits : DIGEST                         of the smallest mode of each grid, range and planes
"""

# fs > ft, ft > fr, fs > fr: s1, s2 and the four factors; an implied test is left out (None)
TABLE = [
    ((True, True, None), 's', 't', lambda s, t, r: (16 - s, s - t, t - r, r)),
    ((False, None, True), 't', 's', lambda s, t, r: (16 - t, t - s, s - r, r)),
    ((None, False, True), 's', 'r', lambda s, t, r: (16 - s, s - r, r - t, t)),
    ((True, None, False), 'r', 's', lambda s, t, r: (16 - r, r - s, s - t, t)),
    ((None, True, False), 't', 'r', lambda s, t, r: (16 - t, t - r, r - s, s)),
    ((False, False, None), 'r', 't', lambda s, t, r: (16 - r, r - t, t - s, s)),
]


def place(side, points, i):
    """The place of texel i on an axis, in sixteenths of a step; nothing to go along where the grid has one point."""
    scale = (1024 + side // 2) // (side - 1)
    return (scale * i * (points - 1) + 32) >> 6


def infill(weight, grid, block, texel):
    width, height, _ = grid
    g = [place(b, n, i) for b, n, i in zip(block, grid, texel)]
    (js, fs), (jt, ft), (jr, fr) = (divmod(x, 16) for x in g)
    step = {'s': 1, 't': width, 'r': width * height}
    tests = (fs > ft, ft > fr, fs > fr)
    rows = [row for row in TABLE if all(want is None or want == is_ for want, is_ in zip(row[0], tests))]
    v0 = js + jt * width + jr * width * height
    found = set()
    for _, s1, s2, factors in rows:
        w = factors(fs, ft, fr)
        v = (v0, v0 + step[s1], v0 + step[s1] + step[s2], v0 + width * height + width + 1)
        found.add((sum(weight(n) * f for n, f in zip(v, w)) + 8) >> 4)
    # the same by walking along the largest fraction first
    order = sorted([(fs, 1), (ft, width), (fr, width * height)], key=lambda p: -p[0])
    total, at, before = 0, v0, 16
    for fraction, stride in order:
        total += weight(at) * (before - fraction)
        at, before = at + stride, fraction
    found.add((total + weight(at) * before + 8) >> 4)
    assert len(found) == 1, (found, tests)
    return found.pop(), tests


TEXELS = [(0, 0, 0), (1, 2, 0), (2, 1, 1), (1, 1, 2), (0, 2, 1), (2, 0, 1), (0, 1, 2), (1, 0, 2), (2, 2, 2), (3, 1, 2), (1, 3, 2), (2, 3, 1), (3, 2, 3)]


def samples():
    met = set()
    for block, grid, planes in [((6, 6, 6), (4, 3, 5), 1), ((5, 5, 4), (2, 3, 4), 2), ((4, 4, 4), (4, 4, 4), 1), ((6, 5, 5), (6, 2, 2), 1)]:
        for plane in range(planes):
            count = grid[0] * grid[1] * grid[2]
            weight = lambda n: ((n * planes + plane) * 37 + 11) % 65 if n < count else 0
            values = []
            for t in TEXELS:
                value, tests = infill(weight, grid, block, t)
                met.add(tests)
                values.append(value)
            print('infill', block, grid, planes, plane, ':', *values)
    print('tests met:', len(met))


def blocks(size, block):
    """Each texel's block and place, by going through them: x fastest, then y, then z."""
    w, h, d = size
    index, starts = {}, 0
    for z in range(0, d, block[2]):
        for y in range(0, h, block[1]):
            for x in range(0, w, block[0]):
                index[x // block[0], y // block[1], z // block[2]] = starts
                starts += 1
    places, at = {}, 0
    for z in range(d):
        for y in range(h):
            for x in range(w):
                places[x, y, z] = at
                at += 4
    return index, places, starts


def layouts():
    for size, block, last in [((13, 11, 7), (4, 3, 3), (12, 10, 6)), ((7, 9, 3), (5, 4, 1), (6, 8, 2))]:
        index, places, count = blocks(size, block)
        x, y, z = last
        texels = [(0, 0, 0), (x, 0, 0), (0, y, 0), (0, 0, z), (x, y, 0), (x, 0, z), (0, y, z), last, (4, 3, 1), (5, 6, 2)]
        print('block', size, block, ':', *(index[x // block[0], y // block[1], z // block[2]] for x, y, z in texels))
        print('place', size, ':', *(places[t] for t in texels))
        print('count', size, block, ':', count, 4 * size[0] * size[1] * size[2])



# "ASTC 3D block mode layout": bits 10 to 0, and width, height, depth; p is the dual-plane bit, q the precision bit, a, c and b the range's bits 0, 2 and 1
ROWS = [
    ('pqHHWWaDDcb', lambda f: (f['W'] + 2, f['H'] + 2, f['D'] + 2)),
    ('HH00DDacb00', lambda f: (6, f['H'] + 2, f['D'] + 2)),
    ('DD01WWacb00', lambda f: (f['W'] + 2, 6, f['D'] + 2)),
    ('HH10WWacb00', lambda f: (f['W'] + 2, f['H'] + 2, 6)),
    ('pq1100acb00', lambda f: (6, 2, 2)),
    ('pq1101acb00', lambda f: (2, 6, 2)),
    ('pq1110acb00', lambda f: (2, 2, 6)),
]


def mode(m):
    """(width, height, depth, range, planes), 'void' or 'reserved'."""
    text = format(m, '011b')
    if text.endswith('111111100'):
        return 'void'
    if text.endswith('0000') or (text.endswith('00') and text[2:6] == '1111'):
        return 'reserved'
    for pattern, sides in (ROWS[1:] if text.endswith('00') else ROWS[:1]):
        if all(c not in '01' or c == t for c, t in zip(pattern, text)):
            fields = {}
            for c, t in zip(pattern, text):
                fields[c] = 2 * fields.get(c, 0) + int(t)
            rho = 4 * fields['c'] + 2 * fields['b'] + fields['a']
            return sides(fields) + (rho - 2 + 6 * fields.get('q', 0), 1 + fields.get('p', 0))
    raise AssertionError(text)


def digest(numbers):
    total = 0
    for n in numbers:
        total = (31 * total + n) % 1000003
    return total


def modes():
    said = [mode(m) for m in range(2048)]
    number = lambda x: {'void': 1, 'reserved': 2}.get(x) or 3 + x[0] + 7 * (x[1] + 7 * (x[2] + 7 * (x[3] + 12 * x[4])))
    print('modes :', digest(number(x) for x in said), 'void', said.count('void'), 'reserved', said.count('reserved'))
    least = {}
    for m in reversed(range(2048)):
        least[said[m]] = m
    grids = [(w, h, d, r, p) for p in (1, 2) for r in range(12) for d in range(2, 7) for h in range(2, 7) for w in range(2, 7)]
    print('bits :', digest(1 + least[g] if g in least else 0 for g in grids))
    doubles = [g for g in grids if said.count(g) == 2]
    assert len(doubles) == 18 and all(said.count(g) <= 2 for g in grids)
    print('doubles :', len(doubles), sorted({g[:3] for g in doubles}), sorted({g[3] for g in doubles}), {g[4] for g in doubles})


samples()
layouts()
modes()
