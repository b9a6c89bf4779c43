#!/usr/bin/env python3
"""Prints the tables of the Khronos ASTC description (source document 000) as plain text.

trit CODE d0 d1 d2 d3 d4          digits of each 8-bit trit code
quint CODE q0 q1 q2               digits of each 7-bit quint code
endpoint MOST v0 v1 ..            unquantised colour endpoints, stored numbers 0..MOST in order
weight MOST v0 v1 ..              unquantised weights, stored numbers 0..MOST in order
mode M WIDTH HEIGHT RANGE PLANES  2D block mode; or: mode M void, mode M reserved
partition W H COUNT INDEX DIGITS  partition of every texel of the footprint in raster order
layers W H D COUNT INDEX DIGITS   the same of a volume footprint, layer by layer
"""

FOOTPRINTS = [(4, 4), (5, 4), (5, 5), (6, 5), (6, 6), (8, 5), (8, 6), (8, 8),
              (10, 5), (10, 6), (10, 8), (10, 10), (12, 10), (12, 12)]
VOLUMES = [(3, 3, 3), (4, 3, 3), (4, 4, 3), (4, 4, 4), (5, 4, 4), (5, 5, 4), (5, 5, 5), (6, 5, 5), (6, 6, 5), (6, 6, 6)]


def field(x, high, low):
    """Bits high..low of x."""
    return (x >> low) & ((1 << (high - low + 1)) - 1)


# "Integer Sequence Encoding": five trits of T[7:0].
def trits(T):
    if field(T, 4, 2) == 0b111:
        C = field(T, 7, 5) << 2 | field(T, 1, 0)
        t4 = t3 = 2
    else:
        C = field(T, 4, 0)
        if field(T, 6, 5) == 0b11:
            t4, t3 = 2, field(T, 7, 7)
        else:
            t4, t3 = field(T, 7, 7), field(T, 6, 5)
    if field(C, 1, 0) == 0b11:
        t2, t1 = 2, field(C, 4, 4)
        t0 = field(C, 3, 3) << 1 | (field(C, 2, 2) & ~field(C, 3, 3) & 1)
    elif field(C, 3, 2) == 0b11:
        t2, t1, t0 = 2, 2, field(C, 1, 0)
    else:
        t2, t1 = field(C, 4, 4), field(C, 3, 2)
        t0 = field(C, 1, 1) << 1 | (field(C, 0, 0) & ~field(C, 1, 1) & 1)
    return [t0, t1, t2, t3, t4]


# "Integer Sequence Encoding": three quints of Q[6:0].
def quints(Q):
    if field(Q, 2, 1) == 0b11 and field(Q, 6, 5) == 0b00:
        low = ~field(Q, 0, 0) & 1
        q2 = field(Q, 0, 0) << 2 | (field(Q, 4, 4) & low) << 1 | (field(Q, 3, 3) & low)
        q1 = q0 = 4
    else:
        if field(Q, 2, 1) == 0b11:
            q2 = 4
            C = field(Q, 4, 3) << 3 | (~field(Q, 6, 5) & 3) << 1 | field(Q, 0, 0)
        else:
            q2, C = field(Q, 6, 5), field(Q, 4, 0)
        if field(C, 2, 0) == 0b101:
            q1, q0 = 4, field(C, 4, 3)
        else:
            q1, q0 = field(C, 4, 3), field(C, 2, 0)
    return [q0, q1, q2]


def layout(pattern, m):
    """A printed bit pattern such as 'cb000cbcb' with a the lowest bit of m, b the next, .."""
    value = 0
    for letter in pattern:
        bit = 0 if letter == '0' else (m >> (ord(letter) - ord('a'))) & 1
        value = value << 1 | bit
    return value


def replicate(value, bits, width):
    """Bit replication from the most significant bit of the value."""
    return int((format(value, '0%db' % bits) * width)[:width], 2)


# "Endpoint Unquantization": most, digit base (1: bits only), bits, B, C.
ENDPOINT = [
    (5, 3, 1, '000000000', 204), (7, 1, 3, '', 0), (9, 5, 1, '000000000', 113),
    (11, 3, 2, 'b000b0bb0', 93), (15, 1, 4, '', 0), (19, 5, 2, 'b0000bb00', 54),
    (23, 3, 3, 'cb000cbcb', 44), (31, 1, 5, '', 0), (39, 5, 3, 'cb0000cbc', 26),
    (47, 3, 4, 'dcb000dcb', 22), (63, 1, 6, '', 0), (79, 5, 4, 'dcb0000dc', 13),
    (95, 3, 5, 'edcb000ed', 11), (127, 1, 7, '', 0), (159, 5, 5, 'edcb0000e', 6),
    (191, 3, 6, 'fedcb000f', 5), (255, 1, 8, '', 0)]


def endpoint(stored, base, bits, b_pattern, c):
    if base == 1:
        return replicate(stored, bits, 8)
    d, m = stored >> bits, stored & ((1 << bits) - 1)
    a = layout('aaaaaaaaa', m)
    unq = d * c + layout(b_pattern, m)
    unq ^= a
    return (a & 0x80) | (unq >> 2)


# "Weight Unquantization": most, digit base, bits, B, C.
WEIGHT = [
    (1, 1, 1, '', 0), (2, 3, 0, '', 0), (3, 1, 2, '', 0), (4, 5, 0, '', 0),
    (5, 3, 1, '0000000', 50), (7, 1, 3, '', 0), (9, 5, 1, '0000000', 28),
    (11, 3, 2, 'b000b0b', 23), (15, 1, 4, '', 0), (19, 5, 2, 'b0000b0', 13),
    (23, 3, 3, 'cb000cb', 11), (31, 1, 5, '', 0)]


def weight(stored, base, bits, b_pattern, c):
    if base == 1:
        unq = replicate(stored, bits, 6)
    elif bits == 0:
        unq = {3: [0, 32, 63], 5: [0, 16, 32, 47, 63]}[base][stored]
    else:
        d, m = stored >> bits, stored & ((1 << bits) - 1)
        a = layout('aaaaaaa', m)
        unq = d * c + layout(b_pattern, m)
        unq ^= a
        unq = (a & 0x20) | (unq >> 2)
    return unq + 1 if unq > 32 else unq


# "Block mode", the 2D layout table: bits 10..0 of each row, then width and height of the grid.
# D dual plane, P precision, W and H the grid's fields, t s r the bits 2 1 0 of the range value rho,
# x ignored. The void-extent row stands first; what fits no row is reserved.
MODE_ROWS = [
    ('xx111111100', None),
    ('DPWWHHr00ts', lambda w, h: (w + 4, h + 2)),
    ('DPWWHHr01ts', lambda w, h: (w + 8, h + 2)),
    ('DPHHWWr10ts', lambda w, h: (w + 2, h + 8)),
    ('DP0HWWr11ts', lambda w, h: (w + 2, h + 6)),
    ('DP1WHHr11ts', lambda w, h: (w + 2, h + 2)),
    ('DP00HHrts00', lambda w, h: (12, h + 2)),
    ('DP01WWrts00', lambda w, h: (w + 2, 12)),
    ('DP1100rts00', lambda w, h: (6, 10)),
    ('DP1101rts00', lambda w, h: (10, 6)),
    ('HH10WWrts00', lambda w, h: (w + 6, h + 6))]


def block_mode(m):
    bits = format(m, '011b')
    for row, sides in MODE_ROWS:
        if any(p in '01' and p != b for p, b in zip(row, bits)):
            continue
        if sides is None:
            return 'void'
        get = lambda name: int('0' + ''.join(b for p, b in zip(row, bits) if p == name), 2)
        rho = 4 * get('t') + 2 * get('s') + get('r')
        if rho < 2:
            continue
        width, height = sides(get('W'), get('H'))
        return '%d %d %d %d' % (width, height, rho - 2 + 6 * get('P'), 1 + get('D'))
    return 'reserved'


MASK = 0xFFFFFFFF


# "Partition Pattern Generation".
def hash52(p):
    p ^= p >> 15
    p = (p - (p << 17)) & MASK
    p = (p + (p << 7)) & MASK
    p = (p + (p << 4)) & MASK
    p ^= p >> 5
    p = (p + (p << 16)) & MASK
    p ^= p >> 7
    p ^= p >> 3
    p = (p ^ (p << 6)) & MASK
    p ^= p >> 17
    return p


def select_partition(seed, x, y, z, count, small_block):
    if small_block:
        x, y, z = x << 1, y << 1, z << 1
    seed += (count - 1) * 1024
    rnum = hash52(seed)
    seeds = [(rnum >> shift) & 0xF for shift in (0, 4, 8, 12, 16, 20, 24, 28, 18, 22, 26)]
    seeds.append(((rnum >> 30) | (rnum << 2)) & MASK & 0xF)
    seeds = [s * s for s in seeds]
    if seed & 1:
        sh1, sh2 = (4 if seed & 2 else 5), (6 if count == 3 else 5)
    else:
        sh1, sh2 = (6 if count == 3 else 5), (4 if seed & 2 else 5)
    sh3 = sh1 if seed & 0x10 else sh2
    s = [None] + [v >> (sh3 if i >= 8 else sh2 if i % 2 else sh1) for i, v in enumerate(seeds)]
    a = (s[1] * x + s[2] * y + s[11] * z + (rnum >> 14)) & 0x3F
    b = (s[3] * x + s[4] * y + s[12] * z + (rnum >> 10)) & 0x3F
    c = (s[5] * x + s[6] * y + s[9] * z + (rnum >> 6)) & 0x3F
    d = (s[7] * x + s[8] * y + s[10] * z + (rnum >> 2)) & 0x3F
    d = d if count > 3 else 0
    c = c if count > 2 else 0
    if a >= b and a >= c and a >= d:
        return 0
    if b >= c and b >= d:
        return 1
    return 2 if c >= d else 3


def main():
    for code in range(256):
        print('trit', code, *trits(code))
    for code in range(128):
        print('quint', code, *quints(code))
    for most, *rule in ENDPOINT:
        print('endpoint', most, *[endpoint(v, *rule) for v in range(most + 1)])
    for most, *rule in WEIGHT:
        print('weight', most, *[weight(v, *rule) for v in range(most + 1)])
    for m in range(2048):
        print('mode', m, block_mode(m))
    for width, height in FOOTPRINTS:
        for count in (2, 3, 4):
            for index in (0, 1, 2, 511, 512, 1023):
                digits = ''.join(str(select_partition(index, x, y, 0, count, width * height < 31))
                                 for y in range(height) for x in range(width))
                print('partition', width, height, count, index, digits)
    for width, height, depth in VOLUMES:
        for count in (2, 3, 4):
            for index in (0, 1, 2, 511, 512, 1023):
                digits = ''.join(str(select_partition(index, x, y, z, count, width * height * depth < 31))
                                 for z in range(depth) for y in range(height) for x in range(width))
                print('layers', width, height, depth, count, index, digits)


if __name__ == '__main__':
    main()
