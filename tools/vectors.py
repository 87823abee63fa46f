#!/usr/bin/env python3
"""Writes the vectors of records: tools/vectors.py crates/vectors

A second implementation of the rules in docs/FORMAT.md, in Python and by the same authors, not taken from archived files: for each kind a lawful record, each item at its least and its most, each rule
broken alone and each pair of rules broken together, and every packet read back. The files stdin and stdout of the
program `vectors` are written: one vector a line, and what has to be printed for it."""
import itertools
import os
import sys

S32 = (-2**31, 2**31 - 1)
ORBIT_BITS = [32, 10, 22, -32, -32, 3, 7, 7, 2, 6, 2, 2, 2, 1, 7, 10, 1, 22, 24, -20, 22, 22]
RAMP_BITS = [32, 32, -32, -32, 22, 10, 32, 32, 32, 32]
CLOCK_BITS = [32, 32, -32, -32, 32, 32, 32, 32, 32]
LABEL_BITS = [8] * 16 + [32] * 5
TYPES = {1, 2, 3, 4, 5, 6, 11, 12, 13, 36, 37, 41, 51, 52, 53, 54, 55, 56, 57, 58}


def fits(bits, n):
    return 0 <= n < 2**bits if bits > 0 else -2**(-bits - 1) <= n < 2**(-bits - 1)


def pair(whole, part):
    return abs(part) <= 999_999_999 and whole * part >= 0


def orbit(i):
    """Which of the items 1 to 22 keep their rules."""
    i = [None] + i
    kind, angle = i[10], 51 <= i[10] <= 58
    one_way = kind == 11 or kind in (36, 37, 41) and i[8] == 0
    zero = set()
    if angle:
        zero |= {8, 11, 12, 13, 15, 17, 18, 19, 21, 22}
    if kind in (3, 4, 6, 11):
        zero.add(8)
    if one_way:
        zero.add(12)
    if kind == 36:
        zero |= {15, 21}
    if kind == 41:
        zero.add(21)
    if kind in (2, 4) or i[9] == 3 and not one_way:
        zero |= {18, 19}
    if not (1 <= kind <= 6 or kind == 37 or 11 <= kind <= 13 and i[9] == 2):
        zero.add(20)
    good = {k: fits(ORBIT_BITS[k - 1], i[k]) and (k not in zero or i[k] == 0) for k in range(1, 23)}
    good[2] &= i[2] <= 999
    good[4] &= kind != 41 or 0 <= i[4] <= 999_999_999
    good[5] &= pair(i[4], i[5]) and (kind != 41 or i[5] >= 0)
    good[6] &= i[6] == 2
    good[7] &= i[7] != 0
    good[10] &= kind in TYPES
    good[20] &= not 1 <= kind <= 6 or i[20] >= -100_000
    good[20] &= not 1 <= kind <= 4 or i[20] % 10_000 == 0
    return [good[k] for k in range(1, 23)]


def ramp(i):
    good = [fits(b, n) for b, n in zip(RAMP_BITS, i)]
    good[1] &= i[1] <= 999_999_999
    good[3] &= pair(i[2], i[3])
    good[5] &= 1 <= i[5] <= 1023
    good[6] &= i[6] <= 999_999_999
    good[7] &= i[7] <= 999_999_999
    good[8] &= fits(32, i[9]) and i[9] <= 999_999_999 and (i[8], i[9]) > (i[0], i[1])
    good[9] = True
    return good


def clock(i):
    good = [fits(b, n) for b, n in zip(CLOCK_BITS, i)]
    good[1] &= i[1] <= 999_999_999
    good[3] &= pair(i[2], i[3])
    good[4] &= 1 <= i[4] <= 1023
    good[5] &= i[5] <= 1023
    for k in (6, 7, 8):
        good[k] &= i[k] == 0
    return good


def label(i):
    good = [0x20 <= n <= 0x7e for n in i[:16]] + [fits(32, n) for n in i[16:]]
    good[16] &= 1 <= i[16] <= 1023
    year, month, day = i[17] // 10_000, i[17] // 100 % 100, i[17] % 100
    days = [31, 29 if year % 4 == 0 else 28, 31, 30, 31, 30, 31, 31, 30, 31, 30, 31]
    good[17] &= year <= 99 and 1 <= month <= 12 and 1 <= day <= days[month - 1]
    good[18] &= i[18] // 10_000 <= 23 and i[18] // 100 % 100 <= 59 and i[18] % 100 <= 59
    good[19] &= i[19] in (0, 19500101)
    good[20] &= i[20] == 0
    return good


KINDS = {'orbit': (ORBIT_BITS, orbit), 'ramp': (RAMP_BITS, ramp), 'clock': (CLOCK_BITS, clock), 'label': (LABEL_BITS, label)}


def packed(bits, items):
    number = 0
    for b, n in zip(bits, items):
        number = number << abs(b) | n % 2**abs(b)
    return '%072x' % number


def answers(kind, items):
    """The lines for a vector: the record formed from its items, and the packet of its items read."""
    bits, rules = KINDS[kind]
    good = rules(items)
    lowest = good.index(False) + 1 if False in good else 0
    text = ' '.join(map(str, items))
    lines = [('form %s %s' % (kind, text), 'refused 31 layer 2 packet 0 item %d byte 0' % lowest if lowest else packed(bits, items))]
    if all(fits(b, n) for b, n in zip(bits, items)):
        lines.append(('read %s %s' % (kind, packed(bits, items)), 'refused 22 layer 2 packet 7 item %d byte 0' % lowest if lowest else text))
    return lines


BASES = {
    'orbit': [
        [1559967600, 500, 1268, -1276400, -125000000, 2, 45, 45, 0, 12, 2, 2, 2, 0, 1, 94, 0, 427043, 9043968, 0, 1000, 1140],
        [1559967635, 0, 0, 611402, 250000000, 2, 14, 0, 1, 37, 2, 0, 2, 1, 14, 53, 1, 7, 9, -3, 400120, 0],
        [1559967640, 999, 4194303, 12, 7, 2, 127, 0, 3, 41, 1, 0, 0, 0, 127, 1023, 1, 0, 1, 0, 0, 5],
        [0, 0, 0, -90, -1, 2, 1, 0, 0, 55, 0, 0, 0, 0, 0, 77, 0, 0, 0, 0, 0, 0],
        [1, 1, 1, 3, 0, 2, 14, 63, 0, 1, 3, 1, 1, 0, 43, 500, 1, 1, 1, -100000, 60, 3],
        [1, 1, 1, -3, -250000000, 2, 14, 0, 2, 11, 3, 0, 1, 0, 2, 500, 0, 1, 1, 524287, 60, 3],
        [4294967295, 1, 1, 2147483647, 999999999, 2, 14, 1, 3, 13, 3, 1, 1, 0, 2, 500, 0, 0, 0, 0, 60, 3],
        [1, 1, 1, -2147483648, 0, 2, 14, 0, 0, 6, 3, 1, 1, 0, 2, 500, 0, 1, 1, -99999, 60, 3]],
    'ramp': [[1559967000, 1, -1, -412000000, 7, 45, 164624800, 5, 1559967660, 0],
             [5, 999999999, 2147483647, 999999999, 4194303, 1023, 999999999, 999999999, 6, 0],
             [5, 5, -2147483648, -1, 0, 1, 0, 0, 5, 6]],
    'clock': [[1559964000, 0, 0, -1930, 45, 0, 0, 0, 0], [4294967295, 999999999, 7, 8, 1023, 1023, 0, 0, 0]],
    'label': [list(b'AXP2300 ODE V2.0') + [94, 990613, 101530, 19500101, 0], list(b'~' * 16) + [1023, 229, 235959, 0, 0]],
}
# for each item numbers that break its rule, in a record or out of its width
WRONG = {
    'orbit': {1: [2**32, -1], 2: [1000, 1024], 3: [2**22], 4: [2**31, -2**31 - 1], 5: [10**9, -10**9], 6: [0, 3, 8], 7: [0, 128],
              8: [128, 3], 9: [4], 10: [0, 7, 42, 59, 64], 11: [4, 1], 12: [4, 1], 13: [4, 1], 14: [2], 15: [128, 1], 16: [1024],
              17: [2, 1], 18: [2**22, 1], 19: [2**24, 1], 20: [2**19, -2**19 - 1, -100001, 1, 5000], 21: [2**22, 1], 22: [2**22, 1]},
    'ramp': {1: [2**32], 2: [10**9], 3: [2**31], 4: [10**9, 1, -1], 5: [2**22], 6: [0, 1024], 7: [10**9], 8: [10**9], 9: [0, 2**32], 10: [10**9, 2**32]},
    'clock': {1: [2**32, -1], 2: [10**9], 3: [-2**31 - 1], 4: [-10**9, 1, -1], 5: [0, 1024], 6: [1024], 7: [1], 8: [1, 2**32], 9: [1]},
    'label': {1: [0x1f], 2: [0x7f], 8: [0], 9: [255], 16: [0x1f, 0x7f], 17: [0, 1024], 18: [990229, 991301, 990431, 990100, 1000101, 990001],
              19: [240000, 236000, 235960], 20: [19500102, 1], 21: [1]},
}


def vectors():
    for kind, bases in BASES.items():
        bits, _ = KINDS[kind]
        for base in bases:
            yield kind, base
            for k, b in enumerate(bits):
                low, high = (0, 2**b - 1) if b > 0 else (-2**(-b - 1), 2**(-b - 1) - 1)
                for n in (low, high):
                    yield kind, base[:k] + [n] + base[k + 1:]
            for k, wrong in WRONG[kind].items():
                for n in wrong:
                    yield kind, base[:k - 1] + [n] + base[k:]
        base = bases[0]
        for (j, a), (k, b) in itertools.combinations(WRONG[kind].items(), 2):
            items = list(base)
            items[j - 1], items[k - 1] = a[0], b[0]
            yield kind, items


def main(folder):
    lines = [line for kind, items in vectors() if kind != 'label' or all(fits(8, n) for n in items[:16]) for line in answers(kind, items)]
    with open(os.path.join(folder, 'stdin'), 'w') as f:
        f.write(''.join(a + '\n' for a, _ in lines))
    with open(os.path.join(folder, 'stdout'), 'w') as f:
        f.write(''.join(b + '\n' for _, b in lines))
    print('%d lines' % len(lines))


if __name__ == '__main__':
    main(sys.argv[1])
