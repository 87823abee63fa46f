#!/usr/bin/env python3
"""A second implementation of reading a file: the rules of a whole file in docs/FORMAT.md, in Python and by the same
authors. It builds the packets of a file from its contents, lays them into an image of any make, and reads a row of
cells: its report, its groups, or the one refusal.

    tools/odfile.py MAKE < FILE

prints the report and the groups of a file, or its refusal. A cell is 36 bytes, or the place of a wrong fixed byte."""
import collections
import functools
import os
import struct
import sys

sys.path.insert(0, os.path.dirname(os.path.abspath(__file__)))
import vectors

# bytes in a block, packets in it, first packet at, fixed bytes by place
MAKES = {
    'disk': (8064, 224, 0, {}),
    '1200': (150, 3, 16, {15: 0, **{j: 0x88 for j in range(124, 144)}}),
    '4800': (600, 16, 16, {15: 0, 592: 0x88, 593: 0x88}),
}
MOST_CELLS = 1_000_000
FILLER = b'\x88' * 36
IDENTIFIER = b'TIMETAG OBSRVBL FREQ, ANCILLARY-DATA'
LABEL, IDENTIFIERS, ORBITS, RAMPS, CLOCKS, SUMMARY, END = 101, 107, 109, 2030, 2040, 105, -1
DOPPLER, QUASARS = (11, 12, 13), (3, 4, 6)

Fault = collections.namedtuple('Fault', 'number layer packet item byte')
Report = collections.namedtuple('Report', 'end orbits groups ramps clocks rows')
Group = collections.namedtuple('Group', 'key secondary packet records')


class Refused(Exception):
    def __init__(self, number, packet, item=0, byte=0):
        self.fault = Fault(number, {11: 1, 12: 1, 22: 2, 31: 2}.get(number, 3), packet, item, byte)


# Packets and records

def words(packet):
    return struct.unpack('>9I', packet)


def header_like(packet):
    return not any(packet[16:24])


def items(kind, packet):
    """The items in the bits of a packet."""
    number, out = int.from_bytes(packet, 'big'), []
    for b in reversed(vectors.KINDS[kind][0]):
        n = number % 2**abs(b)
        number >>= abs(b)
        out.append(n - 2**-b if b < 0 and n >= 2**(-b - 1) else n)
    return out[::-1]


def pack(kind, numbers):
    return bytes.fromhex(vectors.packed(vectors.KINDS[kind][0], numbers))


@functools.lru_cache(maxsize=20_000)
def judged(kind, packet):
    """The items of a packet, and those of them that break a rule."""
    numbers = items(kind, packet)
    return numbers, [i for i, good in enumerate(vectors.KINDS[kind][1](numbers), 1) if not good]


def start(kind, numbers):
    """A record's time, in billionths of a second."""
    return numbers[0] * 10**9 + numbers[1] * (10**6 if kind == 'orbit' else 1)


def until(kind, numbers):
    """The time before which no record may follow."""
    return numbers[8] * 10**9 + numbers[9] if kind == 'ramp' else start(kind, numbers)


def foreign(kind, numbers, owner):
    """The item at which a record names another owner."""
    if kind == 'orbit':
        return [] if numbers[15] == owner or numbers[9] in QUASARS else [16]
    if kind == 'ramp':
        return [] if numbers[5] == owner else [6]
    return []


def header(key, secondary, length, packet):
    return struct.pack('>i8I', key, secondary, length, packet, 0, 0, 0, 0, 0)


# The summary

def recount(orbits):
    """The packets of the rows of these orbit records."""
    rows = {}
    for i in orbits:
        key = (i[6], i[10], i[9], i[14] if i[9] in DOPPLER else 0)
        time = start('orbit', i)
        count, first, last = rows.get(key, (0, time, time))
        rows[key] = (count + 1, min(first, time), max(last, time))
    return [struct.pack('>9I', *divmod(first, 10**9), station, channel, band, kind, count, *divmod(last, 10**9))
            for (station, band, kind, channel), (count, first, last) in sorted(rows.items())]


# Files and carriers

def packets(label, orbits=(), ramps=(), clocks=(), summary=False):
    """The packets of the file with these contents, each record given by its items."""
    out = [header(LABEL, 0, 1, 0), pack('label', label), header(IDENTIFIERS, 0, 1, 2), IDENTIFIER, header(ORBITS, 0, 1, 4)]
    out += [pack('orbit', i) for i in orbits]
    for station in sorted({i[5] for i in ramps}):
        out.append(header(RAMPS, station, 1, len(out)))
        out += [pack('ramp', i) for i in ramps if i[5] == station]
    if clocks:
        out.append(header(CLOCKS, 0, 1, len(out)))
        out += [pack('clock', i) for i in clocks]
    if summary:
        out.append(header(SUMMARY, 0, 1, len(out)))
        out += recount(orbits)
    return out + [header(END, 0, 0, len(out))]


def image(make, packets):
    """The smallest memory of this make that holds these packets, the rest of it filler."""
    block, count, first, fixed = MAKES[make]
    out = bytearray()
    for b in range(0, len(packets), count):
        part = bytearray(block)
        for j, value in fixed.items():
            part[j] = value
        part[first:first + 36 * count] = b''.join(packets[b:b + count]).ljust(36 * count, b'\x88')
        out += part
    return bytes(out)


def cells(make, data):
    """The cells of a memory."""
    block, count, first, fixed = MAKES[make]
    out = []
    for b in range(0, len(data) // block * block, block):
        wrong = [b + j for j in sorted(fixed) if data[b + j] != fixed[j]]
        out += [wrong[0] if wrong else data[at:at + 36] for at in range(b + first, b + first + 36 * count, 36)]
    return out[:MOST_CELLS]


# Reading

class Walk:
    """A walk over cells, upward."""

    def __init__(self, cells):
        self.cells, self.at, self.groups = cells, 0, []

    def packet(self):
        if self.at >= len(self.cells):
            raise Refused(23, len(self.cells))
        cell = self.cells[self.at]
        if isinstance(cell, int):
            raise Refused(12, self.at, byte=cell)
        return cell

    def refuse(self, number, items=()):
        raise Refused(number, self.at, min(items, default=0))

    def more(self):
        """Whether the next packet is not header-like."""
        return not header_like(self.packet())

    def header(self, *keys):
        """Passes the header in the next cell, whose key is one of these; answers the key and the secondary key."""
        w = words(self.packet())
        key = w[0] - 2**32 if w[0] >= 2**31 else w[0]
        if self.more() or key not in keys:
            self.refuse(21)
        least, most = (1, 1023) if key == RAMPS else (0, 0)
        good = {2: least <= w[1] <= most, 3: w[2] == (0 if key == END else 1), 4: w[3] == self.at, 7: w[6] == 0, 8: w[7] == 0, 9: w[8] == 0}
        bad = [i for i in good if not good[i]]
        if bad:
            self.refuse(22, bad)
        if key == RAMPS and self.groups[-1].key == RAMPS and w[1] <= self.groups[-1].secondary:
            self.refuse(24)
        self.groups.append(Group(key, w[1], self.at, []))
        self.at += 1
        return key, w[1]

    def data(self, kind, owner=None):
        """Passes the record in the next cell, of this owner, behind those of its group."""
        if not self.more():
            self.refuse(21)
        numbers, bad = judged(kind, self.packet())
        bad = bad + foreign(kind, numbers, owner)
        if bad:
            self.refuse(22, bad)
        records = self.groups[-1].records
        if records and start(kind, numbers) < until(kind, records[-1]):
            self.refuse(24)
        records.append(numbers)
        self.at += 1

    def identifier(self):
        if not self.more():
            self.refuse(21)
        bad = [i for i, (a, b) in enumerate(zip(self.packet(), IDENTIFIER), 1) if a != b]
        if bad:
            self.refuse(22, bad)
        self.groups[-1].records.append(IDENTIFIER)
        self.at += 1

    def summary(self, orbits):
        for row in recount(orbits):
            if self.packet() != row:
                self.refuse(25)
            self.groups[-1].records.append(row)
            self.at += 1
        if self.more():
            self.refuse(25)

    def rest(self):
        while self.at < len(self.cells):
            if self.packet() != FILLER:
                self.refuse(26)
            self.at += 1


def walk(cells):
    """The groups of a file with their records; refused with the first fault."""
    w = Walk(cells)
    w.header(LABEL)
    w.data('label')
    spacecraft = w.groups[-1].records[0][16]
    w.header(IDENTIFIERS)
    w.identifier()
    w.header(ORBITS)
    while w.more():
        w.data('orbit', spacecraft)
    orbits = w.groups[-1].records
    key, station = w.header(RAMPS, CLOCKS, SUMMARY, END)
    while key == RAMPS:
        w.data('ramp', station)
        while w.more():
            w.data('ramp', station)
        key, station = w.header(RAMPS, CLOCKS, SUMMARY, END)
    if key == CLOCKS:
        w.data('clock')
        while w.more():
            w.data('clock')
        key, _ = w.header(SUMMARY, END)
    if key == SUMMARY:
        w.summary(orbits)
        key, _ = w.header(END)
    w.rest()
    return w.groups


def read(cells):
    """The report of a file; refused with the first fault. Its rows are None where there is no summary."""
    found = walk(cells)

    def lengths(key):
        return [len(g.records) for g in found if g.key == key]
    return Report(found[-1].packet, sum(lengths(ORBITS)), len(lengths(RAMPS)), sum(lengths(RAMPS)), sum(lengths(CLOCKS)),
                  lengths(SUMMARY)[0] if lengths(SUMMARY) else None)


def groups(cells, room=MOST_CELLS):
    """The rows of a file's groups: key, secondary key, header's packet, number of data packets."""
    found = walk(cells)
    if len(found) > room:
        raise Refused(35, 0)
    return [(g.key, g.secondary, g.packet, len(g.records)) for g in found]


def pick(kind, cells, k):
    """The items of the record in cell k, judged by its own rules alone."""
    if k >= len(cells):
        raise Refused(11, k)
    w = Walk(cells)
    w.at = k
    if not w.more():
        w.refuse(21)
    numbers, bad = judged(kind, w.packet())
    if bad:
        w.refuse(22, bad)
    return numbers


def listing(data):
    """What the program odflist prints for this input."""
    try:
        return ''.join('%5d%5d%8d%8d\n' % row for row in groups(cells('disk', data[:64_512])))
    except Refused as e:
        return '%8d%8d%8d%8d\n' % (e.fault.number, e.fault.packet, e.fault.item, e.fault.byte)


def main(make):
    row = cells(make, sys.stdin.buffer.read())
    try:
        print(read(row))
        for group in groups(row):
            print('%5d%5d%8d%8d' % group)
    except Refused as e:
        print('refused %d layer %d packet %d item %d byte %d' % e.fault)


if __name__ == '__main__':
    main(sys.argv[1])
