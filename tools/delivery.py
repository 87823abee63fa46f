#!/usr/bin/env python3
"""Writes the sample delivery: a short orbit data file in 4800-bit blocks. Its packets keep every rule of the format, but
the measurements are invented: no archived file was at hand. Spacecraft 94 and station 45 are real numbers, no more.

    tools/delivery.py crates/odfcopy/data/delivery.4800

The file has every group: label, identifier, 12 Doppler and 3 range samples of one pass, ramps, a clock offset, the data
summary and the end packet. docs/FORMAT.md describes the packets, docs/CARRIERS.md the blocks."""
import datetime
import struct
import sys

BLOCK, PACKETS, FIRST = 600, 16, 16
SPACECRAFT, STATION = 94, 45


def words(*numbers):
    return struct.pack('>9I', *[n % 2**32 for n in numbers])


def fields(*pairs):
    """The number that the fields of (width, value) make, the first on top."""
    number = 0
    for width, value in pairs:
        assert -2**(width - 1) <= value < 2**width
        number = number << width | value % 2**width
    return number


def header(key, secondary, length, packet):
    return words(key, secondary, length, packet, 0, 0, 0, 0, 0)


def orbit(time, kind, whole, part, last, reference, offset, compression):
    word5 = fields((3, 2), (7, STATION), (7, STATION), (2, 0), (6, kind), (2, 2), (2, 2), (2, 2), (1, 0))
    word67 = fields((7, last), (10, SPACECRAFT), (1, 0), (22, reference >> 24), (24, reference % 2**24))
    word89 = fields((20, offset), (22, compression), (22, 1140))
    return words(time, fields((10, 500), (22, 1268)), whole, part, word5, word67 >> 32, word67, word89 >> 32, word89)


def ramp(start, end, rate, part, gigahertz, hertz, fraction):
    return words(start, 0, rate, part, gigahertz << 10 | STATION, hertz, fraction, end, 0)


def row(first, last, channel, kind, samples):
    return words(first, 500_000_000, STATION, channel, 2, kind, samples, last, 500_000_000)


def file():
    start = int((datetime.datetime(1999, 6, 12, 4, 20) - datetime.datetime(1950, 1, 1)).total_seconds())
    packets = [header(101, 0, 1, 0),
               b'AXP2300 ODE V2.0' + struct.pack('>5I', SPACECRAFT, 990613, 101530, 19500101, 0),
               header(107, 0, 1, 2),
               b'TIMETAG OBSRVBL FREQ, ANCILLARY-DATA',
               header(109, 0, 1, 4)]
    reference = 7_164_624_800_000
    for i in range(12):
        packets.append(orbit(start + 10 * i, 12, -1_276_400 - 31 * i, -125_000_000 - 7_310_000 * i, 1, reference, 0, 1000))
        if i % 4 == 3:
            packets.append(orbit(start + 10 * i + 5, 37, 611_402 + 87 * i, 250_000_000, 14, reference, -3, 4 * 100_000 + 120))
    packets.append(header(2030, STATION, 1, len(packets)))
    packets.append(ramp(start - 600, start + 60, 0, -412_000_000, 7, 164_624_800, 0))
    packets.append(ramp(start + 60, start + 3_600, 1, 87_500_000, 7, 164_624_528, 80_000_000))
    packets.append(header(2040, 0, 1, len(packets)))
    packets.append(words(start - 3_600, 0, 0, -1_930, STATION, 0, 0, 0, 0))
    packets.append(header(105, 0, 1, len(packets)))
    packets.append(row(start, start + 110, 1, 12, 12))
    packets.append(row(start + 35, start + 115, 0, 37, 3))
    packets.append(header(-1, 0, 0, len(packets)))
    return packets


def main(path):
    packets = file()
    packets += [b'\x88' * 36] * (-len(packets) % PACKETS)
    with open(path, 'wb') as out:
        for i in range(0, len(packets), PACKETS):
            head = bytes.fromhex('627627ff0012af15140000') + struct.pack('>I', i // PACKETS)
            data = b''.join(packets[i:i + PACKETS])
            out.write(head + b'\0' + data + b'\x88\x88' + bytes.fromhex('0000007f1c00'))


main(sys.argv[1])
