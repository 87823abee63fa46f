#!/usr/bin/env python3
"""Tries odflist from outside: tests/odflist.py PROGRAM

The program reads lawful files, files with faults planted, files cut short and junk, and prints what tools/odfile.py
says. The seed is fixed; each refusal that a disk image can bring about is among the answers."""
import collections
import os
import random
import struct
import subprocess
import sys
import time

sys.path.insert(0, os.path.join(os.path.dirname(os.path.abspath(__file__)), '..', 'tools'))
import odfile
import vectors

KEYS = (101, 107, 109, 2030, 2040, 105, -1)
LABEL = vectors.BASES['label'][0]
SPACECRAFT = LABEL[16]
BLOCK = 8064


# Lawful contents

def lawful(numbers):
    """An orbit record near to these items that breaks no rule."""
    while False in (good := vectors.orbit(numbers)):
        numbers = [n if fine else 0 for n, fine in zip(numbers, good)]
    return numbers


def orbit(rng, time, station=None, kind=None, channel=None, band=None):
    """An orbit record at a time in milliseconds, of the label's spacecraft or of a quasar."""
    kind = kind or rng.choice(sorted(vectors.TYPES))
    whole = rng.choice([0, rng.randrange(10**9), -rng.randrange(10**9)])
    part = rng.randrange(10**9) * (-1 if whole < 0 else 1)
    target = rng.randrange(1024) if kind in odfile.QUASARS else SPACECRAFT
    offset = rng.choice([0, -100_000, 520_000, rng.randrange(-5, 5) * 10_000, rng.randrange(-2**19, 2**19)])
    return lawful([time // 1000, time % 1000, rng.randrange(2**22), whole, part, 2, station or rng.randrange(1, 128), rng.randrange(128),
                   rng.randrange(4), kind, rng.randrange(4) if band is None else band, rng.randrange(4), rng.randrange(4), rng.randrange(2),
                   rng.randrange(128) if channel is None else channel, target, rng.randrange(2), rng.randrange(2**22), rng.randrange(2**24),
                   offset, rng.randrange(2**22), rng.randrange(2**22)])


def rising(rng, count, most):
    """Times that never fall, some of them equal."""
    base, step = rng.choice([0, rng.randrange(most // 2), most - 1]), rng.choice([1, 1000, 60_000])
    times = []
    for _ in range(count):
        times.append(min(base, most - 1))
        base += rng.choice([0, 0, 1, step])
    return times


def orbits(rng, count, **chosen):
    return [orbit(rng, t, **chosen) for t in rising(rng, count, 2**32 * 1000)]


def ramps(rng, station, count):
    """Ramps that touch at times and never overlap."""
    out, at = [], rng.randrange(2**31 * 10**9)
    for _ in range(count):
        end = at + rng.choice([1, 10**9, rng.randrange(1, 10**12)])
        out.append([*divmod(at, 10**9), *rng.choice([(0, 0), (0, -1), (-5, -999_999_999), (7, 0), (2**31 - 1, 1)]), rng.randrange(2**22), station,
                    rng.randrange(10**9), rng.randrange(10**9), *divmod(end, 10**9)])
        at = end + rng.choice([0, 0, 1, 10**9])
    return out


def clocks(rng, count):
    return [[*divmod(t, 10**9), 0, rng.randrange(-10**9 + 1, 10**9), rng.randrange(1, 1024), rng.randrange(1024), 0, 0, 0]
            for t in rising(rng, count, 2**32 * 10**9)]


def rows(rng, count):
    """Orbit records that make so many summary rows, some more than once."""
    keys = [(s, k, c, b) for s in range(1, 128, 12) for k in sorted(vectors.TYPES)
            for c in ((0, 1, 127) if k in odfile.DOPPLER else (0,)) for b in (range(4) if k < 51 else (0,))]
    keys = rng.sample(keys, count)
    keys += rng.choices(keys, k=count // 4)
    rng.shuffle(keys)
    return [orbit(rng, t, *key) for t, key in zip(rising(rng, len(keys), 2**32 * 1000), keys)]


def some_file(rng, summary=None):
    """The packets of a file with some of every group."""
    stations = sorted(rng.sample(range(1, 1024), rng.choice([0, 1, 2, 5])))
    return odfile.packets(LABEL, orbits(rng, rng.choice([0, 1, 2, 10, 60]), station=rng.choice([None, 14])),
                          [r for s in stations for r in ramps(rng, s, rng.choice([1, 2, 4]))], clocks(rng, rng.choice([0, 1, 3])),
                          rng.random() < 0.7 if summary is None else summary)


def whole_file(rng):
    """The packets of a short file in which every group has records, and the place of one of each sort of packet."""
    samples = [orbit(rng, 5000, 14, 12, 1), orbit(rng, 6000, 14, 12, 2), orbit(rng, 6000, 14, 52), orbit(rng, 7500, 15, 4)]
    packets = odfile.packets(LABEL, samples, ramps(rng, 14, 2) + ramps(rng, 15, 1), clocks(rng, 2), True)
    return packets, [0, 1, 2, 3, 4, 5, 6, 8, 9, 10, 11, 12, 13, 14, 15, 16, 17, 18, 19, 20, 21, 22, 31, 223]


# Faults

def renumbered(packets):
    """The same packets, each header-like one with its own number."""
    return [p[:12] + struct.pack('>I', k) + p[16:] if odfile.header_like(p) else p for k, p in enumerate(packets)]


def with_word(packet, place, value):
    return packet[:4 * place - 4] + struct.pack('>I', value % 2**32) + packet[4 * place:]


def kind_of(packets, k):
    """The kind of the group in which packet k stands."""
    kinds = {101: 'label', 109: 'orbit', 2030: 'ramp', 2040: 'clock'}
    key = next(struct.unpack('>i', p[:4])[0] for p in packets[k::-1] if odfile.header_like(p))
    return kinds.get(key)


def other_item(rng, kind, packet):
    """The packet with one of its items turned into a forbidden or another one."""
    bits, _ = vectors.KINDS[kind]
    numbers = odfile.items(kind, packet)
    i = rng.choice(sorted(vectors.WRONG[kind]))
    wrong = [n for n in vectors.WRONG[kind][i] if vectors.fits(bits[i - 1], n)]
    numbers[i - 1] = rng.choice(wrong + [rng.randrange(2**(abs(bits[i - 1]) - 1))])
    return odfile.pack(kind, numbers)


def planted(rng, packets):
    """The packets with a fault at a random place."""
    packets = list(packets)
    k = rng.randrange(len(packets))
    p, kind = packets[k], kind_of(packets, k)
    sort = rng.randrange(11)
    if sort == 0:
        packets[k] = rng.choice([odfile.FILLER, bytes(36), rng.randbytes(36), odfile.header(rng.choice(KEYS), 0, 1, k)])
    elif sort == 1:
        packets[k] = rng.choice(packets)
    elif sort == 2:
        j = rng.randrange(len(packets))
        packets[j], packets[k] = packets[k], packets[j]
    elif sort == 3:
        del packets[k]
        packets = rng.choice([packets, renumbered(packets)])
    elif sort == 4:
        packets.insert(k, rng.choice(packets))
        packets = rng.choice([packets, renumbered(packets)])
    elif sort == 5:
        word = rng.randrange(1, 10)
        packets[k] = with_word(p, word, odfile.words(p)[word - 1] + rng.choice([1, -1, 2**31, rng.randrange(2**32)]))
    elif sort == 6:
        bit = rng.randrange(288)
        packets[k] = (int.from_bytes(p, 'big') ^ 1 << bit).to_bytes(36, 'big')
    elif sort == 7 and k > 0:
        packets[k - 1:k + 1] = packets[k], packets[k - 1]
        packets = renumbered(packets)
    elif kind and not odfile.header_like(p):
        packets[k] = other_item(rng, kind, p)
    else:
        packets += [odfile.FILLER] * rng.randrange(300) + [rng.choice([bytes(36), b'\x88' * 35 + b'\x89', p])]
    return packets


def replaced(rng):
    """A whole file with each sort of packet replaced by each other one."""
    packets, places = whole_file(rng)
    packets += [odfile.FILLER] * (224 - len(packets))
    for k in places:
        others = [odfile.header(key, 14 if key == 2030 else 0, 0 if key == -1 else 1, k) for key in KEYS + (0, 104)]
        for other in others + [odfile.FILLER, bytes(36), odfile.pack('orbit', lawful(odfile.items('orbit', packets[5])))]:
            yield 'replaced %d' % k, packets[:k] + [other] + packets[k + 1:]


def worded(rng):
    """A whole file with each word of each header wrong, and pairs of them."""
    packets, _ = whole_file(rng)
    for k, p in enumerate(packets):
        if odfile.header_like(p):
            for word in range(1, 10):
                for value in (1, 2, 1024, -1):
                    wrong = with_word(p, word, value)
                    yield 'word %d of header %d' % (word, k), packets[:k] + [wrong] + packets[k + 1:]
            a, b = rng.sample([2, 3, 4, 7, 8, 9], 2)
            yield 'words %d, %d of header %d' % (a, b, k), packets[:k] + [with_word(with_word(p, a, 9999), b, 9999)] + packets[k + 1:]


def ordered(rng):
    """Stations, times and rows out of their order or at its edge."""
    one = orbits(rng, 20)
    first, last = ramps(rng, 14, 2), ramps(rng, 14, 2)
    touching = [first[0], first[1][:]]
    touching[1][0:2] = first[0][8:10]
    overlapping = [first[0], first[1][:]]
    overlapping[1][0:2] = divmod(first[0][8] * 10**9 + first[0][9] - 1, 10**9)
    for ramp in touching[1], overlapping[1]:
        ramp[8:10] = ramp[0] + 5, 0
    yield 'ramps touch', odfile.packets(LABEL, one, touching)
    yield 'ramps overlap', odfile.packets(LABEL, one, overlapping)
    yield 'ramps turned round', odfile.packets(LABEL, one, last[::-1])
    yield 'ramp of another station', renumbered(odfile.packets(LABEL, one, ramps(rng, 7, 2))[:-1] + [odfile.pack('ramp', ramps(rng, 8, 1)[0]), odfile.header(-1, 0, 0, 0)])
    start, end = odfile.packets(LABEL)[:-1], odfile.packets(LABEL)[-1:]
    for a, b in ((14, 14), (15, 14), (1, 1023), (1022, 1023), (1, 0), (1, 1024)):
        groups = [p for s in (a, b) for p in [odfile.header(2030, s, 1, 0)] + [odfile.pack('ramp', [1, 0, 0, 0, 8, s % 1024, 0, 0, 2, 0])]]
        yield 'stations %d, %d' % (a, b), renumbered(start + groups + end)
    for group in odfile.header(2030, 14, 1, 0), odfile.header(2040, 0, 1, 0):
        yield 'group without record', renumbered(start + [group] + end)
    late = clocks(rng, 5)
    late[4][0:2] = [0, 0]
    late[3][0:2] = [1, 0]
    yield 'clocks fall', odfile.packets(LABEL, one, (), late, True)
    yield 'orbit times fall', odfile.packets(LABEL, [orbit(rng, 2000), orbit(rng, 1999)], (), (), True)
    yield 'orbit times stay', odfile.packets(LABEL, [orbit(rng, 2000), orbit(rng, 2000)], (), (), True)
    quasar = [orbit(rng, t, 14, k) for t, k in enumerate((3, 4, 6, 3, 4, 6))]
    yield 'quasars', odfile.packets(LABEL, quasar, (), (), True)
    for kind in (1, 2, 5, 12, 36, 41, 51):
        strange = orbit(rng, 9000, 14, kind)
        strange[15] ^= 1
        yield 'another spacecraft, type %d' % kind, odfile.packets(LABEL, quasar + [strange], (), (), True)
    for item in (14, 17, 18):
        strange = orbit(rng, 9000, 14, 53)
        strange[15] ^= 1
        strange[item - 1] = 1
        yield 'another spacecraft and item %d' % item, odfile.packets(LABEL, [strange], (), (), True)
    for item, wrong in ((4, 10**9), (7, 10**9), (9, 0)):
        ramp = ramps(rng, 8, 1)[0]
        ramp[item - 1] = wrong
        packets = odfile.packets(LABEL, one, ramps(rng, 7, 1))[:-1]
        yield 'another station and item %d' % item, packets + [odfile.pack('ramp', ramp)]


def typed(rng):
    """Orbit records of each type, with each item that hangs on the type at its edges."""
    for kind in sorted(vectors.TYPES):
        for network in range(4):
            base = orbit(rng, 7000, 14, kind)
            base[3:5], base[8] = [0, 0], network
            yield lawful(base)
        base = lawful(base[:7] + [1, 0] + base[9:])
        for item, values in {4: (10**9, -1), 5: (10**9, 1, -1), 9: (3,), 20: (-100_001, -100_000, 1, 10_000)}.items():
            for value in values:
                yield base[:item - 1] + [value] + base[item:]
        for item in (8, 11, 12, 13, 15, 17, 18, 19, 21, 22):
            for transmitter in (0, 1):
                numbers = list(base)
                numbers[7], numbers[item - 1] = transmitter, 1
                yield numbers


def ruled(rng):
    """The vectors of records that a packet can hold, and records of every type, in files: each that breaks one rule in its own, some
    that break more, and those that break none together."""
    kept = collections.defaultdict(list)
    for i, (kind, numbers) in enumerate([*vectors.vectors(), *(('orbit', numbers) for numbers in typed(rng))]):
        bits, rules = vectors.KINDS[kind]
        broken = rules(numbers).count(False)
        if not all(vectors.fits(b, n) for b, n in zip(bits, numbers)) or broken > 1 and i % 8:
            continue
        if kind == 'label':
            yield 'label %s' % numbers, odfile.packets(numbers)
        elif broken:
            label = LABEL[:16] + [numbers[15] or 1 if kind == 'orbit' else SPACECRAFT] + LABEL[17:]
            yield '%s %s' % (kind, numbers), odfile.packets(label, *([numbers] if k == kind else [] for k in ('orbit', 'ramp', 'clock')))
        else:
            kept[kind, numbers[15] if kind == 'orbit' else 0].append(numbers)
    for (kind, target), records in kept.items():
        if kind == 'orbit' and target:
            yield 'orbit records', odfile.packets(LABEL[:16] + [target] + LABEL[17:], sorted(records), (), (), True)
        elif kind == 'clock':
            yield 'clock records', odfile.packets(LABEL, (), (), sorted(records))
        elif kind == 'ramp':
            for ramp in records:
                yield 'ramp %s' % ramp, odfile.packets(LABEL, (), [ramp])


def summaries(rng):
    """Summaries of many rows, whole, with a row missing or doubled or one too many, and with a row that differs."""
    for count in (1, 2, 63, 64, 65, 66, 128, 130, 192, 200, 600):
        packets = odfile.packets(LABEL, rows(rng, count), (), (), True)
        first, last = len(packets) - 1 - count, len(packets) - 2
        yield '%d rows' % count, packets
        for k in sorted({first, (first + last) // 2, last, min(first + 64, last)}):
            yield '%d rows, row missing' % count, renumbered(packets[:k] + packets[k + 1:])
            yield '%d rows, row twice' % count, renumbered(packets[:k] + packets[k:k + 1] + packets[k:])
            word = rng.randrange(1, 10)
            wrong = with_word(packets[k], word, odfile.words(packets[k])[word - 1] + rng.choice([1, -1]))
            yield '%d rows, row differs' % count, packets[:k] + [wrong] + packets[k + 1:]
        yield '%d rows, key 105 behind them' % count, packets[:-1] + [odfile.header(105, 0, 1, last + 1)]
        yield '%d rows, end with length 1' % count, packets[:-1] + [odfile.header(-1, 0, 1, last + 1)]
        bad = odfile.items('orbit', packets[5])
        bad[13] ^= 1
        yield '%d rows, a record turned bad' % count, packets[:5] + [odfile.pack('orbit', bad)] + packets[6:]


def cut(rng):
    """Files whose cells end behind each packet from the first ramp header on."""
    behind = len(odfile.packets(LABEL, (), ramps(rng, 14, 2) + ramps(rng, 15, 1), clocks(rng, 2))) + 3 - 5
    for missing in range(behind):
        samples = orbits(rng, 224 - 5 - (behind - missing), kind=12, station=14, channel=1, band=1)
        samples = samples[:1] + [i[:6] + [15] + i[7:] for i in samples[1:]]
        packets = odfile.packets(LABEL, samples, ramps(rng, 14, 2) + ramps(rng, 15, 1), clocks(rng, 2), True)
        yield 'cells end %d packets early' % missing, packets[:224]


def edges(rng):
    """Inputs at the edges of what is read, as bytes."""
    fitting = 1792 - 6
    for count in (fitting - 1, fitting, fitting + 1):
        packets = odfile.packets(LABEL, orbits(rng, count, station=14, kind=12, channel=1))
        yield '%d records' % count, odfile.image('disk', packets)
        yield '%d records and junk' % count, odfile.image('disk', packets) + rng.randbytes(BLOCK)
    packets = odfile.packets(LABEL, rows(rng, 700), (), (), True)
    full = odfile.image('disk', packets)
    yield 'eight blocks', full[:64_512]
    yield 'cells end among the rows', full[:6 * BLOCK]
    yield 'cells end among the records', full[:3 * BLOCK]
    short = odfile.image('disk', some_file(rng, True))
    for length in (0, 1, 36, BLOCK - 1, BLOCK, BLOCK + 1):
        yield 'cut to %d bytes' % length, short[:length]
    padded = short + b'\x88' * (64_512 - len(short))
    for more in (1, 36, 8064, 100_000, 1_000_000):
        yield 'junk behind 64,512 bytes', padded + rng.randbytes(more)
        yield 'junk behind 64,511 bytes', padded[:64_511] + b'\0' * more
        yield 'filler behind 64,512 bytes', padded + b'\x88' * more
    for value in (0, 0x88, 0x20, 0xff):
        for length in (36, BLOCK, 3 * BLOCK + 7, 64_512, 70_000):
            yield 'bytes %d' % value, bytes([value]) * length
    for length in (1, 5000, BLOCK, 64_512, 100_000):
        yield 'random bytes', rng.randbytes(length)
    yield 'text', b'no orbit data file\n' * 1000


def inputs():
    """Named inputs, always the same."""
    rng = random.Random(64_512)
    for summary in (False, True):
        yield 'new file', odfile.image('disk', odfile.packets(LABEL, (), (), (), summary))
    for _ in range(60):
        yield 'lawful file', odfile.image('disk', some_file(rng)) + odfile.FILLER * rng.choice([0, 0, 100, 224])
    for faults in (1, 2):
        for _ in range(150):
            packets = some_file(rng)
            for _ in range(faults):
                packets = planted(rng, packets)
            yield '%d planted' % faults, odfile.image('disk', packets)
    for cases in (replaced, worded, ordered, ruled, summaries, cut):
        for name, packets in cases(rng):
            yield name, odfile.image('disk', packets)
    yield from edges(rng)


def in_pieces(program, data):
    """Runs the program on an input that comes in four pieces."""
    run = subprocess.Popen([program], stdin=subprocess.PIPE, stdout=subprocess.PIPE, stderr=subprocess.PIPE)
    for i in range(4):
        run.stdin.write(data[len(data) * i // 4:len(data) * (i + 1) // 4])
        run.stdin.flush()
        time.sleep(0.02)
    out, err = run.communicate()
    return subprocess.CompletedProcess([program], run.returncode, out, err)


def main(program):
    runs = failures = 0
    met = collections.Counter()
    for name, data in inputs():
        wanted = odfile.listing(data)
        pieces = name in ('eight blocks', 'cells end among the rows', '130 rows')
        run = in_pieces(program, data) if pieces else subprocess.run([program], input=data, capture_output=True)
        runs += 1
        met[wanted.split()[0]] += 1
        if (run.returncode, run.stdout.decode(), run.stderr) != (0, wanted, b''):
            failures += 1
            print('odflist, %s: status %d, printed %r and %r, not %r' % (name, run.returncode, run.stdout[:80], run.stderr[:80], wanted[:80]))
    missing = [n for n in ('101', '21', '22', '23', '24', '25', '26') if met[n] < 10]
    print('odflist: %d runs, %d differ%s' % (runs, failures, ''.join('; few answers of %s' % n for n in missing)))
    return 1 if failures or missing else 0


if __name__ == '__main__':
    sys.exit(main(sys.argv[1]))
