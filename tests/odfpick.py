#!/usr/bin/env python3
"""Tries odfpick from outside: tests/odfpick.py ODFPICK ODFCOPY DELIVERY

Every cell of a delivery is picked as every kind, in all three makes, and compared with the rules of tools/vectors.py."""
import importlib.util
import os
import subprocess
import sys
import tempfile

here = os.path.dirname(os.path.abspath(__file__))
spec = importlib.util.spec_from_file_location('vectors', os.path.join(here, '..', 'tools', 'vectors.py'))
vectors = importlib.util.module_from_spec(spec)
spec.loader.exec_module(vectors)


def items(bits, packet):
    number, out = int.from_bytes(packet, 'big'), []
    for b in reversed(bits):
        n = number % 2**abs(b)
        number >>= abs(b)
        out.append(n - 2**-b if b < 0 and n >= 2**(-b - 1) else n)
    return out[::-1]


def expected(kind, cells, k):
    if k >= len(cells):
        return 1, 'odfpick refused 11 layer 1 packet %d item 0 byte 0\n' % k
    if not any(cells[k][16:24]):
        return 1, 'odfpick refused 21 layer 3 packet %d item 0 byte 0\n' % k
    bits, rules = vectors.KINDS[kind]
    numbers = items(bits, cells[k])
    good = rules(numbers)
    if False in good:
        return 1, 'odfpick refused 22 layer 2 packet %d item %d byte 0\n' % (k, good.index(False) + 1)
    return 0, numbers


def main(odfpick, odfcopy, delivery):
    data = open(delivery, 'rb').read()
    cells = [data[b + 16 + 36 * i:b + 52 + 36 * i] for b in range(0, len(data), 600) for i in range(16)]
    runs = failures = 0
    with tempfile.TemporaryDirectory() as folder:
        for make in ('4800', '1200', 'disk'):
            path = os.path.join(folder, make)
            subprocess.run([odfcopy, '4800', delivery, make, path], check=True, stdout=subprocess.DEVNULL)
            capacity = {'4800': 32, '1200': 33, 'disk': 224}[make]
            full = cells + [b'\x88' * 36] * (capacity - len(cells))
            for kind in ('orbit', 'ramp', 'clock'):
                for k in list(range(34)) + [capacity, 10**15]:
                    run = subprocess.run([odfpick, make, kind, str(k)], stdin=open(path, 'rb'), capture_output=True, text=True)
                    status, wanted = expected(kind, full, k)
                    found = run.stdout if status else [int(line.split()[1]) for line in run.stdout.splitlines()]
                    runs += 1
                    if (run.returncode, found, run.stderr) != (status, wanted, ''):
                        failures += 1
                        print('odfpick %s %s %d: %r' % (make, kind, k, run))
        usage = 'odfpick: usage: odfpick MAKE KIND K < FILE, where MAKE is disk, 1200 or 4800 and KIND is orbit, ramp or clock\n'
        for words, err in (([], usage), (['disk', 'orbit'], usage),
                           (['tape', 'orbit', '0'], 'odfpick: no make is called tape: the makes are disk, 1200 and 4800\n'),
                           (['disk', 'angle', '0'], 'odfpick: no kind is called angle: the kinds are orbit, ramp and clock\n'),
                           (['disk', 'orbit', 'x'], 'odfpick: x is not the number of a cell\n')):
            run = subprocess.run([odfpick] + words, stdin=subprocess.DEVNULL, capture_output=True, text=True)
            runs += 1
            if (run.returncode, run.stdout, run.stderr) != (1, '', err):
                failures += 1
                print('odfpick %s: %r' % (words, run))
    print('odfpick: %d runs, %d differ' % (runs, failures))
    return 1 if failures else 0


sys.exit(main(*sys.argv[1:]))
