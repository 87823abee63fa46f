#!/usr/bin/env python3
"""Tries the calls for C programs: tests/capi.py ARCHIVE

Compiles c/check.c with the archive, runs it on the inputs of tests/odflist.py, and compares what it prints with
tools/odfile.py: each report, record and fault, and that a call leaves what it has to leave. All words go to the compiler,
so that

    tests/capi.py -Dodf_read=plain_read bench/reader.c ARCHIVE

tries the plain reader of bench/ in place of odf_read; with -DREAD_ONLY no cell is picked."""
import os
import random
import subprocess
import sys
import tempfile

import odflist
import odfile

SOURCE = os.path.join(os.path.dirname(os.path.abspath(__file__)), '..', 'c', 'check.c')
KINDS = ('orbit', 'ramp', 'clock')


def answer(name, call):
    """The line for a call."""
    try:
        return '%s ok %s\n' % (name, ' '.join(map(str, call())))
    except odfile.Refused as e:
        return '%s refused %d layer %d packet %d item %d byte %d\n' % (name, *e.fault)


def report(cells):
    found = odfile.read(cells)
    summary = (0, 0) if found.rows is None else (1, found.rows)
    return found[:5] + summary


def chosen(rng, cells):
    """Cells to pick: some of each group, and some that do not exist."""
    n = len(cells)
    groups = [k for k, cell in enumerate(cells) if odfile.header_like(cell)][:6]
    near = [k + 1 for k in groups]
    return rng.sample(groups + near, min(4, len(groups))) + [rng.randrange(n + 2) for _ in range(3)] + [rng.choice([n, n + 1, 10**12, 2**64 - 1])]


def main(words):
    rng = random.Random(288)
    runs = failures = 0
    with tempfile.TemporaryDirectory() as folder:
        check, source = os.path.join(folder, 'check'), os.path.join(folder, 'image')
        subprocess.run(['gcc', '-Wall', '-Werror', '-O2', '-o', check, SOURCE] + words, check=True)
        for name, data in odflist.inputs():
            with open(source, 'wb') as out:
                out.write(data)
            cells = odfile.cells('disk', data)
            picks = [] if '-DREAD_ONLY' in words else chosen(rng, cells)
            wanted = answer('read', lambda: report(cells))
            wanted += ''.join(answer(kind, lambda: odfile.pick(kind, cells, k)) for k in picks for kind in KINDS)
            run = subprocess.run([check, source] + list(map(str, picks)), capture_output=True, text=True)
            runs += 1
            if (run.returncode, run.stdout, run.stderr) != (0, wanted, ''):
                failures += 1
                print('capi, %s: status %d, printed %r and %r, not %r' % (name, run.returncode, run.stdout[:300], run.stderr[:80], wanted[:300]))
    print('capi: %d runs, %d differ' % (runs, failures))
    return 1 if failures else 0


if __name__ == '__main__':
    sys.exit(main(sys.argv[1:]))
