#!/usr/bin/env python3
"""Tries odfcopy from outside: tests/odfcopy.py PROGRAM

A second converter, in Python and by the same authors, says what each run has to print and write: over all pairs of
makes, memories of every kind of length, and damaged blocks. Then the lines for wrong calls. The seed is fixed."""
import os
import random
import subprocess
import sys
import tempfile

# bytes in a block, packets in it, first packet at, fixed bytes by place
MAKES = {
    'disk': (8064, 224, 0, {}),
    '1200': (150, 3, 16, {15: 0, **{j: 0x88 for j in range(124, 144)}}),
    '4800': (600, 16, 16, {15: 0, 592: 0x88, 593: 0x88}),
}


def convert(make, data, to):
    """The packets' number and the new memory, or the first damaged cell and its byte."""
    block, count, first, fixed = MAKES[make]
    packets = []
    for start in range(0, len(data) // block * block, block):
        for i in range(count):
            wrong = [start + j for j in sorted(fixed) if data[start + j] != fixed[j]]
            if wrong:
                return None, (len(packets), wrong[0])
            at = start + first + 36 * i
            packets.append(data[at:at + 36])
    block, count, first, fixed = MAKES[to]
    out = bytearray()
    for b in range(0, len(packets), count):
        part = bytearray(block)
        for j, value in fixed.items():
            part[j] = value
        body = b''.join(packets[b:b + count])
        part[first:first + 36 * count] = body + b'\x88' * (36 * count - len(body))
        out += part
    return (len(packets), bytes(out)), None


def memory(rng, make):
    """A memory of some blocks and a rest, at times with wrong fixed bytes."""
    block, _, _, fixed = MAKES[make]
    blocks = rng.choice([0, 1, 2, 3, 7] if make == 'disk' else [0, 1, 2, 5, 16, 75])
    data = bytearray(rng.randbytes(blocks * block + rng.choice([0, 1, block // 2, block - 1])))
    for start in range(0, blocks * block, block):
        for j, value in fixed.items():
            data[start + j] = value
    if fixed and blocks and rng.random() < 0.4:
        for _ in range(rng.choice([1, 2, 3])):
            data[rng.randrange(blocks) * block + rng.choice(sorted(fixed))] ^= 1 << rng.randrange(8)
    return bytes(data)


def main(program):
    rng = random.Random(4800)
    failures = 0
    with tempfile.TemporaryDirectory() as folder:
        os.chmod(folder, 0o755)
        source, target = os.path.join(folder, 'in'), os.path.join(folder, 'out')

        def expect(words, status, out, err, written):
            nonlocal failures
            run = subprocess.run([program] + words, capture_output=True, text=True)
            found = open(target, 'rb').read() if os.path.exists(target) else None
            if (run.returncode, run.stdout, run.stderr, found) != (status, out, err, written):
                failures += 1
                print('odfcopy %s: status %d, printed %r and %r, wrote %s bytes' % (words, run.returncode, run.stdout, run.stderr, None if found is None else len(found)))
            if found is not None:
                os.remove(target)

        runs = 0
        for make in MAKES:
            for to in MAKES:
                for _ in range(12):
                    data = memory(rng, make)
                    open(source, 'wb').write(data)
                    done, damage = convert(make, data, to)
                    if damage:
                        expect([make, source, to, target], 1, 'odfcopy refused 12 layer 1 packet %d item 0 byte %d\n' % damage, '', None)
                    else:
                        expect([make, source, to, target], 0, 'copied %d packets from %s to %s\n' % (done[0], make, to), '', done[1])
                    runs += 1
        usage = 'odfcopy: usage: odfcopy FROM IN TO OUT, where FROM and TO are disk, 1200 or 4800\n'
        nowhere = os.path.join(folder, 'no', 'such')
        open(source, 'wb').write(b'')
        expect([], 1, '', usage, None)
        expect(['disk', source, 'disk'], 1, '', usage, None)
        expect(['disk', source, 'disk', target, 'more'], 1, '', usage, None)
        expect(['tape', source, 'disk', target], 1, '', 'odfcopy: no make is called tape: the makes are disk, 1200 and 4800\n', None)
        expect(['disk', source, 'Disk', target], 1, '', 'odfcopy: no make is called Disk: the makes are disk, 1200 and 4800\n', None)
        expect(['disk', nowhere, 'disk', target], 1, '', 'odfcopy: cannot read %s\n' % nowhere, None)
        expect(['disk', source, 'disk', nowhere], 1, '', 'odfcopy: cannot write %s\n' % nowhere, None)
        runs += 7
    print('odfcopy: %d runs, %d differ' % (runs, failures))
    return 1 if failures else 0


sys.exit(main(sys.argv[1]))
