#!/usr/bin/env python3
"""Runs the built program on files at both sides of the limits that are too large for a test.

    bench/limits.py [--program PATH]

Compared are status and complaint; the last line is 'N passed, M failed'.
"""
import argparse
import os
import shutil
import subprocess
import sys
import tempfile

TOP = os.path.dirname(os.path.dirname(os.path.abspath(__file__)))
MOST_BYTES = 268_435_456
MOST_LITERALS = 8_000_000


def padded(out, size):
    """A formula of one unit behind a comment, so long that the whole has this many bytes."""
    head, tail = b'p cnf 1 1\nc', b'\n1 0\n'
    out.write(head)
    left = size - len(head) - len(tail)
    block = b' ' * 1_000_000
    while left > 0:
        out.write(block[:left])
        left -= len(block[:left])
    out.write(tail)


def ended(out, size):
    """The same behind the line that ends the input."""
    padded(out, 100)
    out.write(b'%\n')
    block = b'x' * 1_000_000
    for _ in range(size // len(block)):
        out.write(block)


def literals(out, count):
    """One clause of this many literals."""
    out.write(b'p cnf 3 1\n' + b'1 -2 ' * (count // 2) + b'3 ' * (count % 2) + b'0\n')


CASES = [
    ('268,435,456 bytes', lambda out: padded(out, MOST_BYTES), 10, b''),
    ('268,435,457 bytes', lambda out: padded(out, MOST_BYTES + 1), 2, b'dp2ll: formula line 3: OverLimit Bytes\n'),
    ('bytes behind the line that ends the input', lambda out: ended(out, MOST_BYTES + 5), 10, b''),
    ('8,000,000 literals', lambda out: literals(out, MOST_LITERALS), 7, b''),
    ('8,000,001 literals', lambda out: literals(out, MOST_LITERALS + 1), 2, b'dp2ll: formula line 2: OverLimit Literals\n'),
]


def main():
    parser = argparse.ArgumentParser()
    parser.add_argument('--program', default=os.path.join(TOP, 'crates', 'dp2ll', 'out', 'dp2ll'))
    program = parser.parse_args().program
    folder = tempfile.mkdtemp(prefix='limits')
    passed = failed = 0
    try:
        path = os.path.join(folder, 'formula.cnf')
        for name, write, status, complaint in CASES:
            with open(path, 'wb') as out:
                write(out)
            done = subprocess.run([program, 'solve', path], stdout=subprocess.PIPE, stderr=subprocess.PIPE, check=False)
            if (done.returncode, done.stderr) == (status, complaint):
                passed += 1
            else:
                failed += 1
                print('failed: %s: status %d, %r' % (name, done.returncode, done.stderr))
    finally:
        shutil.rmtree(folder)
    print('%d passed, %d failed' % (passed, failed))
    return 1 if failed else 0


if __name__ == '__main__':
    sys.exit(main())
