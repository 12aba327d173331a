#!/usr/bin/env python3
"""Measures how fast the built program writes the formulas that it makes, beside the same formulas made in Python.

    bench/making.py [--program PATH] [--runs N]

For each formula stand the bytes, the least processor seconds of N runs, the megabytes a second and the peak memory (of which some
14 MB are this script's own, which starts the runs), and how many times as long the Python in this file takes. The two texts are
compared; where they differ the script says so and ends with 1.
"""
import argparse
import os
import subprocess
import sys
import tempfile
import time

TOP = os.path.dirname(os.path.dirname(os.path.abspath(__file__)))
MASK = 2 ** 64 - 1


def hole(n, _seed):
    clauses = [[p * n + h + 1 for h in range(n)] for p in range(n + 1)]
    clauses += [[-(p * n + h + 1), -(q * n + h + 1)] for h in range(n) for p in range(n + 1) for q in range(p + 1, n + 1)]
    return (n + 1) * n, clauses


def grid(n, _seed):
    def colour(row, column, k):
        return 3 * (row * n + column) + k + 1

    cells = [(row, column) for row in range(n) for column in range(n)]
    clauses = [[colour(row, column, k) for k in range(3)] for row, column in cells]
    for row, column in cells:
        for other in ((row, column + 1), (row + 1, column)):
            if max(other) < n:
                clauses += [[-colour(row, column, k), -colour(*other, k)] for k in range(3)]
    return 3 * n * n, clauses


def noise(seed, core, variable):
    z = (seed + 0x9e3779b97f4a7c15 * (1 + core * 2 ** 32 + variable)) & MASK
    z = ((z ^ z >> 30) * 0xbf58476d1ce4e5b9) & MASK
    z = ((z ^ z >> 27) * 0x94d049bb133111eb) & MASK
    return z ^ z >> 31


def rand(n, seed):
    def literal(draw):
        drawn = noise(seed, 64, draw)
        variable = drawn // 2 % n + 1
        return -variable if drawn % 2 else variable

    return n, [list(dict.fromkeys(literal(3 * i + k) for k in (1, 2, 3))) for i in range(17 * n // 4)]


def text(made):
    variables, clauses = made
    lines = ['p cnf %d %d\n' % (variables, len(clauses))]
    lines += [' '.join(map(str, clause)) + ' 0\n' for clause in clauses]
    return ''.join(lines).encode()


def timed(command, out):
    """The processor seconds and the peak memory in MB of one run."""
    child = subprocess.Popen(command, stdout=out)
    _, status, used = os.wait4(child.pid, 0)
    if status:
        raise SystemExit('%s ends with status %d' % (command, status))
    return used.ru_utime + used.ru_stime, used.ru_maxrss / 1024


def main():
    parser = argparse.ArgumentParser(description=__doc__, formatter_class=argparse.RawDescriptionHelpFormatter)
    parser.add_argument('--program', default=os.path.join(TOP, 'crates', 'dp2ll', 'out', 'dp2ll'))
    parser.add_argument('--runs', type=int, default=5)
    options = parser.parse_args()
    different = 0
    with tempfile.TemporaryDirectory() as folder:
        kinds = (('grid', grid, 300), ('rand', rand, 100_000), ('hole', hole, 100))
        measured = []
        for word, _, n in kinds:
            runs = []
            for _ in range(options.runs):
                with open(os.path.join(folder, word), 'wb') as out:
                    runs.append(timed([options.program, 'gen', word, str(n)], out))
            measured.append((min(run[0] for run in runs), max(run[1] for run in runs)))
        for (word, make, n), (seconds, memory) in zip(kinds, measured):
            before = time.process_time()
            same = text(make(n, 0))
            python = time.process_time() - before
            with open(os.path.join(folder, word), 'rb') as written:
                if written.read() != same:
                    print('gen %s %d is another text' % (word, n))
                    different += 1
            size = len(same) / 1e6
            print('gen %s %-7d %6.2f MB  %7.3f s  %6.0f MB/s  %5.0f MB peak, the Python takes %5.1f times as long'
                  % (word, n, size, seconds, size / seconds, memory, python / seconds), flush=True)
    return 1 if different else 0


if __name__ == '__main__':
    sys.exit(main())
