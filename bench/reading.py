#!/usr/bin/env python3
"""Times the reading of large formulas by the built program and by the peers that are installed.

    bench/reading.py [--program PATH] [--runs N] [--only WORD]

Each file is made from numbers alone, so that every run reads the same bytes. Four shapes are read by every program, and
end with two opposite units, so that each decides them as soon as they are read:

    scattered clauses   2,599,998 clauses of three literals over 1,000,000 variables
    near variables      as many, each over variables that stand close together, as an encoding of a circuit has them
    wide clauses        700 clauses of 10,000 literals each, of as many variables
    many comments       1,200,000 lines of comment of up to 96 bytes, and the two units

Two more are the worst that the limits allow for keeping each literal of a clause once: one clause of 8,000,000 literals,
all the same, and two million different ones four times over.

Programs run in turn, N times; printed are the least seconds, MB/s and the peak memory of each, and its share of the
time that dp2ll takes. Peers: minisat -no-pre and cadical, where they are on the path.
"""
import argparse
import multiprocessing
import os
import random
import shutil
import subprocess
import sys
import tempfile
import time

TOP = os.path.dirname(os.path.dirname(os.path.abspath(__file__)))


VARIABLES = 1_000_000
CLAUSES = 2_599_998


def signed(draw, variable):
    return draw.choice((-1, 1)) * variable


def write_formula(path, clauses, count):
    """The clauses, so many, and at the end two opposite units."""
    with open(path, 'w') as out:
        out.write('p cnf %d %d\n' % (VARIABLES, count + 2))
        for lits in clauses:
            out.write(' '.join(map(str, lits)) + ' 0\n')
        out.write('1 0\n-1 0\n')


def write_scattered(path):
    """Random clauses of three literals."""
    draw = random.Random(1)
    write_formula(path, ([signed(draw, draw.randint(1, VARIABLES)) for _ in range(3)] for _ in range(CLAUSES)), CLAUSES)


def write_near(path, window=64):
    """Clauses of three literals, each of variables in a window that moves over all of them."""
    draw = random.Random(2)
    clauses = ([signed(draw, at * (VARIABLES - window) // CLAUSES + step) for step in draw.sample(range(1, window + 1), 3)]
               for at in range(CLAUSES))
    write_formula(path, clauses, CLAUSES)


def write_wide(path, width=10_000, count=700):
    """Clauses of many literals."""
    draw = random.Random(4)
    write_formula(path, ([signed(draw, v) for v in draw.sample(range(1, VARIABLES + 1), width)] for _ in range(count)), count)


def write_comments(path, lines=1_200_000, longest=96):
    """Comments of all lengths, and two opposite units."""
    draw = random.Random(5)
    words = 'c ' + 'any words of a comment 0 -1 2 ' * 4
    with open(path, 'w') as out:
        out.write('p cnf 1 2\n')
        for _ in range(lines):
            out.write(words[:draw.randint(1, longest)] + '\n')
        out.write('1 0\n-1 0\n')


def write_same(path, count=8_000_000):
    """One clause of the same literal over and over."""
    with open(path, 'w') as out:
        out.write('p cnf %d 1\n' % VARIABLES + '7 ' * count + '0\n')


def write_distinct(path, rounds=4):
    """One clause of all literals that there are, shuffled, four times over."""
    draw = random.Random(3)
    lits = list(range(1, VARIABLES + 1)) + [-v for v in range(1, VARIABLES + 1)]
    with open(path, 'w') as out:
        out.write('p cnf %d 1\n' % VARIABLES)
        for _ in range(rounds):
            draw.shuffle(lits)
            out.write(' '.join(map(str, lits)) + ' ')
        out.write('0\n')


def timed(command):
    """Seconds and peak memory in MB of one run."""
    start = time.monotonic()
    with open(os.devnull, 'w') as nothing:
        child = subprocess.Popen(command, stdout=nothing, stderr=nothing)
        _, _, usage = os.wait4(child.pid, 0)
    return time.monotonic() - start, usage.ru_maxrss / 1024


def main():
    parser = argparse.ArgumentParser()
    parser.add_argument('--program', default=os.path.join(TOP, 'crates', 'dp2ll', 'out', 'dp2ll'))
    parser.add_argument('--runs', type=int, default=3)
    parser.add_argument('--only', default='', help='only the shapes that have this word in their name')
    args = parser.parse_args()
    peers = [(name, words) for name, words in (('minisat -no-pre', ['minisat', '-no-pre']), ('cadical', ['cadical', '-q']))
             if shutil.which(words[0])]
    folder = tempfile.mkdtemp(prefix='reading')
    try:
        for name, write, others in (('scattered clauses', write_scattered, peers), ('near variables', write_near, peers),
                                    ('wide clauses', write_wide, peers), ('many comments', write_comments, peers),
                                    ('one literal 8,000,000 times', write_same, []),
                                    ('2,000,000 literals four times', write_distinct, [])):
            if args.only not in name:
                continue
            path = os.path.join(folder, 'formula.cnf')
            # in a process of its own, so that its memory isn't counted as a program's
            maker = multiprocessing.Process(target=write, args=(path,))
            maker.start()
            maker.join()
            size = os.path.getsize(path) / 1e6
            programs = [('dp2ll', [args.program, 'solve'])] + others
            best = {program: (float('inf'), 0.0) for program, _ in programs}
            for _ in range(args.runs):
                for program, words in programs:
                    seconds, memory = timed(words + [path])
                    best[program] = (min(best[program][0], seconds), max(best[program][1], memory))
            print('%s, %.1f MB' % (name, size))
            own = best['dp2ll'][0]
            for program, _ in programs:
                seconds, memory = best[program]
                print('  %-16s %6.2f s %7.1f MB/s %6.0f MB peak, %.2f of dp2ll\'s time'
                      % (program, seconds, size / seconds, memory, seconds / own))
    finally:
        shutil.rmtree(folder)


if __name__ == '__main__':
    sys.exit(main())
