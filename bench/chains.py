#!/usr/bin/env python3
"""Measures how propagation grows with the formula: chains of implications and many units, of several sizes.

    bench/chains.py [--program PATH] [--cores N] [--runs N] [--most N]

Shapes: a chain of n implications that one unit sets off, its clauses in rising and in falling order; n units over n variables; a
unit that implies n others in one round; and four units for each of n variables. For each shape and size stand the least
processor seconds of N runs and the microseconds for each clause; minisat -no-pre is beside it where it is on the path. The answer of each is SATISFIABLE; another one is reported, and the script then ends with 1.
"""
import argparse
import os
import shutil
import subprocess
import sys
import tempfile

TOP = os.path.dirname(os.path.dirname(os.path.abspath(__file__)))


def rising(n):
    return n, [[1]] + [[-v, v + 1] for v in range(1, n)]


def falling(n):
    return n, [[-v, v + 1] for v in range(n - 1, 0, -1)] + [[1]]


def units(n):
    return n, [[v] for v in range(1, n + 1)]


def fan(n):
    return n, [[-1, v] for v in range(2, n + 1)] + [[1]]


def units_four_times(n):
    return n, [[v] for _ in range(4) for v in range(1, n + 1)]


SHAPES = [('chain, rising', rising), ('chain, falling', falling), ('units', units), ('one unit implies all', fan),
          ('each unit four times', units_four_times)]


def write_formula(path, variables, clauses):
    with open(path, 'w') as out:
        out.write('p cnf %d %d\n' % (variables, len(clauses)))
        out.writelines(' '.join(map(str, clause)) + ' 0\n' for clause in clauses)


def timed(command):
    """The exit status and the processor seconds of one run."""
    child = subprocess.Popen(command, stdout=subprocess.DEVNULL, stderr=subprocess.DEVNULL)
    _, status, used = os.wait4(child.pid, 0)
    return os.waitstatus_to_exitcode(status), used.ru_utime + used.ru_stime


def main():
    parser = argparse.ArgumentParser(description=__doc__, formatter_class=argparse.RawDescriptionHelpFormatter)
    parser.add_argument('--program', default=os.path.join(TOP, 'crates', 'dp2ll', 'out', 'dp2ll'))
    parser.add_argument('--cores', type=int, default=1)
    parser.add_argument('--runs', type=int, default=2)
    parser.add_argument('--most', type=int, default=1_000_000)
    options = parser.parse_args()
    solvers = [('dp2ll', lambda path: [options.program, 'solve', path, '--cores', str(options.cores), '--workers', '0'])]
    minisat = shutil.which('minisat')
    if minisat:
        solvers.append(('minisat -no-pre', lambda path: [minisat, '-no-pre', path]))
    wrong = 0
    with tempfile.TemporaryDirectory() as folder:
        path = os.path.join(folder, 'formula.cnf')
        for shape, make in SHAPES:
            size = 1_000
            while size <= options.most:
                variables, clauses = make(size)
                write_formula(path, variables, clauses)
                for name, command in solvers:
                    runs = [timed(command(path)) for _ in range(options.runs)]
                    wrong += any(status != 10 for status, _ in runs)
                    seconds = min(run[1] for run in runs)
                    print('%-22s n = %9d  %-16s %8.3f s  %7.2f us a clause'
                          % (shape, size, name, seconds, 1e6 * seconds / len(clauses)), flush=True)
                size *= 10
    if wrong:
        print('%d answers were not SATISFIABLE' % wrong)
    return 1 if wrong else 0


if __name__ == '__main__':
    sys.exit(main())
