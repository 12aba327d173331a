#!/usr/bin/env python3
"""Measures the built program beside other solvers on formulas that this script makes from numbers.

    bench/solving.py [--program PATH] [--cores N] [--runs N] [--seconds S] [--only WORD]
                     [--out FILE.json] [--against FILE.json] [--also NAME=COMMAND]

Families: uniform random three-literal formulas at the threshold of 4.26 clauses a variable, pigeonholes, coloured grids,
parities along two chains, and the equivalence of two adders and of two multipliers. Each file has the verdict that is
expected of it; a solver that gives another is reported, and the script then ends with 1. Solvers: dp2ll, with one core or
with so many that run in turn, and minisat -no-pre and cadical where they are on the path. The programs run in turn, N times,
with a limit of S seconds a file. For each file stand the verdict, the least processor seconds, the conflicts (of dp2ll those of
the core that wins, by the trace of a run of its own that isn't timed), the conflicts a second (of dp2ll those of all cores)
and the peak memory (of which some 16 MB are this script's own); at the end the geometric means over the files that every
solver answered, and of dp2ll's conflicts a second by those of each other solver, over the files on which both have 100 or more. `--also`
adds a solver whose text is like MiniSat's: with `bench/minisat_same_rules.patch` and `-ccmin-mode=0`, MiniSat keeps as many lemmas
as dp2ll and as long ones, so the two are compared at the same work. `--out` keeps all figures, and `--against` compares dp2ll's seconds and its winner's conflicts with those of
an earlier run, as of one core with four: conflicts are a fact of the rules, not of the machine.
"""
import argparse
import itertools
import json
import math
import os
import random
import re
import shutil
import subprocess
import sys
import tempfile

TOP = os.path.dirname(os.path.dirname(os.path.abspath(__file__)))
VERDICTS = {10: 'SAT', 20: 'UNSAT', 0: 'UNKNOWN'}


class Circuit:
    """Clauses of a circuit, gate by gate (Tseitin's encoding). Variables count from 1."""

    def __init__(self):
        self.variables = 0
        self.clauses = []

    def fresh(self):
        self.variables += 1
        return self.variables

    def both(self, a, b):
        out = self.fresh()
        self.clauses += [[-out, a], [-out, b], [out, -a, -b]]
        return out

    def either(self, a, b):
        return -self.both(-a, -b)

    def parity(self, a, b):
        out = self.fresh()
        self.clauses += [[-out, a, b], [-out, -a, -b], [out, -a, b], [out, a, -b]]
        return out

    def zero(self):
        out = self.fresh()
        self.clauses.append([-out])
        return out

    def full_adder(self, a, b, carry):
        half = self.parity(a, b)
        return self.parity(half, carry), self.either(self.both(a, b), self.both(half, carry))

    def majority_adder(self, a, b, carry):
        """The same function by another circuit."""
        out = self.either(self.either(self.both(a, b), self.both(a, carry)), self.both(b, carry))
        ones = self.either(self.either(a, b), carry)
        every = self.both(self.both(a, b), carry)
        return self.either(self.both(ones, -out), every), out

    def sum_of(self, xs, ys, adder):
        carry, out = self.zero(), []
        for a, b in zip(xs, ys):
            bit, carry = adder(a, b, carry)
            out.append(bit)
        return out + [carry]

    def product(self, xs, ys, adder):
        width = len(xs) + len(ys)
        total = [self.zero() for _ in range(width)]
        for place, y in enumerate(ys):
            row = [self.zero() for _ in range(place)] + [self.both(x, y) for x in xs]
            row += [self.zero() for _ in range(width - len(row))]
            total = self.sum_of(total, row, adder)[:width]
        return total

    def differ(self, xs, ys):
        self.clauses.append([self.parity(a, b) for a, b in zip(xs, ys)])
        return self.variables, self.clauses


def random_three(variables, seed, ratio=4.26):
    draw = random.Random(seed * 1000 + variables)
    clauses = [[v * draw.choice((-1, 1)) for v in draw.sample(range(1, variables + 1), 3)]
               for _ in range(round(ratio * variables))]
    return variables, clauses


def pigeonhole(holes):
    """More pigeons than holes by one: variable holes * pigeon + hole + 1."""
    at = lambda pigeon, hole: holes * pigeon + hole + 1
    clauses = [[at(p, h) for h in range(holes)] for p in range(holes + 1)]
    for hole in range(holes):
        clauses += [[-at(p, hole), -at(q, hole)] for p, q in itertools.combinations(range(holes + 1), 2)]
    return holes * (holes + 1), clauses


def coloured_grid(side, colours, clash):
    """A colour for each cell, neighbours differ (diagonal ones too where `clash`)."""
    at = lambda x, y, c: colours * (side * y + x) + c + 1
    clauses = []
    for y, x in itertools.product(range(side), repeat=2):
        clauses.append([at(x, y, c) for c in range(colours)])
        steps = [(1, 0), (0, 1)] + ([(1, 1), (-1, 1)] if clash else [])
        for dx, dy in steps:
            if 0 <= x + dx < side and y + dy < side:
                clauses += [[-at(x, y, c), -at(x + dx, y + dy, c)] for c in range(colours)]
    return colours * side * side, clauses


def parities(length, seed, satisfiable):
    """The parity of the same inputs along two chains, in the order of the inputs and in another: the two differ, or agree."""
    circuit = Circuit()
    inputs = [circuit.fresh() for _ in range(length)]
    shuffled = inputs[:]
    random.Random(seed).shuffle(shuffled)
    ends = []
    for order in (inputs, shuffled):
        parity = order[0]
        for bit in order[1:]:
            parity = circuit.parity(parity, bit)
        ends.append(parity)
    first, second = ends
    circuit.clauses += [[first, -second], [-first, second]] if satisfiable else [[first, second], [-first, -second]]
    return circuit.variables, circuit.clauses


def adders(bits):
    circuit = Circuit()
    xs = [circuit.fresh() for _ in range(bits)]
    ys = [circuit.fresh() for _ in range(bits)]
    return circuit.differ(circuit.sum_of(xs, ys, circuit.full_adder), circuit.sum_of(ys, xs, circuit.majority_adder))


def multipliers(bits):
    circuit = Circuit()
    xs = [circuit.fresh() for _ in range(bits)]
    ys = [circuit.fresh() for _ in range(bits)]
    return circuit.differ(circuit.product(xs, ys, circuit.full_adder), circuit.product(ys, xs, circuit.full_adder))


def files():
    """Name, maker of the formula, and the verdict that is expected (by two peers, which agree)."""
    for variables, verdicts in ((100, 'SSUS'), (150, 'UUSS'), (200, 'SUSU'), (250, 'SSSU')):
        for seed, verdict in enumerate(verdicts):
            yield 'random-%d-%d' % (variables, seed), lambda n=variables, s=seed: random_three(n, s), verdict
    for holes in (6, 7, 8):
        yield 'pigeonhole-%d' % holes, lambda n=holes: pigeonhole(n), 'U'
    yield 'grid-10-3', lambda: coloured_grid(10, 3, False), 'S'
    yield 'grid-30-3', lambda: coloured_grid(30, 3, False), 'S'
    yield 'grid-8-4-diagonal', lambda: coloured_grid(8, 4, True), 'S'
    yield 'grid-7-3-diagonal', lambda: coloured_grid(7, 3, True), 'U'
    yield 'parities-40-agree', lambda: parities(40, 5, True), 'S'
    for length in (10, 14, 18):
        yield 'parities-%d' % length, lambda n=length: parities(n, 5, False), 'U'
    for bits in (6, 10, 16):
        yield 'adders-%d' % bits, lambda n=bits: adders(n), 'U'
    for bits in (2, 3, 4):
        yield 'multipliers-%d' % bits, lambda n=bits: multipliers(n), 'U'


def write_formula(path, formula):
    variables, clauses = formula
    with open(path, 'w') as out:
        out.write('p cnf %d %d\n' % (variables, len(clauses)))
        for clause in clauses:
            out.write(' '.join(map(str, clause)) + ' 0\n')


def timed(command, seconds):
    """Status (None past the limit), processor seconds, peak memory in MB and the text of one run."""
    with tempfile.TemporaryFile() as text:
        child = subprocess.Popen(['timeout', str(seconds)] + command, stdout=text, stderr=subprocess.DEVNULL)
        _, status, usage = os.wait4(child.pid, 0)
        took = usage.ru_utime + usage.ru_stime
        text.seek(0)
        code = os.waitstatus_to_exitcode(status)
        return None if code == 124 else code, took, usage.ru_maxrss / 1024, text.read().decode(errors='replace')


def conflicts_of(text):
    found = re.search(r'conflicts\s*:\s*(\d+)', text)
    return int(found.group(1)) if found else None


def traced_conflicts(text):
    """The conflicts of the core that wins, None where none does, and of all cores, by the trace of a run."""
    rows = [[int(word) for word in line.split()[3:5]] for line in text.splitlines() if line.startswith('c era ')]
    winner = re.search(r'^c winner (\d+)$', text, re.M)
    of_winner = winner and sum(count for core, count in rows if core == int(winner.group(1)))
    return of_winner, sum(count for _, count in rows)


def measure(programs, path, runs, seconds):
    """The figures of each program on one file: least seconds of the runs, which go round all programs."""
    best = {}
    for _ in range(runs):
        for program, words, options in programs:
            if best.get(program, {}).get('verdict') == 'TIME':
                continue
            status, took, memory, text = timed(words + [path] + options, seconds)
            figures = best.setdefault(program, {'seconds': took, 'memory': memory})
            figures['seconds'] = min(figures['seconds'], took)
            figures['memory'] = max(figures['memory'], memory)
            figures['verdict'] = 'TIME' if status is None else VERDICTS.get(status, 'status %d' % status)
            if program != 'dp2ll':
                figures['conflicts'] = figures['worked'] = conflicts_of(text)
    ours = best['dp2ll']
    if ours['verdict'] != 'TIME':
        _, words, options = programs[0]
        text = timed(words + [path] + options + ['--trace'], seconds * 2)[3]
        ours['conflicts'], ours['worked'] = traced_conflicts(text)
    return best


def mean(values):
    return math.exp(sum(math.log(max(value, 1e-4)) for value in values) / len(values)) if values else float('nan')


def report(name, expected, figures):
    wrong = []
    for program, row in figures.items():
        conflicts = row.get('conflicts')
        rate = row['worked'] / row['seconds'] if row.get('worked') else None
        print('%-18s %-16s %-8s %8.3f s %9s conflicts %9s a second %7.1f MB'
              % (name, program, row['verdict'], row['seconds'], '-' if conflicts is None else conflicts,
                 '-' if rate is None else '%.0f' % rate, row['memory']))
        if row['verdict'] in ('SAT', 'UNSAT') and row['verdict'] != expected:
            wrong.append('%s: %s says %s, expected %s' % (name, program, row['verdict'], expected))
    sys.stdout.flush()
    return wrong


def summary(kept, programs):
    answered = [rows for rows in kept.values() if all(row['verdict'] in ('SAT', 'UNSAT') for row in rows.values())]
    print('\ngeometric means over the %d files of %d that all answered' % (len(answered), len(kept)))
    for program, _, _ in programs:
        rows = [each[program] for each in answered]
        rates = [row['worked'] / row['seconds'] for row in rows if row.get('worked')]
        print('%-16s %8.3f s, %.0f conflicts, %.0f a second, %d answered of all'
              % (program, mean([row['seconds'] for row in rows]),
                 mean([row['conflicts'] for row in rows if row.get('conflicts')]), mean(rates),
                 sum(each[program]['verdict'] in ('SAT', 'UNSAT') for each in kept.values())))


def ratios(kept, programs):
    """What dp2ll's conflicts a second are by those of each other solver, where both have 100 conflicts or more."""
    rate = lambda row: row['worked'] / max(row['seconds'], 1e-4)
    for program, _, _ in programs[1:]:
        both = [(rate(rows['dp2ll']) / rate(rows[program]), name) for name, rows in kept.items()
                if min(rows['dp2ll'].get('worked') or 0, rows[program].get('worked') or 0) >= 100]
        worst = ', '.join('%s %.2f' % (name, ratio) for ratio, name in sorted(both)[:3])
        print("conflicts a second by those of %s: %.2f (geometric mean of %d files; least %s)"
              % (program, mean([ratio for ratio, _ in both]), len(both), worst))


def compare(kept, path):
    with open(path) as earlier:
        before = json.load(earlier)['files']
    both = [(kept[name]['dp2ll'], before[name]['dp2ll']) for name in kept
            if name in before and kept[name]['dp2ll']['verdict'] == before[name]['dp2ll']['verdict'] != 'TIME']
    same = sum(now.get('conflicts') == then.get('conflicts') for now, then in both)
    searched = [(now['conflicts'], then['conflicts']) for now, then in both if now.get('conflicts') and then.get('conflicts')]
    fewer = sum(now < then for now, then in searched)
    print('against %s: %d files, %d with the same conflicts, seconds now by then %.2f (geometric mean)'
          % (path, len(both), same, mean([now['seconds'] / max(then['seconds'], 1e-4) for now, then in both])))
    print('conflicts of the winner now by then %.2f (geometric mean of %d files; fewer in %d of them)'
          % (mean([now / then for now, then in searched]), len(searched), fewer))


def main():
    parser = argparse.ArgumentParser(description=__doc__, formatter_class=argparse.RawDescriptionHelpFormatter)
    parser.add_argument('--program', default=os.path.join(TOP, 'crates', 'dp2ll', 'out', 'dp2ll'))
    parser.add_argument('--cores', type=int, default=1)
    parser.add_argument('--runs', type=int, default=3)
    parser.add_argument('--seconds', type=int, default=20)
    parser.add_argument('--only', default='')
    parser.add_argument('--out')
    parser.add_argument('--against')
    parser.add_argument('--also', action='append', default=[], metavar='NAME=COMMAND')
    args = parser.parse_args()
    programs = [('dp2ll', [args.program, 'solve'], ['--cores', str(args.cores)])]
    programs += [(name, words, []) for name, words in (('minisat -no-pre', ['minisat', '-no-pre']), ('cadical', ['cadical']))
                 if shutil.which(words[0])]
    programs += [(name, command.split(), []) for name, _, command in (each.partition('=') for each in args.also)]
    kept, wrong = {}, []
    folder = tempfile.mkdtemp(prefix='solving')
    try:
        for name, make, verdict in files():
            if args.only not in name:
                continue
            path = os.path.join(folder, name + '.cnf')
            write_formula(path, make())
            kept[name] = measure(programs, path, args.runs, args.seconds)
            wrong += report(name, {'S': 'SAT', 'U': 'UNSAT'}[verdict], kept[name])
            os.remove(path)
    finally:
        shutil.rmtree(folder)
    summary(kept, programs)
    ratios(kept, programs)
    if args.against:
        compare(kept, args.against)
    if args.out:
        with open(args.out, 'w') as out:
            json.dump({'seconds': args.seconds, 'runs': args.runs, 'files': kept}, out, indent=1)
    print('\n'.join(wrong))
    return 1 if wrong else 0


if __name__ == '__main__':
    sys.exit(main())
