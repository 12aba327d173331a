#!/usr/bin/env python3
"""Times the checking of large proofs by the built program and by a peer.

    bench/checking.py [--program PATH] [--peer COMMAND] [--runs N] [--size MB] [--only WORD]
                      [--log FILE --formula FILE] [--keep FOLDER] [--out FILE.json]

Each proof, in LRAT text, and its formula are made from numbers alone, so that every run reads the same bytes. A formula
is of implications: a variable and the negations of a few others imply the next variable but none or one. A lemma is such an
implication over a stretch, its hints are the clauses along it, originals and earlier lemmas, and two opposite units give
the empty lemma at the end. Names and clauses of a formula are shuffled. Shapes, of some 100 MB of proof each:

    chain of lemmas       over 600,000 clauses: each lemma takes the one before it on by one to three clauses
    wide lemmas           of some 50 literals, with some 40 to 160 hints
    many deletions        of some 10 literals and 12 hints, mostly used by the next one; each lemma is deleted 5 to 3,000
                          lines after it was added
    ids that leave out    some 8 hints; ids leave others out, mostly a few, now and then many, as those of a trimmed proof

and, by dp2ll alone, a quarter as large, as no peer has to read it:

    ids that no array has from 2^62 on, each up to 10^12 above the last

With --log and --formula these two files are one more shape, for instance a log that `solve` wrote.

The peer is any command that is given a formula and a proof and prints a line that begins with `s VERIFIED`: that of --peer,
or else the first of lrat-check, lrat_check and cake_lpr on the path. Programs run in turn, N times; a run is the whole
command, so it also reads the formula. Printed are the least seconds of processor time and of the clock, MB of the proof a
second of processor time, the peak memory of each (at least this script's own, which is told at the start) and how many
times the time and the memory of dp2ll the peer takes; at the end the geometric means of that. Each proof is then given to
each program once more without its last line, and has to be refused. The script ends with 1 where a verdict was wrong.
`--keep` leaves formulas and proofs in a folder, and `--out` keeps all figures.
"""
import argparse
import contextlib
import json
import math
import multiprocessing
import os
import random
import resource
import shlex
import shutil
import subprocess
import sys
import tempfile
import time
from collections import defaultdict, namedtuple

TOP = os.path.dirname(os.path.dirname(os.path.abspath(__file__)))
PEERS = ('lrat-check', 'lrat_check', 'cake_lpr')
TIMES = ('  the peer takes %(processor).2f times the processor time of dp2ll, %(clock).2f times its time by the clock and '
         '%(memory).2f times its memory')

# positions: how many variables stand in a row; block: how many of them share their other literals, and how many those are;
# kinds: how many originals begin at a position, each a step longer than the one before it; beside: how many other literals
# an original has; hints: how many a lemma has; chained: how often a lemma takes the one before it on; reused: how often a
# lemma is taken in place of an original where one begins; life: how many lines it stays, where it is deleted; leap: the next
# id less the last; share: its size is the wanted one by this
Shape = namedtuple('Shape', 'seed positions block others kinds beside hints chained reused life leap share', defaults=(1,))


def by_one(draw):
    return 1


def trimmed(draw):
    """As many ids are left out as by a trimmer: mostly a few, now and then a long stretch."""
    return 1 + int(draw.expovariate(1 / 50 if draw.random() < 0.03 else 1 / 1.5))


def far(draw):
    """Leaps that no array of ids could follow."""
    return draw.randint(1, 1_000_000_000_000)


SHAPES = {
    'chain of lemmas': Shape(1, 300_000, 4_000, 4, 2, (1, 1), (2, 4), 0.999, 0.0, None, by_one),
    'wide lemmas': Shape(2, 100_000, 2_000, 60, 1, (1, 2), (40, 160), 0.0, 0.1, None, by_one),
    'many deletions': Shape(3, 60_000, 600, 8, 2, (1, 2), (8, 16), 0.9, 0.2, (5, 3_000), by_one),
    'ids that leave out': Shape(4, 60_000, 600, 12, 2, (1, 2), (4, 12), 0.7, 0.2, None, trimmed),
}
OWN_SHAPES = {
    'ids that no array has': Shape(5, 60_000, 600, 12, 2, (1, 2), (4, 12), 0.7, 0.2, None, far, 4),
}

# An implication from one position to a later one: its id, as text; the later position; a bit for each literal beside the two;
# the line at which it is deleted, where one is.
Known = namedtuple('Known', 'id to beside dies')


class Maker:
    """A formula and a proof of one shape."""

    def __init__(self, shape):
        self.shape = shape
        self.draw = random.Random(shape.seed)
        blocks = -(-shape.positions // shape.block)
        self.variables = shape.positions + blocks * shape.others + 1
        names = list(range(1, self.variables + 1))
        self.draw.shuffle(names)
        self.names = [str(name) for name in names[:shape.positions]]
        others = [str(name) for name in names[shape.positions:-1]]
        self.others = [others[at:at + shape.others] for at in range(0, len(others), shape.others)]
        self.unit = str(names[-1])
        self.newest = defaultdict(lambda: None)
        self.previous = None

    def literals(self, at, to, beside):
        """The clause as text, begun at any of its literals."""
        others = [name for bit, name in enumerate(self.others[at // self.shape.block]) if beside >> bit & 1]
        lits = ['-' + self.names[at], self.names[to]] + others
        cut = self.draw.randrange(len(lits))
        return ' '.join(lits[cut:] + lits[:cut])

    def end_of_block(self, at):
        return min((at // self.shape.block + 1) * self.shape.block, self.shape.positions) - 1

    def write_formula(self, path):
        """All originals, shuffled, and two opposite units. Ids count from 1 in the order of the file."""
        ends = [(at, at + step + 1) for at in range(self.shape.positions) for step in range(self.shape.kinds)
                if at + step + 1 <= self.end_of_block(at)]
        self.draw.shuffle(ends)
        self.originals = [[] for _ in range(self.shape.positions)]
        self.count = len(ends) + 2
        with open(path, 'w') as out:
            out.write('p cnf %d %d\n' % (self.variables, self.count))
            for place, (at, to) in enumerate(ends):
                width = self.draw.randint(*self.shape.beside)
                beside = sum(1 << bit for bit in self.draw.sample(range(self.shape.others), width))
                self.originals[at].append(Known(str(place + 1), to, beside, None))
                out.write(self.literals(at, to, beside) + ' 0\n')
            out.write('%s 0\n-%s 0\n' % (self.unit, self.unit))

    def next_part(self, at, line):
        """What leads on from a position: a lemma that is still held, or an original."""
        lemma = self.newest[at] if self.draw.random() < self.shape.reused else None
        if lemma is not None and (lemma.dies is None or lemma.dies > line):
            return lemma
        return self.draw.choice(self.originals[at])

    def stretch(self, line):
        """The position where a lemma begins, and the parts that it is made of."""
        first = self.previous
        if first is None or self.draw.random() >= self.shape.chained or first[1].to >= self.end_of_block(first[1].to) - 1:
            at = self.draw.randrange(self.shape.positions)
            at = min(at, self.end_of_block(at) - 2)
            parts = [self.next_part(at, line)]
        else:
            at, parts = first[0], [first[1]]
        wanted = self.draw.randint(*self.shape.hints)
        while len(parts) < wanted and parts[-1].to < self.end_of_block(at):
            parts.append(self.next_part(parts[-1].to, line))
        return at, parts

    def write_proof(self, path, size):
        """Lemmas up to this size, each deleted when its life is over, and the empty one."""
        number, line, written = self.count, 0, 0
        if self.shape.leap is far:
            number = 1 << 62
        over = defaultdict(list)
        with open(path, 'w') as out:
            while written < size:
                at, parts = self.stretch(line)
                number += self.shape.leap(self.draw)
                beside = 0
                for part in parts:
                    beside |= part.beside
                text = '%d %s 0 %s 0\n' % (number, self.literals(at, parts[-1].to, beside), ' '.join(part.id for part in parts))
                line += 1
                life = self.draw.randint(*self.shape.life) if self.shape.life else None
                lemma = Known(str(number), parts[-1].to, beside, life and line + life)
                self.previous = at, lemma
                # long ones would end the next stretches early
                if lemma.to - at <= 2 * self.shape.hints[1]:
                    self.newest[at] = lemma
                if life:
                    over[line + life].append(lemma.id)
                ended = over.pop(line, None)
                if ended:
                    text += '%d d %s 0\n' % (number, ' '.join(ended))
                out.write(text)
                written += len(text)
            out.write('%d 0 %d %d 0\n' % (number + 1, self.count - 1, self.count))


def make(shape, formula, proof, size):
    maker = Maker(shape)
    maker.write_formula(formula)
    maker.write_proof(proof, size // shape.share)


def run_apart(target, *args):
    """In a process of its own, so that its memory isn't counted as a program's."""
    process = multiprocessing.Process(target=target, args=args)
    process.start()
    process.join()
    if process.exitcode != 0:
        sys.exit('bench/checking.py: a proof could not be made')


def timed(command):
    """Status, text, seconds of processor time and of the clock, and peak memory in MB of one run."""
    with tempfile.TemporaryFile() as text:
        start = time.monotonic()
        child = subprocess.Popen(command, stdout=text, stderr=subprocess.DEVNULL)
        _, status, usage = os.wait4(child.pid, 0)
        clock = time.monotonic() - start
        text.seek(0)
        return (os.waitstatus_to_exitcode(status), text.read(100_000).decode(errors='replace'),
                usage.ru_utime + usage.ru_stime, clock, usage.ru_maxrss / 1024)


def verdict(program, status, text):
    """What a program says of a proof. Of dp2ll both status and answer are looked at, of a peer its answer."""
    if program == 'dp2ll':
        return {(0, 's VERIFIED\n'): 'verified', (6, 's NOT VERIFIED\n'): 'refused'}.get((status, text), 'status %d' % status)
    if any(line.split()[:2] == ['s', 'VERIFIED'] for line in text.splitlines()):
        return 'verified'
    return 'refused' if 0 <= status < 128 else 'status %d' % status


def measure(programs, formula, proof, runs):
    """The least seconds of each program, of runs that go round them all, its peak memory and its verdicts."""
    best = {}
    for _ in range(runs):
        for program, words in programs:
            status, text, processor, clock, memory = timed(words + [formula, proof])
            row = best.setdefault(program, {'processor': processor, 'clock': clock, 'memory': memory, 'verdicts': []})
            row['processor'] = min(row['processor'], processor)
            row['clock'] = min(row['clock'], clock)
            row['memory'] = max(row['memory'], memory)
            row['verdicts'].append(verdict(program, status, text))
    return best


@contextlib.contextmanager
def without_last_line(path):
    """The file lacks its last line for a while."""
    with open(path, 'rb+') as file:
        size = file.seek(0, os.SEEK_END)
        start = max(0, size - 1_000_000)
        file.seek(start)
        tail = file.read()
        cut = tail[:-1].rfind(b'\n') + 1
        file.truncate(start + cut)
        file.flush()
        try:
            yield
        finally:
            file.seek(start + cut)
            file.write(tail[cut:])


def wrong_verdicts(programs, name, formula, proof, figures):
    """What a program said of the whole proof, or of one without its last line, that it should not have said."""
    wrong = ['%s: %s said %s' % (name, program, said)
             for program, _ in programs for said in sorted(set(figures[program]['verdicts']) - {'verified'})]
    with without_last_line(proof):
        for program, words in programs:
            said = verdict(program, *timed(words + [formula, proof])[:2])
            if said != 'refused':
                wrong.append('%s without its last line: %s said %s' % (name, program, said))
    return wrong


def ratios(rows):
    """How many times the figures of dp2ll the peer has, where both verified the proof."""
    ours, peer = rows.get('dp2ll'), rows.get('peer')
    if not peer or set(ours['verdicts'] + peer['verdicts']) != {'verified'}:
        return None
    return {key: peer[key] / max(ours[key], 1e-4) for key in ('processor', 'clock', 'memory')}


def report(name, formula, proof, figures):
    size = os.path.getsize(proof) / 1e6
    print('%s: formula %.1f MB, proof %.1f MB' % (name, os.path.getsize(formula) / 1e6, size))
    for program, row in figures.items():
        print('  %-6s %-9s %7.2f s of processor time %7.2f s %7.1f MB/s %6.0f MB peak'
              % (program, '/'.join(sorted(set(row['verdicts']))), row['processor'], row['clock'],
                 size / max(row['processor'], 1e-4), row['memory']))
    times = ratios(figures)
    if times:
        print(TIMES % times)
    sys.stdout.flush()


def summary(kept):
    both = [times for times in map(ratios, kept.values()) if times]
    if not both:
        print('\nno proof was verified by dp2ll and by a peer')
        return
    means = {key: math.exp(sum(math.log(times[key]) for times in both) / len(both)) for key in both[0]}
    print('\ngeometric means over the %d proofs that both verified' % len(both))
    print(TIMES % means)


def cases(args, folder, programs):
    """Name, programs, formula and proof of each case; the files of the last are gone when the next is asked for."""
    for name, shape in list(SHAPES.items()) + list(OWN_SHAPES.items()):
        if args.only not in name:
            continue
        base = os.path.join(folder, name.replace(' ', '-'))
        formula, proof = base + '.cnf', base + '.lrat'
        run_apart(make, shape, formula, proof, int(args.size * 1e6))
        yield name, programs if name in SHAPES else programs[:1], formula, proof
        if not args.keep:
            os.remove(formula)
            os.remove(proof)
    if args.log and args.only in 'log':
        # a copy, since the last line of it is taken off for a while
        proof = os.path.join(folder, 'log.lrat')
        shutil.copyfile(args.log, proof)
        yield 'log', programs, args.formula, proof


def main():
    parser = argparse.ArgumentParser(description=__doc__, formatter_class=argparse.RawDescriptionHelpFormatter)
    parser.add_argument('--program', default=os.path.join(TOP, 'crates', 'dp2ll', 'out', 'dp2ll'))
    parser.add_argument('--peer', help='a command that is given a formula and a proof')
    parser.add_argument('--runs', type=int, default=3)
    parser.add_argument('--size', type=float, default=100, help='MB of a proof')
    parser.add_argument('--only', default='', help='only the shapes that have this word in their name')
    parser.add_argument('--log', help='a proof that is there already')
    parser.add_argument('--formula', help='its formula')
    parser.add_argument('--keep', help='a folder for formulas and proofs')
    parser.add_argument('--out')
    args = parser.parse_args()
    if bool(args.log) != bool(args.formula):
        parser.error('--log and --formula belong together')
    found = next(filter(None, map(shutil.which, PEERS)), None)
    peer = shlex.split(args.peer) if args.peer else [found] if found else None
    programs = [('dp2ll', [args.program, 'check'])] + ([('peer', peer)] if peer else [])
    print('peer: %s; no peak can be told that is below %.0f MB, this script\'s own'
          % (os.path.basename(peer[0]) if peer else 'none', resource.getrusage(resource.RUSAGE_SELF).ru_maxrss / 1024))
    kept, wrong = {}, []
    folder = args.keep or tempfile.mkdtemp(prefix='checking')
    os.makedirs(folder, exist_ok=True)
    try:
        for name, judges, formula, proof in cases(args, folder, programs):
            kept[name] = measure(judges, formula, proof, args.runs)
            report(name, formula, proof, kept[name])
            wrong += wrong_verdicts(judges, name, formula, proof, kept[name])
    finally:
        if not args.keep:
            shutil.rmtree(folder)
    summary(kept)
    if args.out:
        with open(args.out, 'w') as out:
            json.dump({'runs': args.runs, 'size': args.size, 'files': kept}, out, indent=1)
    print('\n'.join(wrong))
    return 1 if wrong else 0


if __name__ == '__main__':
    sys.exit(main())
