#!/usr/bin/env python3
"""Measures what workers give: the wall time of the same run of four cores with 1, 2 and 4 workers.

    bench/speedup.py [--program PATH] [--against PROGRAM] [--cores N] [--runs N] [--only WORD] [--workers LIST]
                     [--out FILE.json]

Formulas are some of those of bench/solving.py, each with a limit of conflicts, so that a run takes some seconds. For each the
numbers of workers go round, N times; the answer with its trace must be the same bytes each time, else the script ends with 1.
For each number of workers stand the least wall time, how many times as fast that is as one worker, the processor time of all
threads by that wall time (how many processors were busy on average), and the share of the wall time in which the caller's
thread was alone: reading, what happens between stretches, writing, and what is left of the stretches of its own cores when
the other threads have ended theirs. That share is of samples, one every two milliseconds.

With `--against` another built program does the same work, its runs between those of the first and each second time before it.
Its answers must be the same bytes too. Its figures stand below those of the first, with its least wall time by that of the
first with as many workers (above 1 the first is faster); at the end stand the geometric means of that ratio.
"""
import argparse
import hashlib
import importlib.util
import json
import math
import os
import resource
import subprocess
import sys
import tempfile
import time

TOP = os.path.dirname(os.path.dirname(os.path.abspath(__file__)))
# The formulas, and the conflicts that each core may have.
FILES = (('random-200-0', 4000), ('random-250-1', 2500), ('pigeonhole-8', 5000))


def solving():
    """The formulas of bench/solving.py and how they are written."""
    spec = importlib.util.spec_from_file_location('solving', os.path.join(TOP, 'bench', 'solving.py'))
    module = importlib.util.module_from_spec(spec)
    sys.dont_write_bytecode = True
    spec.loader.exec_module(module)
    return module


def threads_of(pid):
    """How many threads the process has; none once it has ended."""
    try:
        return len(os.listdir('/proc/%d/task' % pid))
    except OSError:
        return 0


def timed(command):
    """Wall seconds, processor seconds, the share of samples with one thread alone, and a digest of the answer of one run."""
    with tempfile.TemporaryFile() as text:
        before = resource.getrusage(resource.RUSAGE_CHILDREN)
        began = time.monotonic()
        child = subprocess.Popen(command, stdout=text, stderr=subprocess.DEVNULL)
        alone = samples = 0
        while child.poll() is None:
            alone += threads_of(child.pid) == 1
            samples += 1
            time.sleep(0.002)
        wall = time.monotonic() - began
        after = resource.getrusage(resource.RUSAGE_CHILDREN)
        text.seek(0)
        digest = hashlib.sha256(text.read()).hexdigest()
        busy = after.ru_utime + after.ru_stime - before.ru_utime - before.ru_stime
        return {'wall': wall, 'busy': busy, 'alone': alone / max(samples, 1), 'answer': '%d %s' % (child.returncode, digest)}


def measure(programs, path, limit, cores, workers, runs):
    """For each program the run of least wall time for each number of workers, and whether all answers were the same."""
    best, answers = [{} for _ in programs], set()
    for number in range(runs):
        for count in workers:
            for kept, program in list(zip(best, programs))[::-1 if number % 2 else 1]:
                figures = timed([program, 'solve', path, '--cores', str(cores), '--workers', str(count), '--limit', str(limit),
                                 '--trace'])
                answers.add(figures['answer'])
                if count not in kept or figures['wall'] < kept[count]['wall']:
                    kept[count] = figures
    return best, len(answers) == 1


def report(name, limit, best):
    """A line for each number of workers, and one of the other program below it."""
    for count in best[0]:
        for number, kept in enumerate(best):
            figures, first = kept[count], kept[next(iter(kept))]['wall']
            line = ('%-16s limit %6d  %2d workers %8.2f s, %.2f times as fast, %.2f processors busy, caller alone %4.1f %%'
                    % (name, limit, count, figures['wall'], first / figures['wall'], figures['busy'] / figures['wall'],
                       100 * figures['alone']))
            if number > 0:
                line += ', by the other program: %.3f of the first' % (figures['wall'] / best[0][count]['wall'])
            print(line)
    sys.stdout.flush()


def geometric_mean(ratios):
    return math.exp(sum(map(math.log, ratios)) / len(ratios))


def report_means(kept, workers):
    """Over all files: what workers give each program, and the other program's time by the first's."""
    for count in workers:
        for number, program in enumerate(('', ', by the other program')[:len(kept[0])]):
            ratio = geometric_mean([best[number][workers[0]]['wall'] / best[number][count]['wall'] for best in kept])
            print('%2d workers: %.2f times as fast as %d%s (geometric mean of %d files)'
                  % (count, ratio, workers[0], program, len(kept)))
    for count in workers if len(kept[0]) > 1 else ():
        ratio = geometric_mean([best[1][count]['wall'] / best[0][count]['wall'] for best in kept])
        print("%2d workers: the other program's time is %.3f of the first's (geometric mean of %d files)"
              % (count, ratio, len(kept)))


def main():
    parser = argparse.ArgumentParser(description=__doc__, formatter_class=argparse.RawDescriptionHelpFormatter)
    parser.add_argument('--program', default=os.path.join(TOP, 'crates', 'dp2ll', 'out', 'dp2ll'))
    parser.add_argument('--cores', type=int, default=4)
    parser.add_argument('--runs', type=int, default=3)
    parser.add_argument('--only', default='')
    parser.add_argument('--workers', default='1,2,4')
    parser.add_argument('--against')
    parser.add_argument('--out')
    args = parser.parse_args()
    workers = [int(count) for count in args.workers.split(',')]
    programs = [args.program] + ([args.against] if args.against else [])
    formulas = solving()
    makers = {name: make for name, make, _ in formulas.files()}
    kept, differ = {}, []
    with tempfile.TemporaryDirectory(prefix='speedup') as folder:
        path = os.path.join(folder, 'formula.cnf')
        for name, limit in FILES:
            if args.only not in name:
                continue
            formulas.write_formula(path, makers[name]())
            kept[name], same = measure(programs, path, limit, args.cores, workers, args.runs)
            differ += [] if same else [name]
            report(name, limit, kept[name])
    report_means(list(kept.values()), workers)
    if args.out:
        figures = [{name: best[number] for name, best in kept.items()} for number in range(len(programs))]
        with open(args.out, 'w') as out:
            json.dump({'cores': args.cores, 'runs': args.runs, 'files': figures[0], 'against': figures[1:]}, out, indent=1)
    print('\n'.join('%s: answers differ' % name for name in differ))
    return 1 if differ else 0


if __name__ == '__main__':
    sys.exit(main())
