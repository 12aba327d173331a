#!/usr/bin/env python3
"""Times the look-ups of clauses in a pool, and tells the memory that a clause takes beside its literals.

    bench/lookups.py [--crates FOLDER] [--looks N]

A program over `clause_pool` is written into a throwaway repository beside copies of lit_base and clause_pool (of this
checkout, or of FOLDER, the crates of another), proved and built there by `rt run`, and then run. It adds clauses of 3 to 12
random literals, half of them originals and half lemmas under names with periods up to ten million and gaps between the
indexes, and then reads the first literal of clauses that are picked at random, 2^20 picks over and over: nanoseconds a
look-up, the least of three rounds. `lits` goes by the name, `span` by where the clause stands, which was asked before (where the crate has `lits_in`);
`held` asks for lemmas alone. Memory is the peak of a process that adds all clauses less that of one that adds none, a
clause, less the four bytes of each literal; it is told by GNU `time`, which starts the process from a small one of its own (a
process that this script started would be charged for the script's peak), and isn't measured where that isn't on the path.
"""
import argparse
import os
import shutil
import subprocess
import sys
import tempfile

TOP = os.path.dirname(os.path.dirname(os.path.abspath(__file__)))
SIZES = (8_000, 400_000)

MAIN = '''//! Times look-ups of clauses.
#![tactic(auto)]
ghost use Rattle.std.specs.Prelude.{◌≡◌, ◌<◌, All, IsSome, IsTrue, length};
ghost use Rattle.lit_base.specs.Named.{lits_at};
ghost use Rattle.lit_base.specs.Held.{clauses_of};
SPAN_USEuse lit_base::{Clause, Lit, Name};
use std::alloc::Global;
use std::marker::Brand;
use std::rt::Clock;
use std::sync::ledger::{Blank, Ledger};
use std::time::Instant;
use std::{env, io};

/// The next of a sequence of pseudo-random numbers.
fn after(state: u64) -> u64 {
    state
        .wrapping_mul(6_364_136_223_846_793_005)
        .wrapping_add(1_442_695_040_888_963_407)
}

/// A clause of 3 to 12 random literals.
fn clause(alloc: Global, first: u64) -> Result<Clause, io::Error> {
    let mut lits = Vec::new(alloc);
    let mut state = first;
    for _ in 0..3 + (first >> 40) % 10 {
        state = after(state);
        let variable = 1 + ((state >> 33) % 1_000_000) as u32;
        lits.push(Lit::of(variable, (state >> 20) % 2 == 0))?;
    }
    Clause::of(alloc, &lits).map_err(|_| io::Error::from(io::ErrorKind::OutOfMemory))
}

/// Adds clauses, half of them originals, and answers their names and the number of their literals.
fn fill(alloc: Global, pool: &mut Pool, count: u32) -> Result<(Vec<Name>, u64), io::Error> {
    let mut names = Vec::new(alloc);
    let mut literals = 0u64;
    for index in 0..count {
        let clause = clause(alloc, after(u64::from(index).wrapping_mul(0x9E37_79B9)))?;
        let name = if index < count / 2 {
            Name { period: 0, core: 0, index }
        } else {
            Name {
                period: 1 + index.wrapping_mul(7_919) % 10_000_000,
                core: index % 8,
                index: index.wrapping_mul(3),
            }
        };
        if !pool.held(name) {
            pool.add(name, clause.lits())
                .map_err(|_| io::Error::from(io::ErrorKind::OutOfMemory))?;
            literals = literals.wrapping_add(clause.lits().len() as u64);
            names.push(name)?;
        }
    }
    Ok((names, literals))
}

/// Random picks of these names.
fn picks(alloc: Global, names: &[Name], count: u32) -> Result<Vec<Name>, io::Error> {
    let mut picked = Vec::new(alloc);
    let mut state = 7;
    for _ in 0..count {
        state = after(state);
        if let Some(name) = names.get(((state >> 33) % (1 + names.len() as u64)) as usize) {
            picked.push(*name)?;
        }
    }
    Ok(picked)
}

/// Whether clauses of all these names are held.
fn are_held(pool: &Pool, names: &[Name]) -> bool
    ensures { IsTrue result → All (λ name. IsSome (lits_at (clauses_of POOL_HELD) name)) names.now }
{
    names.iter().all(|name| pool.held(*name))
}

/// How many of the names are held.
fn count_held(pool: &Pool, names: &[Name]) -> u64 {
    let mut sum = 0u64;
    for name in names {
        if pool.held(*name) {
            sum = sum.wrapping_add(1);
        }
    }
    sum
}

/// The sum of the first literals; nobody counts the steps.
fn read(pool: &Pool, names: &[Name]) -> u64
    requires { All (λ name. IsSome (lits_at (clauses_of POOL_HELD) name)) names.now }
{
    read_on::<Brand>(Blank::new(1), pool, names)
}

fn read_on<L: Ledger>(blank: Blank, pool: &Pool, names: &[Name]) -> u64
    requires name { blank.name ≡ L.name }
    requires parts { blank.parts ≡ L.parts }
    requires some { 0 < blank.parts }
    requires held { All (λ name. IsSome (lits_at (clauses_of POOL_HELD) name)) names.now }
{
    let mut steps = Steps::<L>::new(blank);
    let mut sum = 0u64;
    for name in names {
        if let Some(lit) = pool.lits(*name, &mut steps).first() {
            sum = sum.wrapping_add(lit.index() as u64);
        }
    }
    sum
}
SPAN_READ
/// Times look-ups of these names.
fn time<R: Clock + Print + AllocGlobal>(rt: &R, pool: &Pool, what: &str, names: &[Name], looks: u64) -> Result<(), io::Error> {
    let alloc = rt.alloc();
    if !are_held(pool, names) {
        return Ok(());
    }
    SPAN_KEEP
    let rounds = (looks / (1 + names.len() as u64)).saturating_add(1);
    for _ in 0..3 {
        let mut sum = 0u64;
        let start = Instant::now(rt)?;
        for _ in 0..rounds {
            sum = sum.wrapping_add(count_held(pool, names));
        }
        let held = start.elapsed(rt)?;
        let start = Instant::now(rt)?;
        for _ in 0..rounds {
            sum = sum.wrapping_add(read(pool, names));
        }
        let lits = start.elapsed(rt)?;
        let start = Instant::now(rt)?;
        for _ in 0..rounds {
            sum = sum.wrapping_add(SPAN_CALL);
        }
        let span = start.elapsed(rt)?;
        println!(rt; "{what} {} {} {} {} {sum}", rounds.wrapping_mul(names.len() as u64), held.as_nanos(), lits.as_nanos(), span.as_nanos())?;
    }
    Ok(())
}

/// Fills a pool of so many clauses and times its look-ups.
fn run<R: Clock + Print + AllocGlobal>(rt: &R, count: u32, looks: u64) -> Result<(), io::Error> {
    let alloc = rt.alloc();
    let mut pool = Pool::new(alloc);
    let (names, literals) = fill(alloc, &mut pool, count)?;
    println!(rt; "filled {} {literals}", names.len())?;
    if looks == 0 {
        return Ok(());
    }
    let half = (count / 2) as usize;
    if half > names.len() {
        return Ok(());
    }
    let originals = picks(alloc, &names[..half], 1_048_576)?;
    time(rt, &pool, "originals", &originals, looks)?;
    let lemmas = picks(alloc, &names[half..], 1_048_576)?;
    time(rt, &pool, "lemmas", &lemmas, looks)
}

fn main(rt: HostRuntime) -> Result<(), io::Error> {
    let mut numbers = [0u64; 2];
    let mut place = 0;
    for word in env::args(&rt)?.skip(1) {
        if place < 2 {
            numbers[place] = word.parse::<u64>().unwrap_or(0);
            place += 1;
        }
    }
    run(&rt, (numbers[0] % 100_000_000) as u32, numbers[1])
}
'''

GHOSTS = '''use Rattle.lookups.proofs.%s.Given as goal

-- the ledger of the blank
abbrev pub ghosts-%s_on : goal.ghosts-%s_on
ghosts-%s_on a = record { name = a.blank.name; parts = a.blank.parts }
'''

SPAN_USE = '''ghost use Rattle.clause_pool.specs.Spans.{span_of};
ghost use Rattle.std.specs.Prelude.{Some};

use clause_pool::{Pool, Span, Steps};
'''

SPAN_READ = '''
/// Where the clause of a name stands.
#[derive(Clone, Copy)]
struct Standing {
    name: Name,
    span: Span,
}

/// Where the clauses of these names stand.
fn standings(alloc: Global, pool: &Pool, names: &[Name]) -> Result<Vec<Standing>, io::Error> {
    let mut standings = Vec::new(alloc);
    for name in names {
        if let Some(span) = pool.span(*name) {
            standings.push(Standing { name: *name, span })?;
        }
    }
    Ok(standings)
}

/// Whether the clauses stand there.
fn do_stand(pool: &Pool, standings: &[Standing]) -> bool
    ensures { IsTrue result → All (λ s. span_of pool.now.added s.name ≡ Some s.span) standings.now }
{
    standings.iter().all(|s| stands(pool, s.name, s.span))
}

/// Whether the clause of this name stands here.
fn stands(pool: &Pool, name: Name, span: Span) -> bool
    ensures { IsTrue result → span_of pool.now.added name ≡ Some span }
{
    match pool.span(name) {
        Some(found) => found == span,
        None => false,
    }
}

/// The same by where the clauses stand.
fn read_spans(pool: &Pool, standings: &[Standing]) -> u64
    requires { All (λ s. span_of pool.now.added s.name ≡ Some s.span) standings.now }
{
    read_spans_on::<Brand>(Blank::new(1), pool, standings)
}

fn read_spans_on<L: Ledger>(blank: Blank, pool: &Pool, standings: &[Standing]) -> u64
    requires name { blank.name ≡ L.name }
    requires parts { blank.parts ≡ L.parts }
    requires some { 0 < blank.parts }
    requires stand { All (λ s. span_of pool.now.added s.name ≡ Some s.span) standings.now }
{
    let mut steps = Steps::<L>::new(blank);
    let mut sum = 0u64;
    for s in standings {
        if let Some(lit) = pool.lits_in(s.span, &mut steps).first() {
            sum = sum.wrapping_add(lit.index() as u64);
        }
    }
    sum
}

'''

SPAN_KEEP = '''let standings = standings(alloc, pool, names)?;
    if !do_stand(pool, &standings) {
        return Ok(());
    }'''

# What stands for each of these in the program, over a pool that tells where a clause stands, and over an older one.
PARTS = {
    'SPAN_USE': (SPAN_USE, '\nuse clause_pool::{Pool, Steps};\n'),
    'SPAN_READ': (SPAN_READ, ''),
    'SPAN_KEEP': (SPAN_KEEP, ''),
    'SPAN_CALL': ('read_spans(pool, &standings)', '0'),
    'POOL_HELD': ('pool.now.held', 'pool.now'),
}


def build(crates):
    """The built program, in a throwaway repository."""
    folder = tempfile.mkdtemp(prefix='lookups')
    for name in ('lit_base', 'clause_pool'):
        shutil.copytree(os.path.join(crates, name), os.path.join(folder, 'crates', name), ignore=shutil.ignore_patterns('out', 'must-fail'))
    with open(os.path.join(os.path.dirname(os.path.abspath(crates)), 'crates.txt')) as lines:
        needs = [line for line in lines if line.split(':')[0] in ('lit_base', 'clause_pool')]
    with open(os.path.join(folder, 'crates.txt'), 'w') as out:
        out.write(''.join(needs) + 'lookups: lit_base clause_pool\n')
    source = os.path.join(folder, 'crates', 'lookups', 'src')
    os.makedirs(source)
    with open(os.path.join(crates, 'clause_pool', 'src', 'pool.rt')) as pool:
        spans = 'fn lits_in' in pool.read()
    text = MAIN
    for part, (newer, older) in PARTS.items():
        text = text.replace(part, newer if spans else older)
    with open(os.path.join(source, 'main.rt'), 'w') as out:
        out.write(text)
    for function in ('read', 'read_spans') if spans else ('read',):
        ghosts = os.path.join(os.path.dirname(source), 'proofs', function)
        os.makedirs(ghosts)
        with open(os.path.join(ghosts, 'Invariants.antt'), 'w') as out:
            out.write(GHOSTS % ((function,) * 4))
    run = subprocess.run(['rt', 'run', '--', '8', '0'], cwd=os.path.dirname(source), stdout=subprocess.PIPE, stderr=subprocess.STDOUT, text=True)
    if run.returncode:
        sys.exit(run.stdout)
    return folder, os.path.join(os.path.dirname(source), 'out', 'lookups')


def run(command):
    """What a run writes."""
    return subprocess.run(command, stdout=subprocess.PIPE, text=True, check=True).stdout


def peak(command):
    """The peak memory of a run in bytes."""
    told = subprocess.run(['time', '-f', '%M', *command], stdout=subprocess.DEVNULL, stderr=subprocess.PIPE, text=True, check=True).stderr
    return int(told.split()[-1]) * 1024


def memory(program, size, clauses, literals):
    """A line on the memory that a clause takes beside its literals and its name in the list of this program."""
    if not shutil.which('time'):
        return '%d clauses: memory is not measured without GNU time' % size
    beside = (peak([program, str(size), '0']) - peak([program, '0', '0']) - 4 * literals) / clauses - 12
    return '%d clauses: %.1f bytes a clause beside its literals' % (size, beside)


def main():
    parser = argparse.ArgumentParser()
    parser.add_argument('--crates', default=os.path.join(TOP, 'crates'))
    parser.add_argument('--looks', type=int, default=5_000_000)
    args = parser.parse_args()
    folder, program = build(args.crates)
    try:
        for size in SIZES:
            lines = run([program, str(size), str(args.looks)]).splitlines()
            _, clauses, literals = lines[0].split()
            print(memory(program, size, int(clauses), int(literals)))
            best = {}
            for line in lines[1:]:
                what, looks, *times = line.split()[:5]
                best[what] = [min(a, int(t) / int(looks)) for a, t in zip(best.get(what, [float('inf')] * 3), times)]
            for what, (held, lits, span) in best.items():
                print('  %-9s  held %6.1f ns  lits %6.1f ns  span %6.1f ns' % (what, held, lits, span))
    finally:
        shutil.rmtree(folder)


if __name__ == '__main__':
    main()
