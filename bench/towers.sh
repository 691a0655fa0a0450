#!/usr/bin/env bash
# Times `telescope` of sg_tele for the powers of H(k), over the fractions. Not part of the gate.
# It writes a program into a copy of the crates, with what is proved of them, in a temporary folder, builds it there, and prints for
# each tower and each power n from 1 to 6 the processor's time for one call, whether H(k)^n telescopes there, and how many bits the
# greatest number of the answer has; or `wide`, where a step doesn't fit 128 bits.
#   one     the tower with H(k)
#   two     with H(k) and H(k,2)
#   three   with H(k), H(k,2) and H(k,3)
set -eu
cd "$(dirname "$0")/.."
room=$(mktemp -d)
trap 'rm -rf "$room"' EXIT
mkdir "$room/crates"
python3 - "$room" <<'PY'
import shutil, sys
lines = {}
for line in open('crates.txt'):
    name, colon, rest = line.partition(':')
    if colon and not line.startswith('#'):
        lines[name] = rest.split()
todo, names = ['sg_tele'], []
while todo:
    name = todo.pop()
    if name in lines and name not in names:
        names.append(name)
        todo += lines[name]
with open(sys.argv[1] + '/crates.txt', 'w') as f:
    for name in lines:
        if name in names:
            f.write(name + ': ' + ' '.join(lines[name]) + '\n')
            shutil.copytree('crates/' + name, sys.argv[1] + '/crates/' + name)
    f.write('towers: sg_num sg_poly sg_ratfun sg_tower sg_sums sg_bottom sg_tele anyhow\n')
PY
cp HANDLES "$room"
mkdir -p "$room/crates/towers/src"
cat > "$room/crates/towers/src/main.rt" <<'R'
//! The powers of the harmonic numbers, telescoped many times.
#![tactic(auto)]

use anyhow::Context;
use sg_bottom::Bottom;
use sg_num::{Field, Rat, Row, Stop};
use sg_poly::Poly;
use sg_ratfun::RatFun;
use sg_sums::SumExt;
use sg_tele::telescope;
use sg_tower::{FlatTerm, Tower};
use std::alloc::Global;
use std::env;

// What a call answers.
#[derive(Drop)]
enum Answer {
    Nothing,
    Found(u32),
}

// k + 1
fn next(alloc: Global) -> Result<RatFun<Rat>, Stop> {
    let mut row = Row::new(alloc);
    row.push(Rat::whole(1))?;
    row.push(Rat::whole(1))?;
    RatFun::from_poly(alloc, Poly::from_coeffs(alloc, row)?)
}

// 1/(k + 1)^n
fn growth<T: Tower<K = Rat>>(alloc: Global, tower: &T, n: u32) -> Result<T::Elem, Stop> {
    let line = tower.lift(alloc, &next(alloc)?)?;
    let mut r = tower.one(alloc)?;
    for _ in 0..n {
        r = tower.mul(alloc, &r, &line)?;
    }
    match tower.invert(alloc, &r)? {
        None => Ok(r),
        Some(inverse) => Ok(inverse),
    }
}

// The tower with one more sum, H(k,n); None where that is no new sum.
fn grown<T: Tower<K = Rat>>(alloc: Global, below: T, n: u32) -> Result<Option<SumExt<T>>, Stop> {
    if below.sums() == 64 {
        return Ok(None);
    }
    let beta = growth(alloc, &below, n)?;
    match telescope(alloc, &below, &beta)? {
        None => Ok(Some(SumExt::new(below, beta))),
        Some(_) => Ok(None),
    }
}

fn bits_of(p: &Poly<Rat>) -> u32 {
    let mut most = 0;
    for c in p.coeffs() {
        let n = c.num().unsigned_abs();
        let m = c.den().unsigned_abs();
        most = most.max(128u32.saturating_sub((n | m).leading_zeros()));
    }
    most
}

fn bits(alloc: Global, terms: &Row<FlatTerm<Rat>>) -> Result<u32, Stop> {
    let mut most = 0;
    for t in terms.as_slice() {
        let upper = t.coeff.num(alloc)?;
        let lower = t.coeff.den(alloc)?;
        most = most.max(bits_of(&upper)).max(bits_of(&lower));
    }
    Ok(most)
}

fn power<T: Tower<K = Rat>>(alloc: Global, tower: &T, n: u32) -> Result<T::Elem, Stop> {
    let t = tower.generator(alloc, 0)?;
    let mut f = tower.one(alloc)?;
    for _ in 0..n {
        f = tower.mul(alloc, &f, &t)?;
    }
    Ok(f)
}

fn once<T: Tower<K = Rat>>(alloc: Global, tower: &T, f: &T::Elem) -> Result<Answer, Stop> {
    match telescope(alloc, tower, f)? {
        None => Ok(Answer::Nothing),
        Some(g) => {
            let terms = tower.flat(alloc, &g)?;
            let most = bits(alloc, &terms)?;
            Ok(Answer::Found(most))
        }
    }
}

// The power of the first sum of the tower, telescoped so many times.
fn telescoped<T: Tower<K = Rat>>(
    alloc: Global,
    tower: &T,
    n: u32,
    times: u32,
) -> Result<Answer, Stop> {
    let f = power(alloc, tower, n)?;
    let mut answer = Answer::Nothing;
    for _ in 0..times {
        answer = once(alloc, tower, &f)?;
    }
    Ok(answer)
}

fn over_two<T: Tower<K = Rat>>(
    alloc: Global,
    kind: &str,
    two: T,
    n: u32,
    times: u32,
) -> Result<Answer, Stop> {
    if kind == "two" {
        return telescoped(alloc, &two, n, times);
    }
    match grown(alloc, two, 3)? {
        None => Ok(Answer::Nothing),
        Some(three) => telescoped(alloc, &three, n, times),
    }
}

fn over_one<T: Tower<K = Rat>>(
    alloc: Global,
    kind: &str,
    one: T,
    n: u32,
    times: u32,
) -> Result<Answer, Stop> {
    if kind == "one" {
        return telescoped(alloc, &one, n, times);
    }
    match grown(alloc, one, 2)? {
        None => Ok(Answer::Nothing),
        Some(two) => over_two(alloc, kind, two, n, times),
    }
}

fn called(alloc: Global, kind: &str, n: u32, times: u32) -> Result<Answer, Stop> {
    let bottom: Bottom<Rat> = Bottom::none(alloc);
    match grown(alloc, bottom, 1)? {
        None => Ok(Answer::Nothing),
        Some(one) => over_one(alloc, kind, one, n, times),
    }
}

fn main(rt: HostRuntime) -> anyhow::Result<()> {
    let mut words = env::args(&rt)?;
    let _ = words.next();
    let kind = words.next().context("a tower")?;
    let n = words.next().context("a power")?.parse::<u32>()?;
    let times = words.next().context("how often")?.parse::<u32>()?;
    match called(rt.alloc(), &kind, n, times) {
        Ok(Answer::Nothing) => println!(rt; "none")?,
        Ok(Answer::Found(most)) => println!(rt; "found, {most} bits")?,
        Err(Stop::Wide(_)) => println!(rt; "wide")?,
        Err(Stop::Memory(_)) => println!(rt; "memory")?,
    }
    Ok(())
}
R
cd "$room/crates/towers"
rt run -- one 1 1 > "$room/log" 2>&1 || { tail -n 40 "$room/log"; exit 1; }
python3 - out/towers <<'PY'
import resource, subprocess, sys
def spent(words):
    before = resource.getrusage(resource.RUSAGE_CHILDREN)
    done = subprocess.run([sys.argv[1]] + words, capture_output=True, text=True, check=True)
    after = resource.getrusage(resource.RUSAGE_CHILDREN)
    return after.ru_utime + after.ru_stime - before.ru_utime - before.ru_stime, done.stdout.strip()
for kind in ('one', 'two', 'three'):
    for n in range(1, 7):
        few = min(spent([kind, str(n), '1'])[0] for _ in range(5))
        many, answer = min(spent([kind, str(n), '51']) for _ in range(3))
        print('%-5s H(k)^%d  %8.3f ms  %s' % (kind, n, (many - few) * 20, answer))
PY
