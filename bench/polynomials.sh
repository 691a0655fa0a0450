#!/usr/bin/env bash
# polynomials.sh [before]: times products, greatest common divisors and shifts of polynomials over the fractions, and counts how
# often they are wide. Not part of the gate. It writes a program into a copy of the crates, with what is proved of them, in a
# temporary folder, builds it there, and prints the processor's time for one call and how many coefficients or shifts the answer has,
# or `wide` where a step doesn't fit 128 bits; and last how many of 20 seeded pairs are wide, or end as memory ran out. With `before`
# no linear factor is split off in that copy: common divisors by Euclid's divisions alone, shifts by the elimination alone.
#   mul       (k+1)^d times itself: the coefficients are binomials, up to 2.4*10^37 at degree 64
#   gcd       (k+1)^c (k^a-1) and (k+1)^c (k^b-1), where a and b follow each other in Fibonacci's list and c + a = d: many divisions, by dense divisors
#   coprime   two polynomials of degree d with coefficients from -9 to 9 without a pattern
#   dense     the shifts at which the same meet
#   lines     two products of d factors k + c, with |c| up to 200 and one factor in common, times each other
#   common    the greatest common divisor of the same
#   shifts    the shifts at which the same meet
#   rests     the shifts at which two products of d factors k^2 + b k + c meet, with |b| and |c| up to 20
set -eu
cd "$(dirname "$0")/.."
room=$(mktemp -d)
trap 'rm -rf "$room"' EXIT
mkdir "$room/crates"
for crate in sg_algebra sg_spec sg_num sg_poly sg_matrix sg_roots sg_ratfun sg_dispersion_theory sg_spread; do
    cp -a "crates/$crate" "$room/crates"
    grep "^$crate:" crates.txt >> "$room/crates.txt"
done
cp HANDLES "$room"
if [ "${1-}" = before ]; then
    sed -i 's/rests.left.coeffs().len() > 2 && rests.right.coeffs().len() > 2/rests.left.coeffs().len() < 1/' "$room/crates/sg_poly/src/common.rt"
    python3 - "$room/crates/sg_spread" <<'PY'
import pathlib, shutil, sys
crate = pathlib.Path(sys.argv[1])
path = crate / 'src/shifts.rt'
text = path.read_text()
path.write_text(text[:text.rindex('{\n    let left = ')] + '{\n    let all = crate::elimination::eliminated(alloc, a, b)?;\n    Ok(all)\n}\n')
shutil.rmtree(crate / 'proofs/shifts')
PY
fi
echo 'polynomials: sg_num sg_poly sg_spread anyhow' >> "$room/crates.txt"
mkdir -p "$room/crates/polynomials/src"
cat > "$room/crates/polynomials/src/main.rt" <<'R'
//! One call on two polynomials, many times.
#![tactic(auto)]

use anyhow::Context;
use sg_num::{Rat, Row, Stop};
use sg_poly::Poly;
use sg_spread::spread;
use std::alloc::Global;
use std::env;

// k + 1 to the n-th, times k^m - 1 (times 1 where m is 0).
fn built(alloc: Global, n: u32, m: u32) -> Result<Poly<Rat>, Stop> {
    let factor = binomial(alloc, 1, 1)?;
    let mut p = binomial(alloc, m, if m == 0 { 1 } else { -1 })?;
    for _ in 0..n {
        p = p.mul(alloc, &factor)?;
    }
    Ok(p)
}

// k^m + c; c alone where m is 0.
fn binomial(alloc: Global, m: u32, c: i128) -> Result<Poly<Rat>, Stop> {
    let mut row = Row::new(alloc);
    row.push(Rat::whole(c))?;
    for i in 0..m {
        row.push(Rat::whole(if i + 1 == m { 1 } else { 0 }))?;
    }
    Poly::from_coeffs(alloc, row)
}

fn drawn(alloc: Global, degree: u32, seed: u32) -> Result<Poly<Rat>, Stop> {
    let mut state = seed;
    let mut row = Row::new(alloc);
    for _ in 0..degree {
        state = state.wrapping_mul(1664525).wrapping_add(1013904223);
        row.push(Rat::whole((state >> 16) as i128 % 19 - 9))?;
    }
    row.push(Rat::whole(7))?;
    Poly::from_coeffs(alloc, row)
}

// A number from -200 to 200.
fn next(state: &mut u32) -> i128 {
    *state = state.wrapping_mul(1664525).wrapping_add(1013904223);
    (*state >> 16) as i128 % 401 - 200
}

// k + c times as many drawn factors k + c as are left to the degree.
fn lines(alloc: Global, c: i128, degree: u32, state: &mut u32) -> Result<Poly<Rat>, Stop> {
    let mut p = binomial(alloc, 1, c)?;
    for _ in 1..degree {
        p = p.mul(alloc, &binomial(alloc, 1, next(state))?)?;
    }
    Ok(p)
}

// The product of drawn factors k^2 + b k + c.
fn quadratics(alloc: Global, count: u32, state: &mut u32) -> Result<Poly<Rat>, Stop> {
    let mut p = binomial(alloc, 0, 1)?;
    for _ in 0..count {
        let mut row = Row::new(alloc);
        row.push(Rat::whole(next(state) / 10))?;
        row.push(Rat::whole(next(state) / 10))?;
        row.push(Rat::whole(1))?;
        p = p.mul(alloc, &Poly::from_coeffs(alloc, row)?)?;
    }
    Ok(p)
}

fn operands(
    alloc: Global,
    kind: &str,
    degree: u32,
    seed: u32,
) -> Result<(Poly<Rat>, Poly<Rat>), Stop> {
    let mut state = seed;
    if kind == "lines" || kind == "common" || kind == "shifts" {
        let c = next(&mut state);
        let p = lines(alloc, c, degree, &mut state)?;
        let q = lines(alloc, c, degree, &mut state)?;
        return Ok((p, q));
    }
    if kind == "rests" {
        let p = quadratics(alloc, degree, &mut state)?;
        let q = quadratics(alloc, degree, &mut state)?;
        return Ok((p, q));
    }
    let (a, b) = if degree == 4 {
        (3, 2)
    } else if degree == 16 {
        (8, 5)
    } else {
        (34, 21)
    };
    if kind == "mul" {
        let p = built(alloc, degree, 0)?;
        let q = p.copy(alloc)?;
        return Ok((p, q));
    }
    if kind == "gcd" {
        let c = degree.saturating_sub(a);
        let p = built(alloc, c, a)?;
        let q = built(alloc, c, b)?;
        return Ok((p, q));
    }
    let p = drawn(alloc, degree, seed)?;
    let q = drawn(alloc, degree, seed.wrapping_add(1000))?;
    Ok((p, q))
}

fn called(alloc: Global, kind: &str, p: &Poly<Rat>, q: &Poly<Rat>) -> Result<usize, Stop> {
    if kind == "mul" || kind == "lines" || p.is_zero() || q.is_zero() {
        return Ok(p.mul(alloc, q)?.coeffs().len());
    }
    if kind == "shifts" || kind == "dense" || kind == "rests" {
        return Ok(spread(alloc, p, q)?.len());
    }
    Ok(p.gcd(alloc, q)?.coeffs().len())
}

// How many coefficients or shifts the answer has, after this many calls.
fn size_of(
    alloc: Global,
    kind: &str,
    degree: u32,
    times: u32,
    seed: u32,
) -> Result<usize, Stop> {
    let (p, q) = operands(alloc, kind, degree, seed)?;
    let mut size = 0;
    for _ in 0..times {
        size = called(alloc, kind, &p, &q)?;
    }
    Ok(size)
}

fn main(rt: HostRuntime) -> anyhow::Result<()> {
    let mut words = env::args(&rt)?;
    let _ = words.next();
    let kind = words.next().context("a kind")?;
    let degree = words.next().context("a degree")?.parse::<u32>()?;
    let times = words.next().context("a count")?.parse::<u32>()?;
    let seed = words.next().context("a seed")?.parse::<u32>()?;
    match size_of(rt.alloc(), &kind, degree, times, seed) {
        Ok(size) => println!(rt; "{size} in the answer")?,
        Err(Stop::Wide(_)) => println!(rt; "wide")?,
        Err(Stop::Memory(_)) => println!(rt; "memory")?,
    }
    Ok(())
}
R
cd "$room/crates/polynomials"
rt run -- mul 4 1 1 > "$room/log" 2>&1 || { tail -n 40 "$room/log"; exit 1; }
python3 - out/polynomials <<'PY'
import resource, subprocess, sys
def spent():
    used = resource.getrusage(resource.RUSAGE_CHILDREN)
    return used.ru_utime + used.ru_stime
def run(kind, degree, times, seed=1):
    before = spent()
    done = subprocess.run([sys.argv[1], kind, str(degree), str(times), str(seed)], capture_output=True, text=True, check=True)
    return spent() - before, done.stdout.strip()
for kind, times in (('mul', {4: 20000, 16: 2000, 64: 100}), ('gcd', {4: 20000, 16: 2000, 64: 200}), ('coprime', {4: 20000, 16: 2000, 64: 200}),
                    ('dense', {2: 500, 4: 20}), ('lines', {2: 20000, 4: 20000, 8: 10000}), ('common', {2: 2000, 4: 500, 8: 200}),
                    ('shifts', {2: 500, 4: 200, 8: 50})):
    for degree, n in times.items():
        once, answer = min(run(kind, degree, 1) for _ in range(5))
        if not answer.endswith('answer'):
            print('%-8s degree %2d  %s' % (kind, degree, answer))
            continue
        many = min(run(kind, degree, n + 1) for _ in range(5))[0]
        print('%-8s degree %2d  %10.2f us a call  %s' % (kind, degree, (many - once) / n * 1e6, answer))
for kind, degrees in (('coprime', (2, 4, 8)), ('dense', (2, 4, 8)), ('lines', (2, 4, 8)), ('common', (2, 4, 8)), ('shifts', (2, 4, 8)), ('rests', (1, 2, 3))):
    for degree in degrees:
        answers = [run(kind, degree, 1, seed)[1] for seed in range(1, 21)]
        print('%-8s degree %2d  of 20: %2d wide, %2d memory' % (kind, degree, answers.count('wide'), answers.count('memory')))
PY
