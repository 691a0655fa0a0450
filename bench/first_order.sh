#!/usr/bin/env bash
# Times `solve_first` of sg_rational over the fractions, and counts where it is wide. Not part of the gate.
# It writes a program into a copy of the crates in a temporary folder, builds it there, and prints for each kind of right side and each
# degree of its denominator: the processor's time for one call, how many pairs it answers, the greatest number in them, and how many of 20
# seeds are `wide` (a step doesn't fit 128 bits) or end as memory ran out.
#   one       a = 1, f = 1/((q k + c) ..) with q from 1 to 2 and c up to 20
#   two       a = 2, the same f
#   line      a = (k + 2)/(k + 5), the same f
set -eu
cd "$(dirname "$0")/.."
room=$(mktemp -d)
trap 'rm -rf "$room"' EXIT
needed() { awk -v want="$1" '{ n = $1; sub(":", "", n); deps[n] = $0 } END { m = split(want, todo, " "); for (i = 1; i <= m; i++) { split(deps[todo[i]], w, " "); for (j = 2; j in w; j++) if (w[j] in deps && !(w[j] in seen)) { seen[w[j]] = 1; todo[++m] = w[j] } } for (i = 1; i <= m; i++) print todo[i] }' crates.txt | sort -u; }
mkdir "$room/crates"
for crate in $(needed sg_rational); do
    git ls-files -z "crates/$crate" | xargs -0 cp --parents -t "$room"
    grep -E "^$crate:" crates.txt >> "$room/crates.txt"
done
cp HANDLES "$room"
echo 'telescoping: sg_num sg_poly sg_ratfun sg_rational anyhow' >> "$room/crates.txt"
mkdir -p "$room/crates/telescoping/src"
cat > "$room/crates/telescoping/src/main.rt" <<'R'
//! One equation, many times.
#![tactic(auto)]

use anyhow::Context;
use sg_num::{Field, Rat, Row, Stop};
use sg_poly::Poly;
use sg_ratfun::RatFun;
use sg_rational::{Solution, solve_first};
use std::alloc::Global;
use std::env;

fn line(alloc: Global, c: i128, q: i128) -> Result<Poly<Rat>, Stop> {
    let mut row = Row::new(alloc);
    row.push(Rat::whole(c))?;
    row.push(Rat::whole(q))?;
    Poly::from_coeffs(alloc, row)
}

fn over(alloc: Global, p: Poly<Rat>, q: Poly<Rat>) -> Result<RatFun<Rat>, Stop> {
    if q.is_zero() {
        return RatFun::zero(alloc);
    }
    RatFun::new(alloc, p, q)
}

fn one_over(alloc: Global, degree: u32, seed: u32) -> Result<RatFun<Rat>, Stop> {
    let mut state = seed;
    let mut lower = line(alloc, 1, 0)?;
    for _ in 0..degree {
        state = state.wrapping_mul(1664525).wrapping_add(1013904223);
        let q = (state >> 16) as i128 % 2 + 1;
        let c = (state >> 20) as i128 % 21;
        lower = lower.mul(alloc, &line(alloc, c, q)?)?;
    }
    let upper = line(alloc, 1, 0)?;
    over(alloc, upper, lower)
}

fn coefficient(alloc: Global, kind: &str) -> Result<RatFun<Rat>, Stop> {
    if kind == "line" {
        let upper = line(alloc, 2, 1)?;
        let lower = line(alloc, 5, 1)?;
        return over(alloc, upper, lower);
    }
    let upper = line(alloc, if kind == "two" { 2 } else { 1 }, 0)?;
    let lower = line(alloc, 1, 0)?;
    over(alloc, upper, lower)
}

// The number of bits of the greatest numerator of a coefficient.
fn size(p: &Poly<Rat>) -> u32 {
    let mut most = 0u32;
    for c in p.coeffs() {
        let bits = 128u32.saturating_sub(c.num().unsigned_abs().leading_zeros());
        most = most.max(bits);
    }
    most
}

fn bits(alloc: Global, list: &Row<Solution<Rat, RatFun<Rat>>>) -> Result<u32, Stop> {
    let mut most = 0;
    for s in list.as_slice() {
        let upper = s.value.num(alloc)?;
        let lower = s.value.den(alloc)?;
        most = most.max(size(&upper)).max(size(&lower));
    }
    Ok(most)
}

fn called(alloc: Global, kind: &str, degree: u32, seed: u32) -> Result<(usize, u32), Stop> {
    let a = coefficient(alloc, kind)?;
    let mut fs = Row::new(alloc);
    fs.push(one_over(alloc, degree, seed)?)?;
    if a.is_zero() {
        return Ok((0, 0));
    }
    let list = solve_first(alloc, &a, &fs)?;
    let most = bits(alloc, &list)?;
    Ok((list.len(), most))
}

fn main(rt: HostRuntime) -> anyhow::Result<()> {
    let mut words = env::args(&rt)?;
    let _ = words.next();
    let kind = words.next().context("a kind")?;
    let degree = words.next().context("a degree")?.parse::<u32>()?;
    let seed = words.next().context("a seed")?.parse::<u32>()?;
    match called(rt.alloc(), &kind, degree, seed) {
        Ok((pairs, most)) => println!(rt; "{pairs} {most}")?,
        Err(Stop::Wide(_)) => println!(rt; "wide")?,
        Err(Stop::Memory(_)) => println!(rt; "memory")?,
    }
    Ok(())
}
R
cd "$room/crates/telescoping"
rt run -- one 2 1 > "$room/log" 2>&1 || { tail -n 40 "$room/log"; exit 1; }
python3 - out/telescoping <<'PY'
import resource, subprocess, sys
def spent():
    used = resource.getrusage(resource.RUSAGE_CHILDREN)
    return used.ru_utime + used.ru_stime
for kind in ('one', 'two', 'line'):
    for degree in (2, 4, 8):
        answers, times = [], []
        for seed in range(1, 21):
            before = spent()
            done = subprocess.run([sys.argv[1], kind, str(degree), str(seed)], capture_output=True, text=True, check=True)
            times.append(spent() - before)
            answers.append(done.stdout.split())
        given = [a for a in answers if len(a) == 2]
        print('%-4s degree %d  median %8.1f ms  greatest %8.1f ms  wide %2d  memory %2d  pairs %s  most bits %d' % (
            kind, degree, sorted(times)[10] * 1e3, max(times) * 1e3, answers.count(['wide']), answers.count(['memory']), sorted(set(int(a[0]) for a in given)), max([int(a[1]) for a in given] or [0])))
PY
