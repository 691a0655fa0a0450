#!/usr/bin/env bash
# Times whole runs of the built program: crates/sigma/out/sigma (make it by `rt run` in crates/sigma). Not part of the gate.
# Each line has the least and the median time of many runs, and how much the least one is above an empty run. The long texts
# have up to 4,096 bytes; those of the last table have 32 open parentheses, and 2,016 terms or factors where they are chains.
set -u
cd "$(dirname "$0")/.." || exit 1
sigma=crates/sigma/out/sigma
[ -x "$sigma" ] || { echo "no $sigma"; exit 1; }
python3 - "$sigma" <<'PY'
import os, resource, subprocess, sys, time
sigma = sys.argv[1]
def clip(t): return t if len(t) <= 24 else t[:20] + '...'
def spawned(words):
    start = time.perf_counter()
    pid = os.posix_spawn(sigma, [sigma] + words, os.environ, file_actions=[(os.POSIX_SPAWN_OPEN, 1, os.devnull, os.O_WRONLY, 0)])
    os.wait4(pid, 0)
    return (time.perf_counter() - start) * 1000
def times(words, runs=200):
    t = sorted(spawned(words) for _ in range(runs))
    return t[0], t[len(t) // 2]
empty = times([])[0]
print('%-34s %6.2f ms' % ('an empty run', empty))
def run(words):
    p = subprocess.run([sigma] + words, stdout=subprocess.PIPE)
    least, median = times(words)
    print('%-34s %6.2f ms  median %6.2f  above empty %5.2f  status %d  %s' % (' '.join(clip(w) for w in words), least, median, least - empty, p.returncode, clip(p.stdout.decode().strip())))
long = '+'.join(['123456*k^4'] * 371) + '+1'
for f in ('k', 'k^4', 'k^8', 'k^16', 'k^24', 'k^32', '(k+1)^20', long):
    run(['sum', '1', f])
run(['value', '30', 'H(k)'])
run(['value', '100000', 'H(k)'])
def inside(body): return '(' * 32 + body + ')' * 32
for f in ('+'.join(['1234567890123456'] * 237), '+'.join(['123456*k^4'] * 366), '+'.join(['k'] * 2016), '-'.join(['k'] * 2016), '*'.join(['k'] * 2016), '-'.join(['1'] * 2016), '/'.join(['1'] * 2016), '-'.join(['k^2'] * 1008)):
    assert len(f) + 64 <= 4096
    run(['sum', '1', inside(f)])
def few(): resource.setrlimit(resource.RLIMIT_AS, (8 << 20, 8 << 20))
kept = all(subprocess.run([sigma, 'sum', '1', f], stdout=subprocess.PIPE, preexec_fn=few).returncode == 0 for f in ('k^32', '(k+1)^20', long))
print('8 MiB of memory are %s' % ('enough' if kept else 'not enough'))
PY
