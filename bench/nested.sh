#!/usr/bin/env bash
# Sums over nested sums: families of them, and the lines of docs/closing.md. Each is answered by the built program,
# crates/sigma/out/sigma (make it by `rt run` in crates/sigma), and each closed form is compared with the plain sum, in fractions of
# any size, at twenty upper bounds from its start on. Not part of the gate.
# A line a family: how many were closed, none and wide, how many were wrong, the slowest one's least time of three whole runs, and
# the most memory that a run took.
set -u
cd "$(dirname "$0")/.." || exit 1
sigma=crates/sigma/out/sigma
[ -x "$sigma" ] || { echo "no $sigma"; exit 1; }
python3 - "$sigma" <<'PY'
import os, re, shlex, sys, time
from fractions import Fraction
SIGMA = sys.argv[1]

class Reader:
    """An expression of the language as nested tuples; H(x) and H(x,r) as sums."""
    def __init__(self, text): self.text, self.at = text.replace(' ', ''), 0
    def peek(self): return self.text[self.at:self.at + 1]
    def take(self, pattern):
        found = re.compile(pattern).match(self.text, self.at)
        assert found, (self.text, self.at, pattern)
        self.at = found.end()
        return found[0]
    def whole(self):
        e = self.sum()
        assert self.at == len(self.text), (self.text, self.at)
        return e
    def sum(self):
        e = self.opposite() if self.peek() == '-' else self.product()
        while self.peek() and self.peek() in '+-':
            sign = self.take('.')
            e = (sign, e, self.product())
        return e
    def opposite(self):
        self.take('-')
        return ('-', ('number', Fraction(0)), self.product())
    def product(self):
        e = self.power()
        while self.peek() and self.peek() in '*/':
            sign = self.take('.')
            e = (sign, e, self.power())
        return e
    def power(self):
        e = self.part()
        if self.peek() == '^':
            self.take(r'\^')
            e = ('^', e, int(self.take(r'\d+')))
        return e
    def part(self):
        if self.peek() == '(':
            self.take(r'\(')
            e = self.sum()
            self.take(r'\)')
            return e
        if self.peek().isdigit(): return ('number', Fraction(self.take(r'\d+')))
        name = self.take('[A-Za-z]+')
        if self.peek() != '(': return ('letter', name)
        self.take(r'\(')
        if name == 'H':
            upper, order = self.take('[a-z]'), 1
            if self.peek() == ',':
                self.take(',')
                order = int(self.take(r'\d+'))
            self.take(r'\)')
            return ('sum', '#', 1, upper, ('^', ('/', ('number', Fraction(1)), ('letter', '#')), order))
        assert name == 'sum', name
        letter = self.take('[a-z]')
        self.take(',')
        lower = int(self.take(r'-?\d+'))
        self.take(',')
        upper = self.take('[a-z]')
        self.take(',')
        body = self.sum()
        self.take(r'\)')
        return ('sum', letter, lower, upper, body)

SUMS = {}
def value(e, env):
    kind = e[0]
    if kind == 'number': return e[1]
    if kind == 'letter': return env[e[1]]
    if kind == '^': return value(e[1], env) ** e[2]
    if kind == 'sum':
        _, letter, lower, upper, body = e
        so_far = SUMS.setdefault((letter, lower, body), [Fraction(0)])
        n = max(0, int(env[upper]) - lower + 1)
        while len(so_far) <= n:
            so_far.append(so_far[-1] + value(body, {letter: Fraction(lower + len(so_far) - 1)}))
        return so_far[n]
    x, y = value(e[1], env), value(e[2], env)
    return x + y if kind == '+' else x - y if kind == '-' else x * y if kind == '*' else x / y

def answer(words):
    """The line, the least time of three runs in milliseconds, and the most memory in KiB."""
    least = None
    for _ in range(3):
        r, w = os.pipe()
        start = time.perf_counter()
        child = os.posix_spawn(SIGMA, [SIGMA] + words, os.environ, file_actions=[(os.POSIX_SPAWN_DUP2, w, 1)])
        os.close(w)
        with os.fdopen(r) as f: line = f.read().strip()
        _, _, used = os.wait4(child, 0)
        took = (time.perf_counter() - start) * 1000
        least = took if least is None else min(least, took)
    return line, least, used.ru_maxrss

def is_right(words, line):
    """Whether a closed form is the plain sum at twenty upper bounds."""
    h, start = re.fullmatch(r'closed (.*) from (-?\d+)', line).groups()
    lower, start = int(words[1]), int(start)
    f, h = Reader(words[2]).whole(), Reader(h).whole()
    total = sum((value(f, {'k': Fraction(k)}) for k in range(lower, start)), Fraction(0))
    for m in range(start, start + 20):
        total += value(f, {'k': Fraction(m)})
        if value(h, {'m': Fraction(m)}) != total: return False
    return True

def family(name, commands):
    count = dict.fromkeys(('closed', 'none', 'wide', 'wrong'), 0)
    slowest, most = 0, 0
    for words in commands:
        line, took, memory = answer(words)
        slowest, most = max(slowest, took), max(most, memory)
        kind = line.split(' ')[0]
        count[kind] = count.get(kind, 0) + 1
        if kind == 'closed' and not is_right(words, line):
            count['wrong'] += 1
            print('WRONG', words, line)
    counts = ' '.join('%s %d' % (k, n) for k, n in count.items())
    print('%-44s %s  slowest %6.1f ms  %5.1f MiB' % (name, counts, slowest, most / 1024), flush=True)

def sums(*texts): return [['sum', '1', *([t] if isinstance(t, str) else t)] for t in texts]
def nested(depth):
    def body(letter, other, d): return '1/%s' % letter if d == 1 else 'sum(%s,1,%s,%s)/%s' % (other, letter, body(other, letter, d - 1), letter)
    return 'sum(j,1,k,%s)' % body('j', 'i', depth)
H2 = ('with', 'H(k,2)')
family('H(k)^2, 1/(k*(k+1)), k', sums('H(k)^2', '1/(k*(k+1))', 'k'))
family('k^i H(k)^j for i to 4, j to 2', sums(*('k^%d*H(k)^%d' % (i, j) for i in range(5) for j in (1, 2))))
family('k^i H(k) for i to 32', sums(*('k^%d*H(k)' % i for i in range(33))))
family('(k+c) H(k)^2 for c from 1 to 42 and 1000', sums(*('(k+%d)*H(k)^2' % c for c in [*range(1, 43), 1000])))
family('k^i H(k)^3 for i to 4 with H(k,2)', sums(*(('k^%d*H(k)^3' % i, *H2) for i in range(5))))
family('H(k)/k, H(k)/(k*(k+1)) with H(k,2)', sums(('H(k)/k', *H2), ('H(k)/(k*(k+1))', *H2)))
family('H(k) H(k,2)', sums('H(k)*H(k,2)'))
for depth in range(1, 7): family('1/j summed %d times' % depth, sums(nested(depth)))
family('H(k,1) + .. + H(k,8)', sums('+'.join('H(k,%d)' % r for r in range(1, 9))))
shown = [shlex.split(line.strip())[2:] for line in open('docs/closing.md') if line.startswith('    $ sigma sum ')]
family('docs/closing.md', shown)
PY
