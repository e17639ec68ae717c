#!/usr/bin/env python3
"""Writes specs/Small.antt and specs/Wide.antt: histories at 4 and at 32 slots, with what the oracle prints of them.

usage: make_tables.py ORACLE_4 ORACLE_32

The oracle is the published source under the bench language (oracle/ in this repository). Its two builds:
    cargo build --release --features small_branch --target-dir DIR_4     gives DIR_4/release/oracle
    cargo build --release --target-dir DIR_32                            gives DIR_32/release/oracle
"""
import os
import random
import subprocess
import sys

HERE = os.path.dirname(os.path.abspath(__file__))
HEADS = 4


class Writer:
    """One history: its lines for the oracle, its moves for the table."""

    def __init__(self, blocks):
        self.blocks = blocks
        self.lines, self.moves, self.next = [], [], 1

    def call(self, line, move):
        self.lines.append(line)
        self.moves.append(f'call ({move})' if ' ' in move else f'call {move}')

    def open(self, reserve, limit):
        self.call(f'o {reserve} {limit}', f'Open {reserve} {limit}')

    def close(self, v):
        self.call(f'c {v}', f'Close {v}')

    def append(self, r, g):
        self.call(f'a {r} {g}', f'Append true {r} {g}')

    def get(self, v, i):
        self.call(f'g {v} {i}', f'Get {v} {i}')

    def set(self, v, i):
        self.call(f's {v} {i} {self.next}', f'Set {v} {i} {self.next}')
        self.next += 1

    def ask(self, letter, name, v):
        self.call(f'{letter} {v}', f'{name} {v}')

    def free(self):
        self.call('f', 'Free')

    def check(self):
        self.call('k', 'Check')

    def push(self, n, v):
        self.lines += [f'p {v} {self.next + i}' for i in range(n)]
        self.moves.append(f'pushes {n} {v} {self.next}')
        self.next += n

    def pop(self, n, v):
        self.lines += [f'q {v}'] * n
        self.moves.append(f'pops {n} {v}')


def joined(slots, left, right, more=0):
    """Two vectors of these lengths, appended, and pushed on."""
    w = Writer(300)
    w.open(0, 300), w.open(0, 300)
    w.push(left, 0), w.push(right, 1)
    w.append(0, 1)
    w.push(more, 0) if more else None
    w.ask('b', 'Held', 0), w.ask('l', 'Length', 1)
    w.get(0, 0), w.get(0, left + right - 1), w.get(0, left + right + more)
    return w


def filled(slots, n):
    """One vector pushed full, and popped once."""
    w = Writer(300)
    w.open(0, 300)
    w.push(n, 0)
    w.ask('b', 'Held', 0)
    w.pop(1, 0)
    w.ask('b', 'Held', 0)
    return w


def prepended(slots, first, times, by):
    """Short vectors put in front, again and again: tall and thin on the left."""
    w = Writer(300)
    w.open(0, 300), w.open(0, 300)
    w.push(first, 0)
    for i in range(times):
        a, b = i % 2, 1 - i % 2
        w.push(by, b)
        w.append(b, a)
    w.ask('b', 'Held', times % 2), w.pop(slots + 1, times % 2), w.push(slots + 2, times % 2)
    return w


def shapes(slots, rng, steps):
    """Pushes, pops, sets and appends among three vectors, nothing refused for want of blocks."""
    w = Writer(300)
    sizes = [1, 2, slots - 1, slots, slots + 1, 2 * slots + 1, slots * slots // 2 + 1]
    if slots == 4:
        sizes += [slots * slots, slots * slots + 3, 37]
    for _ in range(3):
        w.open(0, 300)
    for _ in range(steps):
        kind = rng.randrange(10)
        v = rng.randrange(3)
        if kind < 4:
            w.push(rng.choice(sizes), v)
        elif kind < 6:
            w.pop(rng.choice([1, 2, slots, slots + 2]), v)
        elif kind < 9:
            w.append(v, (v + 1 + rng.randrange(2)) % 3)
        else:
            w.set(v, rng.randrange(2 * slots)), w.get(v, rng.randrange(3 * slots))
    for v in range(3):
        w.ask('b', 'Held', v), w.ask('l', 'Length', v)
    w.check()
    return w


def shares(slots, rng, steps):
    """A crowded pool: limits and reserves are met, places run out, vectors are closed and opened again."""
    w = Writer(rng.choice([3, 5, 8]))
    for _ in range(3):
        reserve = rng.randrange(2)
        w.open(reserve, rng.randrange(max(1, reserve), w.blocks + 1))
    for _ in range(steps):
        kind = rng.randrange(14)
        v = rng.choice([0, 0, 0, 1, 1, 1, 2, 2, 2, HEADS - 1, HEADS])
        if kind < 6:
            w.push(rng.choice([slots - 1, slots, slots + 1, 2 * slots]), v)
        elif kind < 7:
            w.pop(rng.choice([1, slots + 1]), v)
        elif kind < 10:
            w.append(v, rng.randrange(3))
        elif kind < 11:
            w.close(v)
        elif kind < 13:
            w.open(rng.randrange(3), rng.randrange(w.blocks + 2))
        else:
            w.free(), w.ask('b', 'Held', v), w.ask('l', 'Length', v)
    w.free()
    return w


def histories(slots, seed):
    rng = random.Random(seed)
    s = slots
    pairs = [(s - 1, 1), (s + 1, s), (1, s * s), (s * s, s * s), (s * s + 1, s), (3, s * s + s - 1)]
    if slots == 4:
        pairs += [(5 * s, 3 * s + 2), (s ** 3, s + 1), (1, s ** 3), (s ** 3 + 2, s ** 3)]
        out = [joined(s, l, r, m) for (l, r), m in zip(pairs, [0, 9, 0, 5, 17, 40, 0, 13, 30, 3])]
        out += [prepended(s, 17, 6, 1), prepended(s, 4, 12, 4), prepended(s, 21, 9, 3)]
        out += [shapes(s, rng, 18) for _ in range(21)]
        out += [shares(s, rng, 22) for _ in range(10)]
    else:
        out = [joined(s, l, r, m) for (l, r), m in zip(pairs[:2] + [(5, s), (20, 12), (20, 13), (37, s), (s, s), (1, s * s), (s * s, s * s)], [0, 40, 0, 0, 0, 64, 0, 33, 0])]
        out += [filled(s, s * s), filled(s, s * s + s)]
        out += [prepended(s, 33, 3, 1)]
        out += [shapes(s, rng, 14) for _ in range(16)]
        out += [shares(s, rng, 12) for _ in range(8)]
    return out


def counted(lines):
    """Equal answers in a row are counted."""
    out, i = [], 0
    while i < len(lines):
        j = i
        while j < len(lines) and lines[j] == lines[i]:
            j += 1
        out.append(lines[i] + (f' x{j - i},' if j - i > 1 else ','))
        i = j
    return ' '.join(out)


def printed(oracle, w):
    """What the oracle answers, and the vectors that it shows after the last line."""
    run = subprocess.run([oracle, '--blocks', str(w.blocks), '--heads', str(HEADS), '--trees'],
                         input='\n'.join(w.lines) + '\n', capture_output=True, text=True, check=True)
    answers = run.stdout.split('\n')[:-1]
    assert len(answers) == len(w.lines), w.lines
    assert 'panic' not in answers and '?' not in answers, w.lines
    left, lines = [], run.stderr.split('\n')
    while lines and not lines[-1]:
        lines.pop()
    while lines and lines[-1].startswith('  '):
        left.append(lines.pop().strip() + ';')
    return counted(answers), ' '.join(reversed(left))


def table(name, title, slots, seed, oracle):
    text = [f'-- {title} Made by make_tables.py; the texts are what the oracle printed.',
            'use Rattle.std.specs.Prelude.{List, [], ◌∷◌, true}',
            'use Rattle.machine.specs.Machine.{Open, Close, Get, Set, Append, Length, Held, Free, Check}',
            'use Rattle.traces.specs.Told.{History, call, pushes, pops}',
            '',
            f'abbrev pub histories : List History',
            'histories =']
    for w in histories(slots, seed):
        told, left = printed(oracle, w)
        text += ['    record {',
                 f'      blocks = {w.blocks};',
                 '      moves = ' + ' ∷ '.join(w.moves) + ' ∷ [];',
                 f'      told = "{told}";',
                 f'      left = "{left}";',
                 '    }',
                 '    ∷']
    text[-1] += ' []'
    with open(os.path.join(HERE, 'specs', name + '.antt'), 'w', encoding='utf-8') as out:
        out.write('\n'.join(text) + '\n')


if __name__ == '__main__':
    if len(sys.argv) != 3:
        sys.exit(__doc__)
    table('Small', 'Histories at 4 slots.', 4, 41, sys.argv[1])
    table('Wide', 'Histories at 32 slots.', 32, 321, sys.argv[2])
