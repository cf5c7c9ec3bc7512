#!/usr/bin/env python3
"""Breaks the lines of .antt files that names in snake case have made longer than scripts/lines allows: an import into two, any other line where the
fewest brackets are open, before an arrow or an operator if there is one.

usage: tools/porting/lines.py
"""
import os, re, sys

sys.path.insert(0, os.path.join(os.path.dirname(os.path.abspath(__file__)), '..', '..', 'scripts'))
sys.dont_write_bytecode = True
from sources import ROOT, paths, read

WIDTH, LEAST = 160, 60
USE = re.compile(r'(use [^\s{]+\.)\{([^}]*)\}$')
# What a continued line begins with, the best first; a blank is the last.
MARKS = [' → ', ' × ', ' ∙ ', ' ∷ ', ' ++ ', ' ≡ ', ' (', ' ']


def depths(line):
    depth, found = 0, []
    for char in line:
        depth -= char in ')}]'
        found.append(depth)
        depth += char in '({['
    return found


def broken(line):
    if found := USE.match(line):
        names = found[2].split(', ')
        half = len(names) - 1
        while len(f'{found[1]}{{{", ".join(names[:half])}}}') > WIDTH:
            half -= 1
        return [f'{found[1]}{{{", ".join(part)}}}' for part in (names[:half], names[half:])]
    indent, depth = len(line) - len(line.lstrip()), depths(line)
    sign = next((at for at in range(len(line)) if line.startswith(' = ', at) and not depth[at]), -3)
    first = sign + 3 if sign > 0 else line.find(' : ') + 3
    places = []
    for rank, mark in enumerate(MARKS):
        places += [(depth[at], rank, -at) for at in range(max(first, LEAST), min(len(line), WIDTH)) if line.startswith(mark, at)]
    if sign > LEAST and len(line) - first < WIDTH - indent - 6:
        at = first - 1
    elif places:
        at = -min(places)[2]
    else:
        return None
    more = re.sub(r'\s.*', '', line.lstrip())
    deeper = indent + (4 if more not in ('let', 'in') else 6)
    return [line[:at].rstrip(), ' ' * deeper + line[at:].strip()]


def main():
    left = []
    for path in sorted(path for path in paths() if path.endswith('.antt')):
        lines = []
        for at, line in enumerate(read(path).split('\n'), 1):
            parts = broken(line) if len(line) > WIDTH and not line.lstrip().startswith('--') else [line]
            left += [f'{path}:{at}'] if parts is None else []
            lines += parts or [line]
        text = '\n'.join(lines)
        if text != read(path):
            with open(os.path.join(ROOT, path), 'w', encoding='utf-8') as out:
                out.write(text)
            print(path)
    print(f'{len(left)} left', *left)


if __name__ == '__main__':
    main()
