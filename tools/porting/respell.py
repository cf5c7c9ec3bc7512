#!/usr/bin/env python3
"""Brings the definitions and lemmas of every crate to snake case, and the folder specs/contracts to specs/inner.

usage: tools/porting/respell.py [TOP]     in the repository, right after /opt/rattle/port/port.py

Only names that a signature in specs/ or in a file of lemmas declares are turned. Functions of src/, exported names, strings, inputs and outputs keep
theirs. Names that would fall together in a file are told, and nothing is written then.
"""
import os
import re
import sys

TOP = os.path.abspath(sys.argv[1] if len(sys.argv) > 1 else '.')
CRATES = os.path.join(TOP, 'crates')
TOKEN = re.compile(r'[^\s(){}\[\].;,"]+')
SIGNATURE = re.compile(r'^(\s*)((?:(?:abbrev|unfoldable|pub) )*)((?:[^\s:(){}\[\];,."]+ )*[^\s:(){}\[\];,."]+) :(?: |$)')
KEYWORDS = {'let', 'in', 'where', 'elim', 'use', 'module', 'data', 'record', 'infix', 'infixl', 'infixr', 'λ', '|', '--', 'unfolding', 'mod'}
# Names that would fall together with another of a file, and what they are called. A lemma that would have its function's name gets `_lem`.
APART = {name: name.replace('-', '_') + '_lem' for name in """
    added-to agreement-number alone-from answer-number blank-memo blank-table by-grammar column-count column-end column-last column-string
    conjunct-sign costliest-rows failed-code fault-number few-rules few-terminals first-clash flat-map has-place inside-left inside-word is-empty
    is-symbol label-at label-end labels-read lent-sizes limited-sizes lowest-unproductive made_up meet-number on-rule one-nonterminal
    out_of_range places-before search-rows sign-number some-nonterminal span-word symbol-step too_many turn-of two-parts with-nonterminal with-place
    words-by""".split()}
APART['readLength'] = 'length_read'
APART['onePlace'] = 'only_place'
# Fields of a record in the code that hold a definition of that name.
HELD = {'column_weight', 'row_column', 'choice_columns', 'end_mark', 'end_column'}


def files(*endings):
    for folder, dirs, names in os.walk(CRATES):
        dirs[:] = sorted(d for d in dirs if d != 'out')
        for name in sorted(names):
            if name.endswith(endings):
                yield os.path.join(folder, name)


def read(path):
    with open(path, encoding='utf-8') as f:
        return f.read()


def write(path, text):
    with open(path, 'w', encoding='utf-8') as f:
        f.write(text)


def snake(name):
    if name in APART:
        return APART[name]
    parts = []
    for part in name.split('-'):
        if part[:1].islower():
            part = re.sub(r'(?<=[a-z0-9])([A-Z])', lambda m: '_' + m.group(1).lower(), part)
        parts.append(part)
    return '_'.join(parts)


def is_proof(path):
    return path.endswith('/Proof.antt')


def declared():
    """The names that signatures declare and that are not in snake case."""
    found = set()
    for path in files('.antt'):
        if is_proof(path):
            continue
        for line in read(path).split('\n'):
            m = SIGNATURE.match(line)
            if not m:
                continue
            names = m.group(3).split(' ')
            if names[0] in KEYWORDS or names[0].startswith('--'):
                continue
            found.update(names)
    for path in files('.antt', '.rt'):
        for names in re.findall(r'\buse [^\s{};]+\.\{([^}]*)\}', read(path)):
            found.update(re.findall(r'\bas ([^\s,}]+)', names))
    return {n for n in found if snake(n) != n and re.match(r"^[A-Za-zΑ-ω][^◌]*$", n) and ('-' in n or n[0].islower())}


def library_names(text):
    """The names that a file imports from outside the repository."""
    found = set()
    for path, names in re.findall(r'\buse ([^\s{};]+)\.\{([^}]*)\}', text):
        if own(path):
            continue
        for name in names.split(','):
            found.update(name.strip().split(' ')[:1] if ' as ' not in name else [])
    return found


def own(path):
    m = re.match(r'Rattle\.(\w+)\.', path)
    return bool(m) and os.path.isdir(os.path.join(CRATES, m.group(1)))


def goals(text):
    """The names of goals that a Proof.antt answers: Rattle's, not ours."""
    return set(re.findall(r'^([^\s:]+) : tie\.', text, re.M)) | set(re.findall(r'\btie\.([^\s()]+)', text))


def turn_code(text, names):
    def turn(m):
        name = m.group(0)
        if name not in names:
            return name
        step = m.start() > 0 and text[m.start() - 1] == '.' and name in APART and APART[name].endswith('_lem')
        return name.replace('-', '_') if step else snake(name)
    return TOKEN.sub(turn, text)


def turn_comment(text, names):
    """In a comment only names with a hump are surely names."""
    return turn_code(text, {n for n in names if '-' not in n})


def turn_antt(text, names):
    lines = []
    for line in text.split('\n'):
        at = 0 if line.lstrip().startswith('--') else line.find(' -- ')
        if at < 0:
            lines.append(turn_code(line, names))
        else:
            lines.append(turn_code(line[:at], names) + turn_comment(line[at:], names))
    return '\n'.join(lines)


def turn_rt(text, names):
    """Ghost lines and clauses; in comments, names with a hump; strings and code stay."""
    out, ghost, depth = [], False, 0
    for line in text.split('\n'):
        stripped = line.lstrip()
        if depth == 0 and re.match(r'(ghost\b|pub ghost\b|requires\b|ensures\b|also_)', stripped):
            ghost = True
        if ghost:
            out.append(turn_code(line, names))
            depth += line.count('{') - line.count('}')
            if depth <= 0 and (line.rstrip().endswith(('}', ';', '},')) or '}' in line):
                ghost, depth = False, 0
        elif stripped.startswith('//'):
            out.append(turn_comment(line, names))
        else:
            out.append(line)
    return '\n'.join(out)


def without_paths(text):
    return re.sub(r'\bRattle\.[\w.+]*|^--.*$|^\s*(pub )?mod .*$', ' ', text, flags=re.M)


def clauses(text):
    return '\n'.join(l for l in text.split('\n') if re.match(r'\s*(ghost|requires|ensures)', l))


def inner(text):
    """A path into a folder of ours; the modules that Rattle makes below specs/contracts keep theirs."""
    def turn(m):
        ours = os.path.exists(os.path.join(CRATES, m.group(1), 'specs', 'inner', m.group(2) + '.antt'))
        return f'Rattle.{m.group(1)}.specs.inner.{m.group(2)}' if ours else m.group(0)
    return re.sub(r'\bRattle\.(\w+)\.specs\.contracts\.(\w+)', turn, text)


def main():
    moved = 0
    for crate in sorted(os.listdir(CRATES)):
        specs = os.path.join(CRATES, crate, 'specs')
        for name in ('contracts', 'contracts.antt'):
            if os.path.exists(os.path.join(specs, name)):
                os.rename(os.path.join(specs, name), os.path.join(specs, name.replace('contracts', 'inner')))
                moved += 1
        lib = os.path.join(specs, 'Lib.antt')
        if os.path.exists(lib):
            write(lib, re.sub(r'^pub mod contracts$', 'pub mod inner', read(lib), flags=re.M))
    names = declared()
    turned, together = {}, []
    for path in files('.antt', '.rt'):
        text = inner(read(path))
        here = names - library_names(text)
        if is_proof(path):
            here -= goals(text)
        new = turn_rt(text, here) if path.endswith('.rt') else turn_antt(text, here)
        origin = {}
        for old in set(TOKEN.findall(without_paths(text if path.endswith('.antt') else clauses(text)))):
            to = snake(old) if old in here else old
            if to in origin and origin[to] != old and to not in HELD:
                together.append((os.path.relpath(path, CRATES), old, origin[to]))
            origin[to] = old
        turned[path] = new
    for path, a, b in together:
        print(f'falls together: {path}: {a} and {b}')
    print(f'{len(names)} names; {moved} folders and files; {len(together)} fall together')
    if together and '--anyway' not in sys.argv:
        return 1
    for path, new in turned.items():
        write(path, new)
    with open(os.path.join(os.path.dirname(os.path.abspath(__file__)), 'respelled.txt'), 'w', encoding='utf-8') as f:
        for n in sorted(names):
            f.write(f'{n} {snake(n)}\n')
    return 0


if __name__ == '__main__':
    sys.exit(main())
