#!/usr/bin/env python3
"""Brings the must-fail edits to the spelling of the files that they change, and tells those whose text does not stand there once.

usage: tools/porting/edits.py [--write] [TOP]
"""
import os
import re
import sys

TOP = os.path.abspath(next((a for a in sys.argv[1:] if not a.startswith('-')), '.'))
CRATES = os.path.join(TOP, 'crates')
HERE = os.path.dirname(os.path.abspath(__file__))
TOKEN = re.compile(r'[^\s(){}\[\].;,"]+')
WORDS = {'getD': 'get_or', '_≡_': '◌≡◌', 'List·Memᴰ': 'Memᴰ', 'flatMap': 'flat_map'}


def names():
    found = {}
    for listed in ('by_port.txt', 'respelled.txt'):
        with open(os.path.join(HERE, listed), encoding='utf-8') as f:
            found.update(line.split() for line in f)
    return found


def main():
    turned = names()
    bad = total = 0
    for crate in sorted(os.listdir(CRATES)):
        folder = os.path.join(CRATES, crate, 'must-fail')
        if not os.path.isdir(folder):
            continue
        for name in sorted(os.listdir(folder)):
            if not name.endswith('.edit'):
                continue
            total += 1
            path = os.path.join(folder, name)
            with open(path, encoding='utf-8') as f:
                text = f.read()
            lines, file, now, problem = [], None, None, None
            for line in text.split('\n'):
                if line.startswith('file:'):
                    file = line[5:].strip().replace('specs/contracts/', 'specs/inner/')
                    line = f'file: {file}'
                    try:
                        with open(os.path.join(CRATES, crate, file), encoding='utf-8') as f:
                            now = f.read()
                    except OSError:
                        problem = f'no file {file}'
                elif line.startswith(('old:', 'new:')):
                    key, body = line[:4], line[4:]
                    if now is None or body.strip() not in now or key == 'new:':
                        body = TOKEN.sub(lambda m: turned.get(m.group(0), WORDS.get(m.group(0), m.group(0))), body)
                        body = re.sub(r"(?<=[\w')]) \.(?=[a-z0-9])", '.', body.replace('′', "'"))
                        body = re.sub(r"(?<=[ (])\((\w+(?:\.\w+)+)\)", r'\1', body)
                        body = re.sub(r'\b(coded|numbers|grammar_of) (\w+)\.(?=[a-z])', r'(\1 \2).', body)
                    if key == 'old:' and now is not None:
                        count = now.count(body.strip(' ') if body.startswith(' ') else body)
                        if now.count(body[1:]) == 1:
                            pass
                        elif now.count(body.strip()) != 1:
                            problem = f'{count} times: {body.strip()[:150]}'
                    line = key + body
                elif line.startswith('#'):
                    line = TOKEN.sub(lambda m: turned.get(m.group(0), m.group(0)) if '-' not in m.group(0) else m.group(0), line)
                lines.append(line)
            if problem:
                bad += 1
                print(f'{crate}/{name}: {file}: {problem}')
            if '--write' in sys.argv:
                with open(path, 'w', encoding='utf-8') as f:
                    f.write('\n'.join(lines))
    print(f'{total} edits, {bad} that do not fit')


if __name__ == '__main__':
    main()
