#!/usr/bin/env python3
"""Names that the documents have between backticks and that no crate has any more.

usage: tools/porting/names.py OLD     OLD is a checkout of the commit before the port: what was no name there is none here
"""
import os, re, sys

TOP = os.path.normpath(os.path.join(os.path.dirname(os.path.abspath(__file__)), '..', '..'))
TOKEN = re.compile(r'[^\s(){}\[\].;,:/`|]+')
DOCUMENTS = ['README.md', *(f'docs/{name}.md' for name in ('ARCHITECTURE', 'DECISIONS', 'GLOSSARY', 'PROMISES', 'PROPERTIES', 'REFERENCE', 'TOUR'))]


def words(top):
    """All words of the crates: of texts, files and folders."""
    found = set()
    for folder, folders, names in os.walk(os.path.join(top, 'crates')):
        folders[:] = [name for name in folders if name not in ('out', 'data')]
        found.update(folders, names, (name.rsplit('.', 1)[0] for name in names))
        for name in names:
            if name.endswith(('.rt', '.antt', '.edit')):
                with open(os.path.join(folder, name), encoding='utf-8') as file:
                    found.update(TOKEN.findall(file.read()))
    return found


def named(top, document):
    with open(os.path.join(top, document), encoding='utf-8') as file:
        return [(at, token) for at, line in enumerate(file, 1) for tick in re.findall(r'`([^`\n]+)`', line) for token in TOKEN.findall(tick)]


def main(old):
    before, now, lost = words(old), words(TOP), 0
    for document in DOCUMENTS:
        none = {token for _, token in named(old, document)} - before
        for at, token in named(TOP, document):
            if token not in now and token not in none:
                lost += 1
                print(f'{document}:{at}: {token}')
    print(f'{lost} names that no crate has')


if __name__ == '__main__':
    main(*sys.argv[1:])
