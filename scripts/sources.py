"""What the scripts read of the repository: the lines of crates.txt, the texts of crates, and what a text of Rattle states of its functions."""
import os, re, sys

sys.dont_write_bytecode = True
ROOT = os.path.normpath(os.path.join(os.path.dirname(os.path.abspath(__file__)), '..'))
# `NAME: LIBRARY ..`; a static library is `NAME staticlib: LIBRARY ..`, and further words can stand before the colon
ROW = re.compile(r'(?P<name>\w+)(?: +(?P<kind>staticlib|wasm64))?(?: [^:#]*)?(?::(?P<below>[^#]*))?(?P<comment>#.*)?')
CLAUSE = re.compile(r'\b(requires|ensures)\b\*?(?:\s+\w+)?\s*\{')
GHOST = re.compile(r'\bghost\b(?!\s+use\b)[^{};]*\{')


def read(path):
    with open(os.path.join(ROOT, path), encoding='utf-8') as file:
        return file.read()


def layers():
    """The layers of crates.txt, lowest first: a heading, and the rows of its crates."""
    found = [('without a heading', [])]
    for line in read('crates.txt').splitlines():
        if line.startswith('#'):
            found.append((line[1:].strip(), []))
        elif row := ROW.fullmatch(line.strip()):
            found[-1][1].append(row)
    return [(heading, rows) for heading, rows in found if rows]


def crates():
    """For each crate, lowest first, the libraries that crates.txt lists for it."""
    return {row['name']: (row['below'] or '').split() for _, rows in layers() for row in rows}


def files(crate):
    """The texts of a crate by their paths, without comments."""
    for part, ending, comment in (('src', '.rt', '//'), ('specs', '.antt', '--'), ('proofs', '.antt', '--')):
        for folder, _, names in os.walk(os.path.join(ROOT, 'crates', crate, part)):
            for name in (name for name in sorted(names) if name.endswith(ending)):
                path = os.path.relpath(os.path.join(folder, name), ROOT)
                yield path, re.sub(comment + '.*', '', read(path))


def paths():
    """All .rt and .antt files of the crates, without what rt makes."""
    for folder, folders, names in os.walk(os.path.join(ROOT, 'crates')):
        folders[:] = [name for name in folders if name != 'out']
        yield from (os.path.relpath(os.path.join(folder, name), ROOT) for name in names if name.endswith(('.antt', '.rt')))


def closed(text, at):
    """The place behind the brace that closes the one at a place."""
    depth = 0
    for brace in re.compile('[{}]').finditer(text, at):
        depth += 1 if brace[0] == '{' else -1
        if not depth:
            return brace.end()
    return len(text)


def clauses(text):
    """What a text says in clauses: for each its kind, and what stands between its braces."""
    return [(found[1], text[found.end():closed(text, found.end() - 1) - 1]) for found in CLAUSE.finditer(text)]


def ghost(text):
    """What a text says to the prover alone: in clauses, and in ghost fields, invariants and items."""
    items = [text[found.end():closed(text, found.end() - 1) - 1] for found in GHOST.finditer(text)]
    return ' '.join([said for _, said in clauses(text)] + items)


def functions(text):
    """The functions of a text: whether each is public, its name, and its clauses."""
    for start in re.finditer(r'(\bpub )?(?:(?:const|unsafe|extern "C") )*\bfn (\w+)', text):
        at = start.end()
        while brace := re.compile(r'\{|\bfn \w').search(text, at):
            clause = re.compile(CLAUSE.pattern[:-len(r'\{')] + r'\Z').search(text[at:brace.start()])
            if brace[0] != '{' or not clause:
                break
            at = closed(text, brace.start())
        yield bool(start[1]), start[2], clauses(text[start.end():at])
