"""What the documents say is so: commands print what is printed there, pictures are those that commands draw, and links lead somewhere."""
import os, re, subprocess
from checking import ROOT, check, library_there

# The documents whose commands are run. The notes in docs/landings stay as they were written.
RUN = ('README.md', 'docs/TOUR.md', 'docs/PROMISES.md', 'docs/REFERENCE.md', 'tools/README.md')
README_LINES, README_WIDTH = 130, 120


def read(path):
    with open(os.path.join(ROOT, path)) as file:
        return file.read()


def documents():
    """The documents that are kept up to date."""
    folders = ('', 'docs', 'tools', 'compare', 'bindings/rust')
    return sorted(os.path.join(folder, file) for folder in folders for file in os.listdir(os.path.join(ROOT, folder)) if file.endswith('.md'))


def sessions(path):
    """The commands of a document, each behind four spaces and $, with the lines below it."""
    found = []
    for line in read(path).splitlines():
        if line.startswith('    $ '):
            found.append((line[len('    $ '):], []))
        elif line.startswith('    ') and found and found[-1]:
            found[-1][1].append(line[4:])
        elif line.strip():
            found.append(())    # the session ends
    return filter(None, found)


# Commands that call the library, which takes a C compiler to make.
LIBRARY = re.compile(r'examples/(tally|build) |python3|tools/card (tree|plain|rehearse|costliest|test) |--lookahead|--each')


def commands():
    """Each command prints what its document shows, empty lines aside."""
    run, library = 0, library_there()
    for path in RUN:
        for command, shown in sessions(path):
            if LIBRARY.search(command) and not library:
                continue
            done = subprocess.run(['bash', '-c', command], stdout=subprocess.PIPE, stderr=subprocess.STDOUT, cwd=ROOT, timeout=600)
            got = [line for line in done.stdout.decode().splitlines() if line]
            check(got == [line for line in shown if line], f'{path}: {command}\n' + '\n'.join(got))
            run += 1
    print(f'documents: {run} commands print what is shown')


def pictures():
    """The drawings of the tour are those that its commands have drawn, and all its pictures are there."""
    named = re.findall(r'\]\((pictures/[^)]*)\)', read('docs/TOUR.md'))
    check(sorted(os.path.basename(path) for path in named) == sorted(os.listdir(os.path.join(ROOT, 'docs', 'pictures'))), f'the pictures of the tour: {named}')
    for path in (path for path in named if path.endswith('.svg')):
        check(read(f'docs/{path}') == read(f'target/{os.path.basename(path)}'), f'docs/{path} is not what its command draws')
    print(f'documents: {len(named)} pictures of the tour')


def links():
    """Each link within the repository leads to a file, and the README is short."""
    count = 0
    for path in documents():
        for link in re.findall(r'\]\(([^)#:]+)\)', read(path)):
            check(os.path.exists(os.path.join(ROOT, os.path.dirname(path), link)), f'{path}: there is no {link}')
            count += 1
    lines = read('README.md').splitlines()
    check(len(lines) <= README_LINES, f'README.md: {len(lines)} lines')
    check(max(map(len, lines)) <= README_WIDTH, 'README.md: ' + max(lines, key=len))
    print(f'documents: {count} links lead to files')
