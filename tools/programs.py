"""The proved programs sheet, judge and gaps: they are built if they are not there, and run."""
import os, re, shutil, subprocess, tempfile
from exits import fail, say
from places import IN_REPOSITORY, ROOT, program_place


NAMES = ['sheet', 'judge', 'gaps']


def below(programs):
    """The crates of the repository that have to be proved for these programs."""
    with open(os.path.join(ROOT, 'crates.txt')) as file:
        needs = dict((part.strip() for part in line.partition('#')[0].split(':')) for line in file if ':' in line.partition('#')[0])
    found, todo = set(), list(programs)
    while todo:
        crate = todo.pop()
        if crate in needs and crate not in found:
            found.add(crate)
            todo += needs[crate].split()
    return found


def build(programs):
    """Has rt prove and build these programs, and tells how far it is. `rt run` runs a program that it has built: of no input it reads no card."""
    names = ', '.join(programs[:-1]) + ' and ' + programs[-1]
    if not shutil.which('rt'):
        fail(f"the programs {names} are not built, and rt, the Rattle toolchain that builds them, is not on the PATH")
    total, met = len(below(programs)), []
    say(f'{names} are not all built yet. Building them, once: `rt run` proves {total} crates first;')
    say('that takes some minutes, or more.')
    for name in programs:
        told = []
        with subprocess.Popen(['rt', 'run'], cwd=os.path.join(ROOT, 'crates', name), stdin=subprocess.DEVNULL, stdout=subprocess.DEVNULL,
                              stderr=subprocess.PIPE, text=True) as run:
            for line in run.stderr:
                told.append(line.rstrip())
                if (begun := re.match(r'rt: chose --jobs \d+ for (\w+)', line)) and begun[1] not in met:
                    met.append(begun[1])
                    say(f'{len(met):4} of {total}: {begun[1]}')
        if run.returncode:
            fail(*told[-20:], f'`rt run` in crates/{name} ended with {run.returncode}')


def path_of(name):
    """Where a program is, or is to be."""
    folder = os.environ.get('VINEGARSPIT_BIN')
    return os.path.join(folder, name) if folder else program_place(name)


def program(name):
    """The path of a program, which is built if it is not there."""
    path = path_of(name)
    if not os.path.exists(path):
        folder = os.environ.get('VINEGARSPIT_BIN')
        if folder or not IN_REPOSITORY:
            fail(f'{path}: not there' + (', and VINEGARSPIT_BIN names its folder' if folder else ''))
        build([each for each in NAMES if not os.path.exists(path_of(each))])
    return path


def printed(name, stdin, card=None):
    """The lines that a program prints, with the bytes of card.bin where it reads that."""
    path = os.path.abspath(program(name))
    with tempfile.TemporaryDirectory() as folder, tempfile.TemporaryFile() as given:
        if card is not None:
            with open(os.path.join(folder, 'card.bin'), 'wb') as file:
                file.write(card)
        given.write(stdin)    # a file, since a program may refuse what it is given before it has read all of it
        given.seek(0)
        try:
            run = subprocess.run([path], stdin=given, capture_output=True, cwd=folder)
        except OSError as error:
            fail(f'{path}: {error.strerror}')
    if run.returncode:
        fail(f'{path}: ended with {run.returncode}')
    return run.stdout.decode('ascii').splitlines()
