"""What the tests of tools/ have in common: checks that are counted, the command, and what has been built."""
import os, shutil, subprocess, sys
ROOT = os.path.normpath(os.path.join(os.path.dirname(os.path.abspath(__file__)), '..', '..'))
sys.path.insert(0, os.path.join(ROOT, 'tools'))
sys.dont_write_bytecode = True
from programs import path_of


CARD = os.path.join(ROOT, 'tools', 'card')
counts = {True: 0, False: 0}


def check(holds, what):
    counts[bool(holds)] += 1
    if not holds:
        print('FAILED:', what)


def run(*args, stdin=b''):
    done = subprocess.run(args, input=stdin, capture_output=True, timeout=60)
    return done.returncode, done.stdout, done.stderr.decode()


def example(name):
    with open(os.path.join(ROOT, 'examples', name)) as file:
        return file.read()


def built(*names):
    missing = [name for name in names if not os.path.exists(path_of(name))]
    for name in missing:
        print(f'the program {name} is not built: what needs it is passed over')
        check('--all' not in sys.argv, f'{name} is not built')
    return not missing


def library_there():
    """Whether the library was made, so that it can be made of the sources as they are in a moment."""
    if not shutil.which(os.environ.get('CC', 'cc')):
        print('there is no C compiler: what needs the library is passed over')
        check('--all' not in sys.argv, 'no C compiler')
        return False
    there = os.path.exists(os.path.join(ROOT, 'target', 'libvinegarspit.so'))
    if not there:
        print('the library is not built (tools/build_library): what needs it is passed over')
        check('--all' not in sys.argv, 'the library is not built')
    return there


def finish():
    """Says how many checks there were, and ends with a status that tells whether all hold."""
    print(f'{sum(counts.values())} checks, {counts[False]} failed')
    sys.exit(1 if counts[False] else 0)
