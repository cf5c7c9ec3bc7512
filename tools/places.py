"""Where the header, the library, the programs and the examples are: in the repository, or where tools/install has put them."""
import os


HERE = os.path.dirname(os.path.abspath(__file__))
ROOT = os.path.dirname(HERE)
IN_REPOSITORY = os.path.exists(os.path.join(ROOT, 'crates.txt'))
PREFIX = os.path.dirname(os.path.dirname(ROOT))    # of what is installed: these files are in PREFIX/share/vinegarspit/tools


def place(in_repository, installed):
    return os.path.join(ROOT, in_repository) if IN_REPOSITORY else os.path.join(PREFIX, installed)


HEADER = place('include/vinegarspit.h', 'include/vinegarspit.h')
LIBRARY = place('target/libvinegarspit.so', 'lib/libvinegarspit.so')
EXAMPLES = os.path.join(ROOT, 'examples')


def program_place(name):
    """Where a program is: rt leaves it in the folder of its crate."""
    return place(f'crates/{name}/out/{name}', f'libexec/vinegarspit/{name}')
