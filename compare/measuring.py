"""What the scripts benchmark, growth and behind share: building the program that makes the calls, and having callgrind count their instructions."""
import os
import pathlib
import re
import shutil
import subprocess
import tempfile

HERE = pathlib.Path(__file__).resolve().parent
PROGRAM = pathlib.Path(os.environ.get('CARGO_TARGET_DIR', HERE / 'target')) / 'release/benchmark'
# A repeated string instruction counts as one for each byte: the C library is to copy and fill by vectors, however much it is.
NO_REPEATS = {'GLIBC_TUNABLES': 'glibc.cpu.x86_rep_movsb_threshold=1000000000:glibc.cpu.x86_rep_stosb_threshold=1000000000'}


def build_peg():
    """The recognizer that Debian's peg makes of card M's language; none where peg is not installed."""
    archive, folder = HERE / 'target/libpegm.a', HERE / 'target/peg'
    if not shutil.which('peg'):
        archive.unlink(missing_ok=True)
        return
    sources = list((HERE / 'peg').iterdir())
    if archive.exists() and all(source.stat().st_mtime <= archive.stat().st_mtime for source in sources):
        return
    folder.mkdir(parents=True, exist_ok=True)
    archive.unlink(missing_ok=True)
    subprocess.run(['peg', '-o', folder / 'm.parser.inc', HERE / 'peg/m.peg'], check=True)
    subprocess.run(['gcc', '-O3', f'-I{folder}', '-c', HERE / 'peg/m.c', '-o', folder / 'm.o'], check=True)
    subprocess.run(['ar', 'rcs', archive, folder / 'm.o'], check=True)


def build():
    """The proved library, unless VINEGARSPIT_ARCHIVE names another archive, and the program that calls it."""
    if 'VINEGARSPIT_ARCHIVE' not in os.environ:
        subprocess.run([HERE.parent / 'tools/build_library', 'archive'], check=True)
    build_peg()
    subprocess.run(['cargo', 'build', '--release', '--offline', '--quiet', '--bin', 'benchmark'], cwd=HERE, check=True)


def lines(text):
    """Of each line the row (what, size, answer) and its numbers: by the library, by the twin, by peg."""
    for line in text.splitlines():
        what, size, answer, *numbers = line.split('\t')
        yield (what, size, answer), [float(number) for number in numbers]


def times(part):
    """Nanoseconds for a call, row by row."""
    with subprocess.Popen([PROGRAM, part], stdout=subprocess.PIPE, text=True) as program:
        for line in program.stdout:
            yield from lines(line)


def instructions(flag, part):
    """Instructions for a call, row by row; a count is the same on a busy machine."""
    with tempfile.TemporaryDirectory() as folder:
        text = subprocess.run(
            ['valgrind', '--quiet', '--tool=callgrind', '--toggle-collect=counted', '--dump-after=counted', '--main-stacksize=16777216',
             f'--callgrind-out-file={folder}/out', PROGRAM, flag, part],
            check=True, stdout=subprocess.PIPE, text=True, env=os.environ | NO_REPEATS).stdout
        dump = 0
        for row, made in lines(text):
            counts = []
            for times_made in made:
                dump += 1
                total = re.search(r'^(?:summary|totals): (\d+)', pathlib.Path(f'{folder}/out.{dump}').read_text(), re.M)
                counts.append(int(total[1]) / times_made)
            yield row, counts


def pair(numbers):
    """What the library and the twin need, and the one by the other."""
    library, twin = numbers[:2]
    return [f'{library:,.0f}', f'{twin:,.0f}', f'{library / twin:.2f}']


def table(head, rows):
    """Lines of a table, its columns of one width; the first two and what is no number to the left."""
    rows = list(rows)
    widths = [max(len(line[at]) for line in [head, *rows]) for at in range(len(head))]
    numeric = [all(re.fullmatch(r'[\d,.]*|-', line[at]) for line in rows) for at in range(len(head))]
    for number, line in enumerate([head, *rows]):
        yield '| ' + ' | '.join(cell.rjust(width) if right else cell.ljust(width) for cell, width, right in zip(line, widths, numeric)) + ' |'
        if number == 0:
            yield '|' + '|'.join('-' * (width + 1) + (':' if right else '-') for width, right in zip(widths, numeric)) + '|'
