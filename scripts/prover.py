"""How rt calls the prover for a crate: its words, over the libraries that rt has built of the crates below."""
import os, subprocess
from sources import ROOT, crates


def kit():
    """The folder of the toolchain."""
    return os.path.dirname(subprocess.run(['rt', 'doc'], capture_output=True, text=True, check=True).stdout.strip())


def rlib(crate):
    """The library that rt builds of a crate."""
    return os.path.join(ROOT, 'crates', crate, 'out', 'rlib', crate + '.rlib')


def below(crate):
    """The crates of the repository below one."""
    listed, found, todo = crates(), set(), [crate]
    while todo:
        further = [other for other in listed[todo.pop()] if other in listed and other not in found]
        found.update(further)
        todo += further
    return sorted(found)


def call(verb, crate):
    """The prover and its words; it is to be called in the crate's folder, or in a copy of it."""
    tools, listed = kit(), crates()
    root = 'main' if os.path.exists(os.path.join(ROOT, 'crates', crate, 'src', 'main.rt')) else 'lib'
    words = [os.path.join(tools, 'bin', 'rattle'), verb, '--crate-name', crate, f'src/{root}.rt', '-L', 'dependency=' + os.path.join(tools, 'rlibs')]
    for name in ['std', *listed[crate]]:
        words += ['--extern', f'{name}=' + (rlib(name) if name in listed else os.path.join(tools, 'rlibs', name + '.rlib'))]
    for name in below(crate):
        words += ['-L', 'dependency=' + os.path.dirname(rlib(name))]
    return words + ['--antt-project', os.path.join(tools, 'rattle/logic/antt-project.json'), '--logic-built', os.path.join(tools, 'logic_built'),
                    '--links', f'{crate}=']
