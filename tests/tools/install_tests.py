"""What tools/install puts into a folder works there: the command, the library for C by pkg-config and by CMake, and its archive."""
import os, shutil, subprocess, tempfile
from checking import CARD, ROOT, check, run


INSTALLED = {'bin/vinegarspit', 'include/vinegarspit.h', 'lib/libvinegarspit.a', 'lib/libvinegarspit.so', 'lib/libvinegarspit.so.0', 'lib/pkgconfig/vinegarspit.pc',
             'libexec/vinegarspit/sheet', 'libexec/vinegarspit/judge', 'libexec/vinegarspit/gaps', 'share/vinegarspit/tools/card', 'share/vinegarspit/examples/loop.card'}
CMAKE = """cmake_minimum_required(VERSION 3.13)
project(judge_log C)
find_package(PkgConfig REQUIRED)
pkg_check_modules(vinegarspit REQUIRED IMPORTED_TARGET vinegarspit)
add_executable(judge_log "{source}")
target_link_libraries(judge_log PkgConfig::vinegarspit)
"""


def files_below(folder):
    return {os.path.relpath(os.path.join(where, file), folder) for where, _, files in os.walk(folder) for file in files}


def ran(command, folder, **environment):
    done = subprocess.run(command, capture_output=True, cwd=folder, env={**os.environ, **environment}, timeout=120)
    return done.returncode, done.stdout.decode(), done.stderr.decode()


def command(prefix, folder):
    """The command answers as tools/card does, from anywhere and without the repository's programs."""
    tool, loop = os.path.join(prefix, 'bin', 'vinegarspit'), os.path.join(ROOT, 'examples', 'loop.card')
    spur = os.path.join(ROOT, 'examples', 'spur.card')
    for args in (['judge', '--calls', loop, 'aabbcc'], ['check', loop], ['plain', spur, 'abba'], ['tree', loop, 'aabbcc'], ['test', loop]):
        check(ran([tool, *args], folder)[:2] == ran([CARD, *args], folder)[:2], f'installed: {args}')
    code, out, errors = ran([tool, 'judge', loop, 'a'], folder, VINEGARSPIT_BIN=os.path.join(prefix, 'nowhere'))
    check(code == 2 and 'VINEGARSPIT_BIN' in errors, f'installed, without programs: {errors}')
    os.rename(os.path.join(prefix, 'libexec'), os.path.join(prefix, 'gone'))
    code, out, errors = ran([tool, 'check', loop], folder)
    check(code == 2 and 'libexec/vinegarspit/sheet: not there' in errors, f'installed, and a program lost: {errors}')
    os.rename(os.path.join(prefix, 'gone'), os.path.join(prefix, 'libexec'))


def for_c(prefix, folder):
    """examples/judge_log.c is built over what was installed, and judges."""
    source, compiler = os.path.join(ROOT, 'examples', 'judge_log.c'), os.environ.get('CC', 'cc')
    card, log = os.path.join(folder, 'card.bin'), os.path.join(folder, 'log')
    for path, command in ((card, 'assemble'), (log, 'log')):
        with open(path, 'wb') as file:
            file.write(run(CARD, command, os.path.join(ROOT, 'examples', 'loop.card'), *(['aabbcc'] if command == 'log' else []))[1])
    path = {'PKG_CONFIG_PATH': os.path.join(prefix, 'lib', 'pkgconfig'), 'LD_LIBRARY_PATH': os.path.join(prefix, 'lib')}
    program = os.path.join(folder, 'judge_log')
    builds = [('archive', f'{compiler} -I{prefix}/include "{source}" {prefix}/lib/libvinegarspit.a -o {program}')]
    if shutil.which('pkg-config'):
        builds.append(('pkg-config', f'{compiler} "{source}" $(pkg-config --cflags --libs vinegarspit) -o {program}'))
    if shutil.which('pkg-config') and shutil.which('cmake'):
        with open(os.path.join(folder, 'CMakeLists.txt'), 'w') as file:
            file.write(CMAKE.format(source=source))
        builds.append(('CMake', f'cmake -S {folder} -B {folder}/build && cmake --build {folder}/build && cp {folder}/build/judge_log {program}'))
    for what, build in builds:
        code, out, errors = ran(['sh', '-c', build], folder, **path)
        check(code == 0, f'built by {what}: {out} {errors}')
        check(ran([program, card, log], folder, **path) == (0, 'accepted 11 6\n', ''), f'run as built by {what}')
        os.remove(program)
    return [what for what, _ in builds]


def installed():
    with tempfile.TemporaryDirectory() as top:
        prefix, staged, folder = (os.path.join(top, name) for name in ('prefix', 'staged', 'elsewhere'))
        os.mkdir(folder)
        install = os.path.join(ROOT, 'tools', 'install')
        code, out, errors = ran([install, prefix], folder)
        check((code, out) == (0, '') and INSTALLED <= files_below(prefix), f'install: {code} {errors} {sorted(INSTALLED - files_below(prefix))}')
        check(ran([install, '/usr/local'], folder, DESTDIR=staged)[0] == 0 and files_below(os.path.join(staged, 'usr/local')) == files_below(prefix),
              'below DESTDIR')
        with open(os.path.join(staged, 'usr/local/lib/pkgconfig/vinegarspit.pc')) as file:
            check(file.read().startswith('prefix=/usr/local\n'), 'the prefix below DESTDIR')
        check(ran([install], folder)[0] == 2 and ran([install, '--help'], folder)[0] == 2, 'without a prefix')
        command(prefix, folder)
        builds = for_c(prefix, folder)
        check(not any('__pycache__' in file for file in files_below(prefix)), 'running it leaves no files')
    print(f'installed: the command, and for C by {", ".join(builds)}')
