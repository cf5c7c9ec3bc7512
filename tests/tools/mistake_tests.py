"""What goes wrong around a judgement, or is mistyped, is told in a line and with exit status 2, so that no script takes it for a verdict."""
import os, shutil, subprocess, sys, tempfile
import vinegarspit
from checking import CARD, ROOT, check, run
from notation import TextError, parse


LOOP, SPUR, M = (os.path.join(ROOT, 'examples', name + '.card') for name in ('loop', 'spur', 'M'))
TALLY = os.path.join(ROOT, 'examples', 'tally')


def told(got, reason, what):
    """Whether a command ended with 2, printed nothing, and told the reason without a traceback."""
    code, out, errors = got
    check(code == 2 and not out and reason in errors and 'Traceback' not in errors, f'{what}: {got}')


def in_shell(command, **environment):
    """Runs a line of the shell in which CARD stands for tools/card, with nothing to read."""
    here = {**os.environ, 'CARD': CARD, **environment}
    done = subprocess.run(['bash', '-c', command], stdin=subprocess.DEVNULL, capture_output=True, cwd=ROOT, timeout=60, env=here)
    return done.returncode, done.stdout, done.stderr.decode()


# Files and streams

def files_and_streams():
    for command in ('"$CARD" judge examples/loop.card', '"$CARD" check -', '"$CARD" rehearse examples/loop.card', '"$CARD" log examples/loop.card',
                    '"$CARD" plain examples/spur.card'):
        told(in_shell(command + ' <&-'), 'standard input is closed', command)
    told(in_shell('"$CARD" check examples/loop.card > /dev/full'), 'standard output: No space left', 'a full disk')
    told(in_shell('"$CARD" words examples/loop.card > /dev/full'), 'standard output: No space left', 'a full disk')
    told(in_shell('"$CARD" check examples/loop.card >&-'), 'standard output is closed', 'no standard output')
    told(run(CARD, 'tree', '--svg', '/nonexistent/x.svg', LOOP, 'aabbcc'), '/nonexistent/x.svg: No such file', 'a picture in no folder')
    told(run(CARD, 'tree', '--svg', ROOT, LOOP, 'aabbcc'), f'{ROOT}: Is a directory', 'a picture that is a folder')
    for rules in (3001, 9001):
        told(run(CARD, 'check', '-', stdin=b'letters a\n' + b'S -> a\n' * rules), 'refused 3 0', f'a card of {rules} rules')
    told(run(CARD, 'check', '-', stdin=bytes(4 << 20)), 'refused 3 0', 'a large file of zeros')
    told(run(CARD, 'check', '-', stdin='letters a\nS -> a'.encode('utf-16')), 'a text in UTF-16: save it as UTF-8', 'UTF-16')
    told(run(CARD, 'check', '-', stdin='letters a\nS -> a  # Bühne'.encode('latin-1')), 'line 2 is not in UTF-8', 'Latin-1')
    check(run(CARD, 'check', '-', stdin=b'letters a\rS -> a\rS -> empty')[:2] == (0, b'passed: 1 name, 1 letter, 2 rules\n'), 'lines that end with CR')
    told(run(CARD, 'check', '-', stdin=b'letters a\rS -> a\rS -> b'), 'line 3: ', 'a fault in lines that end with CR')
    check(run(CARD, 'log', LOOP, stdin=b'aabb\n')[:2] == (0, b'\0\0\1\1'), 'the bytes of a log from standard input')
    code, out, errors = run(CARD, 'judge', LOOP, stdin=b'aabbcc\naaabbbccc\n')
    check(code == 0 and out.startswith(b'accepted: the log of 15 events') and '2 lines are read as one log' in errors, f'two lines: {errors}')
    print('files and streams: what cannot be read or written is told')


# What is typed

TYPED = [
    (['judge'], 'required: FILE\n'), (['costliest', LOOP, 'six'], "argument LENGTH: 'six' is no number of events"),
    (['costliest', LOOP, '-1'], 'LENGTH'), (['nonsense'], 'invalid choice')]

FAULTY_TEXTS = [
    ('letters a b\nDay -> Lap\nLpa -> a b', 'line 2: Lap has no rule; is Lpa meant?'),
    ('letters arrive b\nS -> arive', "line 2: 'arive' is not among the letters; is arrive meant?"),
    ('letters a\nnames Day Lap\nDay -> Lpa\nLap -> a', "line 3: Lpa is not in the line 'names'; is Lap meant?"),
    ('letters a\nS -> emtpy', "line 2: 'emtpy' is not among the letters; is empty meant?"),
    ('letters a\nS -> Xyz', 'line 2: Xyz has no rule'),
    ('letters a\nS \u2192 a', "line 2: the character '\u2192' means nothing here: a rule is written with '->'"),
    ('letters a b\nS = a b', "line 2: the character '=' means nothing here: a rule is written with '->'"),
    ('letters a, b\nS -> a', "line 1: the character ',' means nothing here: words are separated by spaces"),
    ('letters a\nB\u00fchne -> a', "line 2: the character '\u00fc' means nothing here: words are of A to Z, a to z, 0 to 9, _ and '"),
    ('letters a\nS -> !a', "line 2: the character '!' means nothing here: a must-not is written with 'not'"),
    ('letters a\nS -> \u03b5', "line 2: the character '\u03b5' means nothing here: the empty body is written 'empty'"),
    ('letters a\nS -> a*', "line 2: the character '*' means nothing here")]


def typed():
    for args, reason in TYPED:
        told(run(CARD, *args), reason, args)
    for text, reason in FAULTY_TEXTS:
        try:
            parse(text)
            check(False, f'{text!r} is read')
        except TextError as error:
            check(str(error) == reason, f'{text!r}: {error}')
    code, out, errors = run(CARD, 'check', '-', stdin=b'letters a b\nDay -> a\nOrphan -> b\nOther -> Orphan')
    check((code, out) == (0, b'passed: 3 names, 2 letters, 3 rules\n') and errors.splitlines() ==
          ['-: warning: line 3: Orphan is not reached from Day', '-: warning: line 4: Other is not reached from Day'], f'names that nothing comes to: {errors}')
    for command in (['help'], ['--help'], ['help', 'judge']):
        code, out, errors = run(CARD, *command)
        check(code == 0 and out.startswith(b'usage: ') and not errors, f'{command}: {errors}')
    check('Events and places count from 0' in ' '.join(run(CARD, 'help')[1].decode().split()), 'where counting begins')
    check("event 2, 'd', is not among the letters a b c (the first event is event 0)" in run(CARD, 'judge', M, 'abd')[2], 'which event is meant')
    for leave in (b'quit', b'exit'):
        check(run(CARD, 'rehearse', M, stdin=b'a\n' + leave + b'\nb\n') == (0, b'1 event: a\n', ''), f'{leave} leaves')
    out = run(CARD, 'rehearse', M, stdin=b'undo\nhelp\n')[1].decode()
    check('help lists what can be typed' in out and 'Ctrl-D' in out, f'undo and help: {out}')
    print(f'what is mistyped: {len(TYPED)} command lines, {len(FAULTY_TEXTS)} texts')


def trees():
    """Options before the letters, a rejected log, and two events of lookahead."""
    with tempfile.TemporaryDirectory() as folder:
        picture = os.path.join(folder, 'x.svg')
        check(run(CARD, 'tree', LOOP, '--svg', picture, 'aabbcc') == (0, b'', '') and os.path.getsize(picture), 'an option with a value before the letters')
    code, out, errors = run(CARD, 'tree', LOOP, 'aaabbbcc')
    check((code, out) == (1, b'rejected: the log of 8 events does not belong to Day\n8 calls, the farthest at place 6, before c\n')
          and 'judge --calls' in errors, f'a rejected log: {out} {errors}')
    ladder = os.path.join(ROOT, 'examples', 'ladder.card')
    code, out, errors = run(CARD, 'tree', '--lookahead', '2', ladder, 'la')
    check((code, errors) == (0, '') and out == b'Day 0-2  rule 0: Cuts & not Full\n  Cuts 0-2  rule 1: Cut Cuts\n    Cut 0-2  rule 3: l a\n      l\n      a\n    Cuts 2-2  rule 2: empty\n',
          f'a tree by two events: {out.decode()} {errors}')
    for log in ('aabbcc', 'aabbccaaabbbccc', ''):
        check(run(CARD, 'tree', LOOP, log) == run(CARD, 'tree', '--lookahead', '2', LOOP, log), f'the trees of {log!r} by one event and by two')
    check(run(CARD, 'tree', '--lookahead', '2', ladder, 'lm')[0] == 1, 'a rejected log by two events')
    told(run(CARD, 'tree', '--lookahead', '2', SPUR, 'a'), 'refused 9 ', 'a refused card by two events')
    print('trees: of rejected logs, and by two events')


# The tally, and numbers for C

def numbers():
    for args, reason in ((['exmaples/loop.card', 'aabb'], 'exmaples/loop.card: No such file'), (['--limit', '-1', LOOP, 'aabb'], "'-1' is no number from 0"),
                         (['--share', '4294967296', LOOP, 'aabb'], 'is no number from 0'), ([LOOP, '4294967299:aabb'], 'is no number from 0'), (['-'], 'line 1: ')):
        told(run(TALLY, *args), reason, args)
    code, out, errors = run(TALLY, '-', 'a<a<bb<cc', stdin=b'\xef\xbb\xbf' + open(LOOP, 'rb').read())
    check((code, errors) == (0, '') and out.startswith(b'a<a<bb<cc    accepted 11 6\n'), f'a text with a mark of its order, and directions: {out} {errors}')
    words, lent = [0x10000101, 0x20000000, 0x30000000, 0x70000000], (vinegarspit.table(), vinegarspit.memo())
    for call, arguments in ((vinegarspit.judge_for, (2 ** 32 + 3, 1, 1, words, b'', *lent, vinegarspit.usage())),
                            (vinegarspit.judge_for, (0, 2 ** 32, 1, words, b'', *lent, vinegarspit.usage())),
                            (vinegarspit.judge_for, (0, 0, -1, words, b'', *lent, vinegarspit.usage())),
                            (vinegarspit.log_add, (vinegarspit.log_events(), vinegarspit.log_state(), 300)),
                            (vinegarspit.log_mark, (vinegarspit.log_state(), -1)), (vinegarspit.costliest, (words, 2 ** 64, vinegarspit.log_events(), *lent))):
        try:
            check(False, f'{call.__name__} takes a number past its width: {call(*arguments)}')
        except OverflowError:
            check(True, '')
    print('numbers: those past their width are told, and never cut')


# A copy of the tools, in a folder with a space in its name, with an rt that only puts the archive there

STUB = """#!/bin/sh
mkdir -p out && cp "{archive}" out/libembed.a
"""


def without_a_library():
    """What keeps the library from being made is told; and many may make it at once."""
    with tempfile.TemporaryDirectory() as top:
        folder = os.path.join(top, 'my layouts')
        for part in ('tools', 'examples', 'include'):
            shutil.copytree(os.path.join(ROOT, part), os.path.join(folder, part))
        shutil.copy(os.path.join(ROOT, 'crates.txt'), folder)
        for part in ('crates/embed', 'path'):
            os.makedirs(os.path.join(folder, part))
        rt = os.path.join(folder, 'path', 'rt')
        with open(rt, 'w') as file:
            file.write(STUB.format(archive=os.path.join(ROOT, 'target', 'staticlib', 'libembed.a')))
        os.chmod(rt, 0o755)
        here = {**os.environ, 'PATH': os.path.dirname(rt) + ':' + os.environ['PATH']}
        command = [sys.executable, os.path.join(folder, 'tools', 'card'), 'plain', os.path.join(folder, 'examples', 'spur.card'), 'abba']

        def plain(**environment):
            done = subprocess.run(command, capture_output=True, env={**here, **environment}, timeout=60)
            return done.returncode, done.stdout, done.stderr.decode()
        bare = os.path.join(folder, 'bare')    # what build_library needs, without rt and a compiler
        os.mkdir(bare)
        for name in ('sh', 'find', 'sha256sum', 'sort', 'cat', 'dirname', 'rm', 'mv', 'mkdir', 'cp'):
            os.symlink(shutil.which(name), os.path.join(bare, name))
        told(plain(PATH=bare), 'rt, the Rattle toolchain that makes it, is not on the PATH', 'no archive and no rt')
        told(plain(CC='no-such-compiler'), 'no-such-compiler is not on the PATH', 'no such compiler')
        told(plain(PATH=bare), 'takes a C compiler to make', 'no compiler')
        told(plain(CC='false'), 'false cannot make target/libvinegarspit.so', 'a compiler that fails')
        several = [subprocess.Popen(command, env=here, stdout=subprocess.PIPE, stderr=subprocess.PIPE) for _ in range(8)]
        for one in several:
            out, errors = one.communicate(timeout=60)
            check(one.returncode == 0 and out.startswith(b'accepted') and not errors, f'eight at once: {one.returncode} {errors.decode()}')
        check(sorted(os.listdir(os.path.join(folder, 'target'))) == ['libvinegarspit.so', 'staticlib'], 'nothing is left over')
        with open(os.path.join(folder, 'target', 'libvinegarspit.so'), 'w') as file:
            file.write('no library')
        told(plain(), 'the library cannot be loaded', 'a library that is none')
    print('the library: what keeps it from being made is told, and eight may make it at once')
