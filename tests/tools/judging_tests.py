"""Verdicts in names, exit statuses, the marks of --calls, and programs that have to be built first."""
import os, random, shutil, subprocess, sys, tempfile
from itertools import product
import vinegarspit
from calls import MARKED, trusted
from checking import CARD, ROOT, check, example, run
from notation import MAX_INPUT, encode, parse, to_bytes
from programs import NAMES, path_of
from random_cards import small_card


def judged():
    """Verdicts in names, exit statuses, and where the log comes from."""
    loop, m, e = (os.path.join(ROOT, 'examples', name + '.card') for name in ('loop', 'M', 'E'))
    for args, stdin, code, out in (
            ((loop, 'aabbccaaabbbccc'), '', 0,
             'accepted: the log of 15 events belongs to Day\n25 calls, the farthest at place 15, the end of the log\n'),
            ((loop, 'aabbcc', 'a a a', 'bbbccc'), 'c', 0, 'accepted: the log of 15 events '),
            ((loop,), 'aabbcca a abbbccc\n', 0, 'accepted: the log of 15 events '),
            ((loop, 'aaabbbcc'), '', 1, 'rejected: the log of 8 events does not belong to Day\n8 calls, the farthest at place 6, before c\n'),
            ((loop, ''), 'abc', 0, 'accepted: the log of 0 events belongs to Day\n1 call, the farthest at place 0, the end of the log\n'),
            ((loop,), '', 0, 'accepted: the log of 0 events '),
            ((m, 'ab', '--calls'), '', 1, 'rejected: the log of 2 events does not belong to S\n5 calls, the farthest at place 2, the end of the log\n'
             'S    0  failed\nA    0       1 *\nA    1       1 *\nD    1  failed\nD    2       2 *\n' + MARKED + '\n'),
            ((e, 'ba', '--calls'), '', 1, 'rejected: the log of 2 events does not belong to S\n4 calls, the farthest at place 1, before a\n'
             'S    0  failed\nA    0       1\nB    0       1\nC    1  failed\n'),
            ((e, 'ab<', '--calls'), '', 0, 'accepted: the log of 2 events belongs to S\n3 calls, the farthest at place 0, before a\n'
             'S    0       2 *\nA    0       1 *\nB    0       1 *\n' + MARKED + '\n'),
            ((m, '--calls', 'a'), '', 0, 'accepted: the log of 1 event belongs to S\n'),
            ((m, 'b<c'), '', 0, 'accepted: the log of 2 events belongs to S\n6 calls, the farthest at place 1, before c\n'),
            ((m, 'bc<'), '', 0, 'accepted: the log of 2 events belongs to S\n6 calls, the farthest at place 1, before c<\n'),
            (('-', 'a'), example('M.card'), 0, 'accepted: the log of 1 event '),
            ((loop,), b'a\xff', 2, ''), (('-',), example('M.card'), 2, ''), ((m, 'abd'), '', 2, ''), ((m, 'a' * (MAX_INPUT + 1)), '', 2, ''),
            ((m + 'x', 'a'), '', 2, ''),
            ((), '', 2, ''), (('-', 'a'), 'letters a\nS -> b', 2, '')):
        status, printed, errors = run(CARD, 'judge', *args, stdin=stdin if isinstance(stdin, bytes) else stdin.encode())
        check(status == code and printed.decode().startswith(out) and bool(errors) == (code == 2), f'judge {args}: {status} {printed} {errors}')
    check(MARKED not in run(CARD, 'judge', e, 'ba', '--calls')[1].decode(), 'a mark on an end that proves nothing')
    check("refused 11 2: event 2, 'd', is not among the letters a b c" in run(CARD, 'judge', m, 'abd')[2], 'an unknown letter')
    check(f'refused 10 0: the log has {MAX_INPUT + 1} events, and the limit is {MAX_INPUT}' in run(CARD, 'judge', m, 'a' * (MAX_INPUT + 1))[2], 'a log too long')
    check(run(CARD, 'judge', '-', 'ab', stdin=to_bytes(encode(parse(example('M.card')))))[:2]
          == (1, b'rejected: the log of 2 events does not belong to N0\n5 calls, the farthest at place 2, the end of the log\n'), 'judge words')
    check(run(CARD, 'check', m) == (0, b'passed: 5 names, 3 letters, 9 rules\n', ''), 'check')
    check(run(CARD, 'check', m + 'x')[0] == 2, 'check a missing file')
    print('judge and check: verdicts, refusals and exit statuses')


def marks(number, lookahead):
    """What marks say is so, by the library: of the places where what comes next is in a name's follow set, the end of its call is the only one up to which
    the plain judge gives the stretch to the name, and where the end is none of them, there is none. Some ends without a mark are no membership."""
    look, judge, table = ((vinegarspit.check, vinegarspit.judge, vinegarspit.table()), (vinegarspit.check2, vinegarspit.judge2, vinegarspit.table2()))[lookahead - 1]
    memo, spans = vinegarspit.memo(), vinegarspit.spans()
    logs = [bytes(log) for length in range(5) for log in product(range(2), repeat=length)]
    passed = ends = marked = wrong = 0
    for seed in range(number):
        words = small_card(random.Random(seed))
        if look(words, table).verdict == 'refused':
            continue
        passed += 1
        for log in logs:
            judge(words, log, table, memo)
            vinegarspit.judge_plain(words, log, spans)
            belongs, places = vinegarspit.span_words(spans, len(log)), range(len(log) + 1)
            for name, start, end in vinegarspit.called_pairs(memo, 4, len(log)):
                seen = [place for place in places[start:] if trusted(table[2 * name + 1], log, place, lookahead)]
                check([place for place in seen if belongs[start, place] >> name & 1] == [place for place in seen if place == end],
                      f'{words} on {log}: the call of {name} at {start} that ends at {end}')
                if end is not None:
                    ends, marked, wrong = ends + 1, marked + (end in seen), wrong + (not belongs[start, end] >> name & 1)
    check(0 < wrong < ends - marked, f'{wrong} ends prove nothing')
    print(f'marks: by {passed} random cards, with lookahead {lookahead}, {marked} of {ends} ends are marked, and {wrong} of the others are no membership')


# A copy of the tools without programs, in a folder with a space in its name, and an rt that only puts them there

STUB = """#!/bin/sh
echo "rt: chose --jobs 2 for answer" >&2
mkdir out && cp "{programs}/$(basename "$PWD")" out/
echo refused 3 0
"""


def first_build():
    with tempfile.TemporaryDirectory() as top:
        folder, programs = os.path.join(top, 'my layouts'), os.path.join(top, 'my programs')
        os.mkdir(programs)
        for part in ('tools', 'examples'):
            shutil.copytree(os.path.join(ROOT, part), os.path.join(folder, part))
        for name in NAMES:
            shutil.copy(path_of(name), programs)
            os.makedirs(os.path.join(folder, 'crates', name))
        shutil.copy(os.path.join(ROOT, 'crates.txt'), folder)
        stub = os.path.join(folder, 'path', 'rt')
        os.mkdir(os.path.dirname(stub))
        path = {**os.environ, 'PATH': os.path.dirname(stub) + ':' + os.path.dirname(sys.executable) + ':/usr/bin:/bin'}
        path.pop('VINEGARSPIT_BIN', None)

        def judge(**environment):
            done = subprocess.run([sys.executable, os.path.join(folder, 'tools', 'card'), 'judge', os.path.join(folder, 'examples', 'R.card'), 'a'],
                                  capture_output=True, env={**path, **environment}, timeout=60)
            return done.returncode, done.stdout.decode(), done.stderr.decode()
        code, out, errors = judge(PATH='/nowhere')
        check(code == 2 and out == '' and 'rt, the Rattle toolchain' in errors, f'no programs and no rt: {errors}')
        code, out, errors = judge(VINEGARSPIT_BIN='/nowhere')
        check(code == 2 and out == '' and 'VINEGARSPIT_BIN' in errors, f'no programs in VINEGARSPIT_BIN: {errors}')
        for text, expected in (('#!/bin/sh\nexit 1\n', 2), (STUB.format(programs=programs), 0)):
            with open(stub, 'w') as file:
                file.write(text)
            os.chmod(stub, 0o755)
            code, out, errors = judge()
            check(code == expected and '`rt run`' in errors and 'minutes' in errors, f'a first build: {code} {errors}')
        check('1 of ' in errors and out.startswith('accepted'), f'a first build: {out} {errors}')
        check(judge()[2] == '', 'nothing is built twice')
    print('a first build: announced, run once, and its failure told')
