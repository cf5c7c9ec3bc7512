"""Commands that call the library: plain, tree, two events of lookahead, rehearse and costliest."""
import os, tempfile
from itertools import product
import vinegarspit
from calls import MARKED
from checking import CARD, ROOT, check, example, run
from notation import MAX_INPUT, encode, parse, read_text, to_bytes


TRIANGLE = """accepted: the log of 4 events belongs to Spur
       0     1     2     3     4
0 a    Spur  -     -     -     Spur
1 b          Spur  -     Spur  -
2 b                Spur  -     -
3 a                      Spur  -
4 end                          Spur
"""

def plainly():
    """Plain verdicts by the proved library, also by a card that the check refuses, and the names of every stretch."""
    spur, m = (os.path.join(ROOT, 'examples', name + '.card') for name in ('spur', 'M'))
    for args, stdin, code, out in (
            ((spur, 'abba', '--stretches'), b'', 0, TRIANGLE), ((spur, '--stretches', 'ab', 'ba'), b'', 0, TRIANGLE), ((spur,), b'a bb<a', 0, TRIANGLE[:46]),
            ((spur, 'abab'), b'', 1, 'rejected: the log of 4 events does not belong to Spur\n'),
            (('-', '', '--stretches'), b'letters a\nS -> T a\nT -> empty', 1, 'rejected: the log of 0 events does not belong to S\n       0\n0 end  T\n'),
            (('-', 'a'), to_bytes(encode(parse(example('spur.card')))), 1, 'rejected: the log of 1 event does not belong to N0\n'),
            ((spur, 'ab' * 12 + 'ba' * 12), b'', 0, 'accepted: the log of 48 events belongs to Spur\n')):
        status, printed, errors = run(CARD, 'plain', *args, stdin=stdin)
        check((status, printed.decode(), errors) == (code, out, ''), f'plain {args}: {status} {printed.decode()} {errors}')
    for args, stdin, reason in (
            ((spur, 'a' * 49), b'', 'refused 10 0: the log has 49 events, and the limit is 48'),
            ((m, 'abd'), b'', "refused 11 2: event 2, 'd', is not among the letters a b c"),
            (('-', 'a'), b'letters a\nS -> a\n  & not S', 'refused 8 0: left-recursive: S reaches S again before any event is read'),
            (('-', 'a'), bytes.fromhex('01010010000000300000007000'), 'refused 3 0: the file is no row of 4-byte words'),
            (('-', 'a'), bytes.fromhex('010100100000003000000070'), 'refused 5 1: word 1 (30000000): a must before the first rule')):
        status, printed, errors = run(CARD, 'plain', *args, stdin=stdin)
        check(status == 2 and printed == b'' and reason in errors, f'plain {args}: {status} {printed} {errors}')
    rows = read_text(example('spur.card')).expected
    for expected in rows:
        check(run(CARD, 'plain', spur, expected.written)[1].startswith(expected.verdict.encode()),
              f'examples/spur.card: {expected.written} is not {expected.verdict}')
    check(len(rows) == 5, 'the logs of examples/spur.card')
    print('plain: verdicts, refusals and the triangle of stretches')


# A text, a log, and what is told of its tree.
TREES = [
    ('letters a\nS -> a S | empty', 'a', 'S 0-1  rule 0: a S\n  a\n  S 1-1  rule 1: empty\n'),
    ('letters a\nS -> A & A\nA -> a', 'a', 'S 0-1  rule 0: A & A\n  A 0-1  rule 1: a\n    a\n  A 0-1  as above\n'),
    ('letters a\nS -> C C\nC -> empty', '', 'S 0-0  rule 0: C C\n  C 0-0  rule 1: empty\n  C 0-0  as above\n'),
    ('letters a b\nS -> not a', 'ab', 'S 0-2  rule 0: not a\n  a\n  b\n')]


def trees():
    for text, log, told in TREES:
        with tempfile.TemporaryDirectory() as folder:
            card = os.path.join(folder, 'card')
            with open(card, 'w') as file:
                file.write(text)
            got = run(CARD, 'tree', card, stdin=log.encode())
            check(got == (0, told.encode(), ''), f'tree of {text!r} {log!r}: {got}')
    code, out, errors = run(CARD, 'tree', '-', 'b', stdin=b'letters a b\nS -> a')
    check(code == 1 and out.startswith(b'rejected'), f'tree of a rejected log: {code} {out}')
    code, out, errors = run(CARD, 'tree', '-', 'c', stdin=b'letters a b\nS -> a')
    check(code == 2 and not out and 'refused 11 0' in errors, f'tree of a refused log: {code} {errors}')
    print(f'trees: {len(TREES)} are told')


# What is refused with two events of lookahead, and what is told further.
WIDE = [
    ('letters a b c\nS -> a X\nX -> b c\n   | b c a\n   | b', 'refused 9 81: two rules of X may be meant where the next two events are b and c',
     ['line 3: X -> b c', 'line 4: X -> b c a']),
    ('letters a b\nS -> a X\nX -> b | b | b a', 'refused 9 66: two rules of X may be meant where the next event is b, the last of the log',
     ['line 3: X -> b', 'line 3: X -> b']),
    ('letters a b\nS -> X | Y\nX -> b | empty\nY -> b | empty', 'refused 9 0: two rules of S may be meant at the end of the log',
     ['line 2: S -> X', 'line 2: S -> Y']),
    ('letters a b c\nS -> a\nT -> a b & a c', 'refused 13 1: nothing can begin T, so no log belongs to it',
     ['line 3: T -> a b & a c: its musts have no beginning of two events in common']),
    ('letters a b\nS -> a\n   | not a', 'refused 5 5: line 3: a rule of must-nots alone, which is not taken with two events of lookahead', []),
    ('letters a b c d e f g h\nS -> not a', 'refused 18 0: 8 letters, and with two events of lookahead the limit is 7', []),
    ('letters a\nS -> E S a\nE -> empty', 'refused 8 0: left-recursive: S reaches S again before any event is read',
     ["line 2: S reaches S in 'E S a', since E may be empty"]),
    (bytes.fromhex('01010010000000200000004000000070'), 'refused 5 2: word 2 (40000000): a rule of must-nots alone', []),
    (bytes.fromhex('010100100000002000000070'), 'refused 5 2: word 2 (70000000): the end where a must or a must-not has to begin', []),
    (bytes.fromhex('01010010000000300000007000'), 'refused 3 0: the file is no row', [])]


def by_two():
    """With two events of lookahead: verdicts by the proved library, refusals in names, and the logs of the example."""
    ladder, e = (os.path.join(ROOT, 'examples', file) for file in ('ladder.card', 'E.card'))
    for text, reason, further in WIDE:
        stdin = text if isinstance(text, bytes) else text.encode()
        code, out, errors = run(CARD, 'check', '--lookahead', '2', '-', stdin=stdin)
        first, *rest = errors.splitlines() or ['']
        check(code == 2 and out == b'' and first.startswith('-: ' + reason) and rest == ['  ' + line for line in further], f'check {text!r}: {code} {out} {errors}')
        check(run(CARD, 'judge', '-', 'a x', '--lookahead', '2', stdin=stdin) == (code, out, errors), f'judge {text!r}')
    check(run(CARD, 'check', '--lookahead=2', ladder) == (0, b'passed: 6 names, 5 letters, 10 rules\n', ''), 'check with two events')
    for args, code, out in (
            ((ladder, '--lookahead', '2', 'la', '--calls'), 0, 'accepted: the log of 2 events belongs to Day\n7 calls, the farthest at place 2, the end of the log\n'
             'Day       0       2 *\nCuts      0       2 *\nCuts      2       2 *\nCut       0       2 *\nFull      0  failed\nOthers    0       0 *\nOthers    2  failed\n' + MARKED + '\n'),
            ((e, 'ab<', '--calls', '--lookahead', '2'), 0, 'accepted: the log of 2 events belongs to S\n3 calls, the farthest at place 0, before a\n'
             'S    0       2 *\nA    0       1 *\nB    0       1 *\n' + MARKED + '\n'),
            ((e, 'bb<a', '--calls', '--lookahead', '2'), 1, 'rejected: the log of 3 events does not belong to S\n4 calls, the farthest at place 1, before b<\n'
             'S    0       2\nA    0       1\nB    0       1\nC    1  failed\n'),
            (('--lookahead', '2', ladder, 'l<mb'), 0, 'accepted: the log of 3 events belongs to Day\n'),
            ((ladder, 'x', '--lookahead', '2'), 2, ''), ((ladder, 'la' * 251, '--lookahead', '2'), 2, ''), ((ladder, 'la', '--lookahead', '3'), 2, '')):
        status, printed, errors = run(CARD, 'judge', *args)
        check(status == code and printed.decode().startswith(out) and bool(errors) == (code == 2), f'judge {args}: {status} {printed.decode()} {errors}')
    check(MARKED not in run(CARD, 'judge', e, 'bba', '--calls', '--lookahead', '2')[1].decode(), 'a mark on an end where only the next event may follow')
    rows = read_text(example('ladder.card')).expected
    for expected in rows:
        told, (count, far) = run(CARD, 'judge', '--lookahead', '2', ladder, expected.written)[1].decode(), expected.calls
        check(told.startswith(expected.verdict) and f'\n{count} call' in told and f'at place {far},' in told, f'examples/ladder.card: {expected.written} is {told}')
    check(len(rows) == 4, 'the logs of examples/ladder.card')
    print(f'two events of lookahead: {len(WIDE)} refusals told in names, {len(rows)} logs of the example')


# What is typed at the prompt by examples/M.card, and what is told.
REHEARSED = [
    ('a\njudge', '1 event: a\naccepted: the log of 1 event belongs to S\n6 calls, the farthest at place 1, the end of the log'),
    ('judge', 'rejected: the log of 0 events does not belong to S\n5 calls, the farthest at place 0, the end of the log'),
    ('ab\nmark 3\nmark 1\nc\nmark 7\nback 3\nbcc\nback 7',
     '2 events: ab\n2 events: ab; mark 3 at 2\n2 events: ab; mark 1 at 2, 3 at 2\n3 events: abc; mark 1 at 2, 3 at 2\n'
     '3 events: abc; mark 1 at 2, 3 at 2, 7 at 3\n2 events: ab; mark 1 at 2, 3 at 2\n5 events: abbcc; mark 1 at 2, 3 at 2\nrefused 20 0: mark 7 is not set'),
    ('a<\nmark 0\na\nmark 0\nback 0', '1 event: a<\n1 event: a<; mark 0 at 1\n2 events: a<a; mark 0 at 1\n2 events: a<a; mark 0 at 2\n2 events: a<a; mark 0 at 2'),
    ('mark 8\nback 8\nback 0\nmark 99999999999', 'refused 19 0: there is no mark 8, marks are 0 to 7\nrefused 19 0: there is no mark 8, marks are 0 to 7\n'
     'refused 20 0: mark 0 is not set\nrefused 19 0: there is no mark 4294967295, marks are 0 to 7'),
    ('mark\nback x\nmark 1 2', 'mark takes the number of a mark, 0 to 7\nback takes the number of a mark, 0 to 7\nmark takes the number of a mark, 0 to 7'),
    ('ad\n\n+ b', "event 1, 'd', is not among the letters a b c (the first event is event 0): nothing is added; help lists what can be typed\n0 events\n1 event: b"),
    ('a' * MAX_INPUT + 'bc\nback 1', f'refused 21 0: the log is full, 2 events cannot be added\n{MAX_INPUT} events: ...{"a" * 60}\nrefused 20 0: mark 1 is not set')]


# The same with two events of lookahead, by examples/ladder.card.
BY_TWO = ('l\nmark 0\nl\njudge\nback 0\na\njudge',
          '1 event: l\n1 event: l; mark 0 at 1\n2 events: ll; mark 0 at 1\nrejected: the log of 2 events does not belong to Day\n'
          '1 call, the farthest at place 0, before l\n1 event: l; mark 0 at 1\n2 events: la; mark 0 at 1\n'
          'accepted: the log of 2 events belongs to Day\n7 calls, the farthest at place 2, the end of the log')


def rehearsals():
    path = os.path.join(ROOT, 'examples', 'M.card')
    for typed, told in REHEARSED:
        got = run(CARD, 'rehearse', path, stdin=typed.encode() + b'\n')
        check(got == (0, told.encode() + b'\n', ''), f'rehearsed {typed[:60]!r}: {got}')
    with tempfile.TemporaryDirectory() as folder:
        card = os.path.join(folder, 'card')
        with open(card, 'w') as file:
            file.write('letters mark in\nS -> mark in')
        got = run(CARD, 'rehearse', card, stdin=b'+ mark\nin<\njudge\n')
        check(got[1].startswith(b'1 event: mark\n2 events: mark in<\naccepted'), f'letters that are called as a command: {got}')
        with open(card, 'w') as file:
            file.write('letters a\nS -> a\n   | a')
        code, out, errors = run(CARD, 'rehearse', card, stdin=b'a\n')
        check(code == 2 and not out and 'refused 9 0' in errors, f'rehearsed by a refused card: {code} {out} {errors}')
    ladder = os.path.join(ROOT, 'examples', 'ladder.card')
    check(run(CARD, 'rehearse', ladder, stdin=b'la\n')[0] == 2, 'rehearsed by a card on which one event is too few')
    typed, told = BY_TWO
    got = run(CARD, 'rehearse', '--lookahead', '2', ladder, stdin=typed.encode() + b'\n')
    check(got == (0, told.encode() + b'\n', ''), f'rehearsed with two events of lookahead: {got}')
    check(run(CARD, 'rehearse', '-', stdin=b'a\n')[0] == 2, 'a card and a log from standard input')
    print(f'rehearsals: {len(REHEARSED) + 1} are told')


def first_costliest(words, letters, length):
    """The first of the logs of that length with the greatest count, by judging each, and its answer."""
    table, memo = vinegarspit.table(), vinegarspit.memo()
    found = max(product(range(letters), repeat=length), key=lambda log: vinegarspit.judge(words, log, table, memo).count)    # the first of several
    return list(found), vinegarspit.judge(words, found, table, memo)


def costliest():
    """The costliest log of a length, against judging all of them, and what is refused."""
    logs = 0
    for file in ('R', 'M', 'E', 'loop', 'tunnel'):
        path, grammar = os.path.join(ROOT, 'examples', file + '.card'), parse(example(file + '.card'))
        for length in range(8):
            if len(grammar.terminals) ** length > 800:
                break
            log, answer = first_costliest(encode(grammar), len(grammar.terminals), length)
            letters = [grammar.terminals[event] for event in log]
            code, out, errors = run(CARD, 'costliest', path, str(length))
            first, verdict, calls = out.decode().splitlines() or ['', '', '']
            check((code, errors) == (0, '') and first.replace(' ', '') == (''.join(letters) or '(empty)'), f'costliest {file} {length}: {out.decode()} {errors}')
            check(verdict.startswith(answer.verdict) and calls.startswith(f'{answer.count} call') and f'at place {answer.far},' in calls,
                  f'costliest {file} {length}: {verdict} {calls}')
            logs += 1
    m, longest = os.path.join(ROOT, 'examples', 'M.card'), vinegarspit.LOG_EVENTS
    check(run(CARD, 'costliest', '-', str(longest), stdin=b'letters a\nS -> a S | empty')[1].decode().startswith('a' * longest + '\naccepted'), 'one letter')
    for args, stdin, reason in (
            ((m, '8'), b'', 'refused 22 0: there are 3^8 logs of 8 events, and the limit is 4,096'),
            ((m, str(longest + 1)), b'', f'refused 10 0: the log has {longest + 1} events, and the limit is {longest}'),
            (('-', '600'), b'letters a b\nS -> a\n  & not S', 'refused 8 0: left-recursive: S reaches S again before any event is read'),
            (('-', '1'), bytes.fromhex('01010010000000300000007000'), 'refused 3 0: the file is no row of 4-byte words'),
            ((m, '-1'), b'', 'LENGTH'), ((m, 'ab'), b'', 'LENGTH'), ((m,), b'', 'LENGTH')):
        code, out, errors = run(CARD, 'costliest', *args, stdin=stdin)
        check(code == 2 and out == b'' and reason in errors, f'costliest {args}: {code} {out} {errors}')
    print(f'costliest logs: {logs} against judging all of their length')
