"""Logs that a text expects to be accepted or rejected: read, written, held to by every judge, and many logs judged a line each."""
import json, os, random, shutil, subprocess, tempfile
import expectations
from checking import CARD, ROOT, check, example, run
from logs import NO_LETTER, event_of, events, log_reader
from notation import TextError, encode, parse, read_text, to_bytes, write
from vinegarspit import Answer


M, SPUR, LOOP = (os.path.join(ROOT, 'examples', name + '.card') for name in ('M', 'spur', 'loop'))

FAULTY_TEXTS = [
    ('letters a\nS -> a\naccept', 3, "behind 'accept' a log is missing; write 'empty' for the empty one"),
    ('letters a\nS -> a\nreject : 1 2', 3, 'a log is missing'),
    ('letters a\nS -> a\nreject ab', 3, "event 1, 'b', is not among the letters a"), ('letters a\nS -> a\naccept a\n | a', 4, 'continues a rule'),
    ('letters a\nS -> a\naccept a : 1', 3, 'count and far, two numbers'), ('letters a\nS -> a\naccept a : 1 2 3', 3, 'count and far'),
    ('letters a\nS -> a\naccept a : x y', 3, 'count and far'),
    ('accept a', 1, "the line 'letters' is missing"), ('letters a\nS -> a\naccepted a', 3, "'->' is missing")]


def texts():
    """What a text expects is read from anywhere in it, and written again."""
    text = read_text('accept aa< : 3 2   # one, westward # and more\nletters a accept\nreject empty\nS -> a S\n   | accept\nreject\taccept accept:1 0\n accept accept')
    check([tuple(each) for each in text.expected] == [
        (1, 'accepted', ('a', 'a<'), 'aa<', (3, 2), 'one, westward # and more'), (3, 'rejected', (), '', None, ''),
        (6, 'rejected', ('accept', 'accept'), 'accept accept', (1, 0), ''), (7, 'accepted', ('accept',), 'accept', None, '')], f'{text.expected}')
    check(encode(text.grammar) == encode(parse('letters a accept\nS -> a S\n   | accept')), 'they are no part of the words')
    for source in [write(text.grammar, text.expected)] + [example(file) for file in sorted(os.listdir(os.path.join(ROOT, 'examples'))) if file.endswith('.card')]:
        one = read_text(source)
        again = read_text(write(one.grammar, one.expected))
        check(again.grammar == one.grammar and [each[1:] for each in again.expected] == [each[1:] for each in one.expected], f'read and written: {source}')
    for source, line, reason in FAULTY_TEXTS:
        try:
            read_text(source)
            check(False, f'{source!r} is read')
        except TextError as error:
            check(error.line == line and reason in str(error), f'{source!r}: {error}')
    print(f'expectations: read and written, {len(FAULTY_TEXTS)} faulty ones')


def kept():
    """Disassembling a text keeps what it expects, and disassembling its words takes names and expectations of a text that says them."""
    code, out, errors = run(CARD, 'disassemble', M)
    text = read_text(example('M.card'))
    check((code, out.decode(), errors) == (0, write(text.grammar, text.expected), ''), f'disassemble a text: {errors}')
    words = run(CARD, 'assemble', M)[1]
    check(words == to_bytes(encode(text.grammar)) and run(CARD, 'assemble', '-', stdin=out)[1] == words, 'assemble a text with expectations')
    check(run(CARD, 'disassemble', '-', '--text', M, stdin=words)[1] == out, 'disassemble words by their text')
    check('accept' not in run(CARD, 'disassemble', '-', stdin=words)[1].decode(), 'words expect nothing')
    code, out, errors = run(CARD, 'disassemble', '-', '--text', SPUR, stdin=words)
    check((code, out) == (2, b'') and 'does not say the words of -' in errors, f'disassemble words by another text: {errors}')
    print('expectations: kept by disassemble')


# A text, the lines that are told of it, the exit status, and what is told of all.
TRIED = [
    ('letters a b\nS -> a S b | empty\naccept aabb\naccept a<b : 2 1  # a remark\nreject a\naccept empty',
     [': 4 logs as expected (one event, two events, plain)'], 0,
     '1 card, 4 logs: all as expected'),
    ('letters a b\nS -> a S b | empty\naccept aab\nreject ab\naccept aabb', [': 2 of 3 logs not as expected (one event, two events, plain)',
     '  line 3: aab is to be accepted, and is rejected (one event, two events, plain)',
     '  line 4: ab is to be rejected, and is accepted (one event, two events, plain)'],
     1, '1 card, 3 logs: 2 not as expected'),
    ('letters a b\nS -> a S b | empty\naccept ab : 2 2\nreject a : 9 9', [': 2 of 2 logs not as expected (one event, two events, plain)',
     '  line 3: ab is to have count 2 and far 2, and has 2 and 1 (one event)', '  line 4: a is to have count 9 and far 9, and has 2 and 1 (one event)'], 1,
     '1 card, 2 logs: 2 not as expected'),
    ('reject a\nletters a\nS -> a S a | empty\naccept ' + 'a' * 50, [': 1 of 2 logs not as expected (plain)',
     f'  line 4: {"a" * 50} is to be accepted, and no judge that takes the card takes a log of 50 events'], 1, '1 card, 2 logs: 1 not as expected'),
    ('letters a\nS -> a S a | empty\naccept aa : 2 1', [': 1 of 1 log not as expected (plain)',
     '  line 3: aa is to have count 2 and far 1, and only the plain judge takes the card, which has neither'], 1, '1 card, 1 log: 1 not as expected'),
    ('letters a\nS -> S a\naccept a', [': refused 8 0: left-recursive: S reaches S again before any event is read', "  line 2: S reaches S in 'S a'"], 2,
     '1 card, 1 log: 1 not as expected, 1 card faulty or refused'),
    ('letters a\nS -> a', [': no expected logs (one event, two events, plain)'], 0, '1 card, 0 logs: 1 card without expected logs'),
    ('letters a\nS -> b', [": line 2: 'b' is not among the letters"], 2, '1 card, 0 logs: 1 card faulty or refused'),
    ('\0', [': the words of a card, which expect nothing: its text is wanted'], 2, '1 card, 0 logs: 1 card faulty or refused')]


def tried():
    with tempfile.TemporaryDirectory() as folder:
        path = os.path.join(folder, 'a.card')
        for text, lines, code, summary in TRIED:
            with open(path, 'w') as file:
                file.write(text)
            status, out, errors = run(CARD, 'test', folder)
            expected = ''.join((line if line.startswith('  ') else path + line) + '\n' for line in lines) + summary + '\n'
            check((status, out.decode(), errors) == (code, expected, ''), f'test {text!r}: {status} {out.decode()} {errors}')
            status, out, errors = run(CARD, 'test', '--json', path)
            got = json.loads(out)
            differing = [f'  line {log["line"]}: {line}' for log in got['logs'] for line in log['differing']]
            check(status == code and errors == summary + '\n' and got['holds'] == (code == 0) and (differing == lines[1:] or code == 2),
                  f'test --json {text!r}: {status} {out} {errors}')
        check(run(CARD, 'test', os.path.join(folder, 'none'))[0] == 2 and run(CARD, 'test', os.path.join(ROOT, 'include'))[0] == 2,
              'test of a missing file, and of a folder without cards')
    code, out, errors = run(CARD, 'test', os.path.join(ROOT, 'examples'))
    check((code, errors) == (0, '') and out.endswith(b'\n7 cards, 29 logs: all as expected\n'), f'test examples: {out.decode()} {errors}')
    print(f'expected logs: {len(TRIED)} texts, and the examples')


def differing():
    """Where judges differ, which is proved never to be, it is told."""
    expected, = read_text('letters a\nS -> a\naccept a').expected
    answers = {'one event': Answer('accepted', 0, 0, 1, 0), 'plain': Answer('rejected', 0, 0, 0, 0)}
    told = ['a is to be accepted, and is rejected (plain)', 'a: the judges differ: one event accepted, plain rejected']
    check(expectations.Tried(expected, answers).differing() == told, 'judges that differ')


def progress():
    """On a terminal a line says how far it is, and is gone at the end."""
    if not shutil.which('script'):
        print('there is no program script to make a terminal: the progress line is passed over')
        return
    script = subprocess.run(['script', '-qec', f'"{CARD}" test "{os.path.join(ROOT, "examples")}" > /dev/null', '/dev/null'], capture_output=True, timeout=60)
    check(b'3 of 7: ' in script.stdout and script.stdout.endswith(b'\r\x1b[K'), f'progress: {script.stdout}')


# Many logs

def readers(number):
    """The quick reading of logs is the slow one."""
    for letters in ('a b c', 'a bb ccc', 'a b in_ x9'):
        grammar, rng = parse(f'letters {letters}\nS -> a'), random.Random(7)
        read = log_reader(grammar)
        for _ in range(number):
            text = ''.join(rng.choice(['a', 'b', 'c', '<', ' ', '\t', 'bb', ' ccc ', ' in_<', 'x9', '\u00fc', '>']) for _ in range(rng.randrange(12)))
            slow = bytes(NO_LETTER if event is None else event for event in (event_of(grammar, event) for event in events(grammar, text)))
            check(read(text) == slow, f'{letters}: {text!r}')


def each_line():
    for args, logs, code, out in (((M,), b'abbcc\n\n a<\r\n', 1, 'accepted 9 3     abbcc\nrejected 5 0\naccepted 6 1     a<\n'), ((M,), b'', 0, ''),
                                  ((M,), b'a\nad', 2, "accepted 6 1     a\nrefused 11 1     ad: event 1, 'd', is not among the letters a b c (the first event is event 0)\n"),
                                  ((M,), b'a' * 413, 2, 'refused 10 0     ' + 'a' * 413 + ': the log has 413 events, and the limit is 412\n'),
                                  ((M, '--lookahead', '2'), b'bc', 0, 'accepted 6 1     bc\n')):
        status, printed, errors = run(CARD, 'judge', '--each', *args, stdin=logs)
        check((status, printed.decode(), errors) == (code, out, ''), f'judge --each {args} {logs}: {status} {printed.decode()} {errors}')
    for args, reason in (((M, 'a'), 'the lines of standard input'), (('-',), 'the lines of standard input'), ((M, '--calls'), 'no calls are listed'),
                         ((SPUR,), 'refused 9 0: two rules of Spur')):
        code, out, errors = run(CARD, 'judge', '--each', *args, stdin=b'a')
        check((code, out) == (2, b'') and reason in errors, f'judge --each {args}: {errors}')
    with tempfile.NamedTemporaryFile() as damaged:
        for data, reason in ((bytes.fromhex('01010010000000'), 'refused 3 0: the file is no row of 4-byte words'), (bytes.fromhex('01010010'), 'refused 5 1: word 1')):
            damaged.seek(0)
            damaged.write(data)
            damaged.truncate()
            damaged.flush()
            for command in (['judge', '--each'], ['rehearse'], ['judge', '--each', '--lookahead', '2']):
                code, out, errors = run(CARD, *command, damaged.name, stdin=b'a')
                check((code, out) == (2, b'') and reason in errors, f'{command} by a damaged card: {errors}')
    with subprocess.Popen([CARD, 'judge', '--each', M], stdin=subprocess.PIPE, stdout=subprocess.PIPE) as asked:
        for log, verdict in ((b'a\n', b'accepted 6 1     a\n'), (b'b\n', b'rejected 4 1     b\n')):
            asked.stdin.write(log)
            asked.stdin.flush()
            told = asked.stdout.readline()
            check(told == verdict, f'a verdict as soon as its line has come: {told}')
        asked.stdin.close()
    readers(500)
    print('judge --each: a verdict a line, as it comes')
