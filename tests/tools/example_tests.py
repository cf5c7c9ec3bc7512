"""The examples: their sheets and their logs, by the built programs."""
import os, subprocess, tempfile
from checking import CARD, ROOT, check, example, run
from logs import parse_input
from notation import encode, read_text, to_bytes
from programs import path_of


SHEET_OF_E = """names 4 letters 2 rules 5

S
  rule 0    A b
  first     a b
  follow    nothing
  cells     a 0  b 0  end -

A
  rule 1    B & not b C
  first     a b
  follow    b
  cells     a 1  b 1  end -

B
  rule 2    a
  rule 3    b
  first     a b
  follow    b
  cells     a 2  b 3  end -

C
  rule 4    empty
  first     nothing
  follow    b
  cells     a -  b 4  end -
"""


# What check refuses for a clash; the plain judge takes the one, and two events of lookahead the other.
CLASHING = {'ladder.card', 'spur.card'}


def passing():
    return sorted(file for file in os.listdir(os.path.join(ROOT, 'examples')) if file.endswith('.card') and file not in CLASHING)


def sheets():
    for file in passing():
        code, out, errors = run(CARD, 'sheet', os.path.join(ROOT, 'examples', file))
        check(code == 0 and out.startswith(b'names '), f'sheet of examples/{file}: {errors}')
        check(file != 'E.card' or out.decode() == SHEET_OF_E, f'sheet of examples/{file}:\n{out.decode()}')
    print(f'examples: {len(passing())} pass the check')


def logs():
    for file in sorted(CLASHING):
        check(' refused 9 ' in run(CARD, 'check', os.path.join(ROOT, 'examples', file))[2], f'examples/{file} does not clash')
    rows = 0
    with tempfile.TemporaryDirectory() as folder:
        for file in passing():
            text = read_text(example(file))
            with open(os.path.join(folder, 'card.bin'), 'wb') as card:
                card.write(to_bytes(encode(text.grammar)))
            for expected in text.expected:
                tokens = parse_input(text.grammar, expected.written)
                printed = subprocess.run([path_of('judge')], input=tokens, capture_output=True, cwd=folder, timeout=60)
                first = printed.stdout.decode().split('\n')[0]
                check(first == '{} {} {}'.format(expected.verdict, *expected.calls), f'examples/{file}: {expected.written} is {first}')
                rows += 1
    check(rows == 20, 'the logs of the examples')
    print(f'examples: {rows} logs are judged as written')
