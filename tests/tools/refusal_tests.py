"""What is refused is told in names, with lines, and gaps and overlaps as the program finds them."""
import os
from checking import CARD, check, run
from explain import claims, letters_behind
from notation import decode, encode, from_bytes, parse, to_bytes
from programs import path_of
from recorded_cards import recorded


REFUSED = [
    ('letters a\nS -> a\n  & not S', 'refused 8 0: left-recursive: S reaches', ["line 3: S reaches S in 'not S'"]),
    ('letters a\nS -> a T\nT -> E\n   E U | a\nU -> V\nV -> a & not T a\nE -> empty', 'line 4: after', []),
    ('letters a b\nS -> a T\nT -> E E U\nU -> V\nV -> a\n  & not T a\nE -> empty', 'refused 8 1: left-recursive: T reaches T',
     ["line 3: T reaches U in 'E E U', since E may be empty", "line 4: U reaches V in 'V'", "line 6: V reaches T in 'not T a'"]),
    ('letters a b\nS -> a A\n\nA -> b\n   | a\n   | b S', 'refused 9 33: two rules of A may be meant where the next event is b',
     ['line 4: A -> b', 'line 6: A -> b S']),
    ('letters a b\nS -> A\nA -> empty | B\nB -> empty', 'refused 9 34: two rules of A may be meant at the end of the log',
     ['line 3: A -> empty', 'line 3: A -> B']),
    ('letters a\nS -> a | a & a | a', 'refused 9 0: 3 rules of S may be meant where the next event is a',
     ['line 2: S -> a', 'line 2: S -> a & a', 'line 2: S -> a']),
    ('letters a b\nS -> X b\nX -> not a', 'refused 9 32: X has a rule of must-nots alone, which takes all up to the end of the log, but b may follow X',
     ['line 3: X -> not a', "line 2: in 'X b' b may follow X"]),
    ('letters a b c\nS -> a T\n   | b T c\n  & not T Z b\nT -> a X\nX -> not a\n  & not b X\nZ -> a | empty',
     'refused 9 64: X has a rule of must-nots alone, which takes all up to the end of the log, but a, b, c may follow X',
     ['line 6: X -> not a & not b X', "line 5: in 'a X' X may be the last, so what follows T may follow X",
      "line 4: in 'not T Z b' a may follow T"]),
    ('letters a b\nS -> X b\nX -> not a | a', 'refused 9 32: X has a rule of must-nots alone, which takes all up to the end of the log, but b may follow X',
     ['line 3: X -> not a', "line 2: in 'X b' b may follow X", 'two rules of X may be meant where the next event is a',
      'line 3: X -> not a', 'line 3: X -> a']),
    ('letters a b\nS -> not a | b', 'refused 9 1: two rules of S may be meant where the next event is b', ['line 2: S -> not a', 'line 2: S -> b']),
    ('letters a b\nS -> a\n   | not empty', 'refused 9 0: two rules of S may be meant where the next event is a', ['line 2: S -> a', 'line 3: S -> not empty']),
    ('letters a\nS -> not X\nX -> not empty & not S', "refused 8 0: left-recursive: S reaches S again before any event is read",
     ["line 2: S reaches X in 'not X'", "line 3: X reaches S in 'not S'"]),
    ('letters a\nnames S T\nS -> a T', 'refused 13 0: nothing can begin S, so no log belongs to it',
     ['line 3: S -> a T: nothing can begin T', 'T has no rule']),
    ('letters a\nnames S T\nS -> a | a', 'refused 13 1: T has no rule, so no log belongs to it', []),
    ('letters a\nnames T S\nS -> a & not S', 'refused 8 1: left-recursive: S reaches', ["line 3: S reaches S in 'not S'"]),
    ('letters a\nS -> a S', 'refused 13 0: nothing can begin S, so no log belongs to it', ['line 2: S -> a S: nothing can begin S']),
    ('letters a b\nS -> a\nT -> a A\n   | b T & a A\nA -> b B\n   | a A\nB -> a & b',
     'refused 13 1: nothing can begin T, so no log belongs to it',
     ['line 3: T -> a A: nothing can begin A', 'line 4: T -> b T & a A: nothing can begin T or A', 'line 5: A -> b B: nothing can begin B',
      'line 7: B -> a & b: its musts have no beginning in common']),
    ('letters a b\nS -> A\nA -> a B\nB -> b B | a A', 'refused 13 0: nothing can begin S, so no log belongs to it',
     ['line 2: S -> A: nothing can begin A', 'line 3: A -> a B: nothing can begin B', 'line 4: B -> b B: nothing can begin B']),
    (bytes.fromhex('0101001000000070'), 'refused 13 0: N0 has no rule, so no log belongs to it', []),
    ('letters a\n' + 'S -> a\n' * 129, 'refused 7 385: line 130: rule 128: more than 128 rules', []),
    ('letters a\nnames ' + ' '.join(f'N{at}' for at in range(33)), 'refused 4 0: 33 names, not 1 to 32', []),
    ('letters ' + ' '.join(f'a{at}' for at in range(25)) + '\nS -> a1', 'refused 4 0: 25 letters, not 1 to 24', []),
    ('letters a\nS -> ' + 'a ' * 2045, 'refused 3 0: 2049 words, and the limit is 2048', []),
    (bytes.fromhex('01010010'), 'refused 5 1: word 1: the end is missing', []),
    (bytes.fromhex('0101001000000020'), 'refused 5 2: word 2: the end is missing', []),
    (bytes.fromhex('01010010000000300000007000'), 'refused 3 0: the file is no row', []),
    (bytes.fromhex('010100100000003000000070'), 'refused 5 1: word 1 (30000000): a must before the first rule', []),
    (bytes.fromhex('010100100000002000000070'), 'refused 5 2: word 2 (70000000): the end where a must or a must-not has to begin', []),
    (bytes.fromhex('010100100000002000000040000000500000003000000070'), 'refused 5 4: word 4 (30000000): a must behind a must-not', []),
    (bytes.fromhex('010100100100002000000070'), 'refused 6 1: word 1 (20000001): name 1, and the heading has 1', []),
    (bytes.fromhex('0101001000000020000000300000005000000020000000300000005000000070'), 'refused 9 0: two rules of N0',
     ['word 1 (20000000): N0 -> a', 'word 4 (20000000): N0 -> a'])]


def gap_lines(grammar):
    """What the program gaps prints of a card that is not refused before 9, from what each rule claims here."""
    claimed, letters = claims(grammar), len(grammar.terminals)
    for name in range(len(grammar.nonterminals)):
        for column in range(letters + 1):
            row = (column,) if column < letters else ()
            rules = [number for number, rule in enumerate(grammar.rules) if rule.head == name and row in claimed[number]]
            if len(rules) != 1:
                yield ' '.join(map(str, [name, column, *(rules or '-')]))
    yield from (str(name) for name in range(len(grammar.nonterminals)) if letters_behind(grammar, name))


MENDED = [
    ('letters a b\nS -> X b\n   | a\nX -> not a',
     'two rules of S may be meant where the next event is a\n  line 2: S -> X b\n  line 3: S -> a\n'
     'no rule of S may be meant at the end of the log\nno rule of X may be meant at the end of the log\n'
     'X has a rule of must-nots alone, which takes all up to the end of the log, but b may follow X\n'
     "  line 4: X -> not a\n  line 2: in 'X b' b may follow X\n"
     '2 gaps, 1 overlap, 1 name wrongly followed by a letter: the check refuses it (9)\n'),
    ('letters a\nS -> a | empty | a\n', 'two rules of S may be meant where the next event is a\n  line 2: S -> a\n  line 2: S -> a\n'
     '0 gaps, 1 overlap, 0 names wrongly followed by a letter: the check refuses it (9)\n'),
    ('letters a\nnames S T\nS -> a\n   | empty\nT -> a', 'no rule of T may be meant where the next event is a\nno rule of T may be meant at the end of the log\n'
     '2 gaps, 0 overlaps, 0 names wrongly followed by a letter: the check passes it\n'),
    (bytes.fromhex('0101001000000020000000300000005000000020000000300000005000000070'),
     'two rules of N0 may be meant where the next event is a\n  word 1 (20000000): N0 -> a\n  word 4 (20000000): N0 -> a\n'
     'no rule of N0 may be meant at the end of the log\n1 gap, 1 overlap, 0 names wrongly followed by a letter: the check refuses it (9)\n')]


def gaps():
    """What is to be mended is told in names; the program's lines are those computed here, and show an overlap or a name just where 9 is recorded."""
    for text, told in MENDED:
        got = run(CARD, 'gaps', '-', stdin=text if isinstance(text, bytes) else text.encode())
        check(got == (0, told.encode(), ''), f'gaps {text!r}: {got}')
    for text, reason, _ in REFUSED:
        stdin = text if isinstance(text, bytes) else text.encode()
        code, out, errors = run(CARD, 'gaps', '-', stdin=stdin)
        check(reason.startswith('refused 9') and code == 0 or (code, out, errors) == run(CARD, 'check', '-', stdin=stdin), f'gaps {text!r}: {code} {out} {errors}')
    names = [f'N{at}' for at in range(32)]
    rules = ['not ' + ' & not '.join(names[1:])] + ['not a0'] * 3
    fullest = 'letters ' + ' '.join(f'a{at}' for at in range(24)) + '\n' + '\n'.join(
        f'{name} -> {rule}' for at, name in enumerate(names) for rule in (rules if at == 0 else rules[1:] * 2)[:4])
    lines = run(path_of('gaps'), stdin=to_bytes(encode(parse(fullest))))[1].decode()
    check(lines.count('\n') == 800 and lines.splitlines() == list(gap_lines(parse(fullest))), 'the gaps of a card with four rules in every cell')
    clashing = clear = 0
    for data, refusal in recorded().items():
        lines = run(path_of('gaps'), stdin=data)[1].decode().splitlines()
        if refusal and refusal[0] not in (9, 10, 11):
            check(lines == ['refused {} {}'.format(*refusal)], f'gaps of {data.hex()}: {lines}')
        else:
            clash = bool(refusal) and refusal[0] == 9
            clashing, clear = clashing + clash, clear + (not clash)
            check(lines == list(gap_lines(decode(from_bytes(data)))), f'gaps of {data.hex()}: {lines}')
            check(all(line.endswith('-') for line in lines) != clash, f'gaps of {data.hex()}: {lines}, recorded is {refusal}')
    print(f'gaps: {len(MENDED)} told in names, {clashing} recorded cards with a clash, {clear} without')


def refusals():
    """What is refused is told in names, with lines; by judge as by check."""
    for text, reason, further in REFUSED:
        stdin = text if isinstance(text, bytes) else text.encode()
        code, out, errors = run(CARD, 'check', '-', stdin=stdin)
        first, *rest = errors.splitlines() or ['']
        check(code == 2 and out == b'' and first.startswith('-: ' + reason) and rest == ['  ' + line for line in further],
              f'check {text!r}: {code} {out} {errors}')
        check(run(CARD, 'judge', '-', 'a x', stdin=stdin) == (code, out, errors), f'judge {text!r}')
        check(run(CARD, 'sheet', '-', stdin=stdin) == (code, out, errors), f'sheet {text!r}')
    print(f'refusals: {len(REFUSED)} told in names')
