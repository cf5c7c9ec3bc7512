"""Text to words and back: of random and of recorded cards, of those of document 01, at the limits, and with every fault."""
import random
from checking import check, example
from notation import TextError, Damaged, beyond_limits, decode, encode, from_bytes, parse, read_text, to_bytes, write
from random_cards import expected_words, in_order_of_definition, random_rules, random_text
from recorded_cards import recorded


def round_trips(words, what):
    text = write(decode(words))
    check(encode(parse(text)) == words, f'{what}: words -> text -> words')
    check(write(parse(text)) == text, f'{what}: the written text is written alike again')


def lines_hold(text, words):
    """Whether the line told for each rule and symbol has it, and lines do not go back."""
    (nonterminals, terminals, _), lines, _ = read_text(text)
    written = [line.split('#')[0].split() for line in text.split('\n')]

    def stands(word, line):
        kind, number = word >> 28, word & 0xfffffff
        names = {5: terminals, 6: nonterminals}.get(kind)
        return not names or names[number] in written[line - 1]
    return len(lines) == len(words) and lines[1:] == sorted(lines[1:]) and all(map(stands, words, lines))


def random_round_trips(number):
    for seed in range(number):
        rng = random.Random(seed)
        nonterminals, terminals = rng.choice([1, 2, 5, 32]), rng.choice([1, 2, 5, 24])
        rules, listed = random_rules(rng, nonterminals, terminals), True
        if rules and rng.random() < 0.5:
            listed = False
            nonterminals, rules = in_order_of_definition(rules)
        words = expected_words(nonterminals, terminals, rules)
        if len(words) > 2048:
            rules = rules[:20]
            words = expected_words(nonterminals, terminals, rules)
            listed = True
        text = random_text(rng, nonterminals, terminals, rules, listed)
        grammar = parse(text)
        check(encode(grammar) == words, f'random {seed}: text -> words')
        check(lines_hold(text, words), f'random {seed}: the line of each word')
        check(parse(write(grammar)) == grammar, f'random {seed}: text -> text keeps names')
        check(from_bytes(to_bytes(words)) == words, f'random {seed}: bytes')
        round_trips(words, f'random {seed}')
    print(f'random grammars: {number} from text to words, to text and to words')


def recorded_round_trips():
    formed = damaged = 0
    for data, refusal in recorded().items():
        try:
            words = from_bytes(data)
            decode(words)
        except Damaged as fault:
            damaged += 1
            check((fault.code, fault.position) == refusal, f'{data.hex()}: {fault}, recorded is {refusal}')
        else:
            formed += 1
            check(refusal is None or refusal[0] >= 8, f'{data.hex()}: read, recorded is {refusal}')
            round_trips(words, data.hex())
    print(f'recorded cards: {formed} from words to text and to words, {damaged} found damaged as recorded')


# The cards of document 01

DOCUMENTED = {
    'R': '10000101 20000000 30000000 50000000 60000000 20000000 30000000 70000000',
    'M': '10000305 20000000 30000000 60000001 60000004 40000000 60000002 60000003 20000001 30000000 50000000 60000001 '
         '20000001 30000000 20000002 30000000 50000000 60000002 50000001 20000002 30000000 20000003 30000000 50000002 '
         '60000003 20000003 30000000 20000004 30000000 50000001 60000004 50000002 20000004 30000000 70000000',
    'E': '10000204 20000000 30000000 60000001 50000001 20000001 30000000 60000002 40000000 50000001 60000003 20000002 '
         '30000000 50000000 20000002 30000000 50000001 20000003 30000000 70000000'}


def documented_cards():
    for name, row in DOCUMENTED.items():
        words = [int(word, 16) for word in row.split()]
        check(encode(parse(example(name + '.card'))) == words, f'examples/{name}.card: its words')
        round_trips(words, f'card {name}')
    print('the cards R, M and E: as document 01 has them')


# Faults

FAULTY_TEXTS = [
    ('', 1, 'letters'), ('letters a', 1, 'no name'), ('letters', 1, 'at least one'), ('letters a a\nS -> a', 1, 'twice'),
    ('letters a B\nS -> a', 1, 'begins with no capital'), ('letters a not\nS -> a', 1, "'not' cannot be"),
    ('letters a\nnames S s', 2, 'capital'), ('letters a\nletters b', 2, 'second'), ('names S\nnames S', 2, 'second'),
    ('letters a\nS -> a\nnames S', 3, 'before the first rule'), ('S -> a\nletters a', 1, 'missing before'),
    ('letters a\nS a', 2, "'->' is missing"), ('letters a\n-> a', 2, 'without the name'), ('letters a\n| a', 2, 'continues'),
    ('letters a\na -> a', 2, 'cannot be defined'), ('letters a\nS ->', 2, 'body is missing'),
    ('letters a\nS -> a\n |\n | a', 3, 'body is missing'), ('letters a\nS -> a & not', 2, 'body is missing'),
    ('letters a\nS -> a\n  & not a\n  & a', 4, 'musts come first'), ('letters a\nS -> not a\n  & a', 3, 'musts come first'),
    ('letters a\nS -> not', 2, 'body is missing'), ('letters a\nS -> not a & not', 2, 'body is missing'),
    ('letters a\nS -> not not a', 2, 'does not belong'), ('letters a\nS -> not a empty', 2, 'stands alone'),
    ('letters a\nS -> a empty', 2, 'stands alone'), ('letters a\nS -> a not a', 2, 'does not belong'),
    ('letters a\nS -> a -> a', 2, 'does not belong'), ('letters a\nS -> a b', 2, "'b' is not among"),
    ('letters a\n\nS -> a\n   | A', 4, 'A has no rule'), ('letters a\nnames S\nS -> A', 3, "not in the line 'names'"),
    ('letters a\nnames S\nA -> a', 3, "not in the line 'names'"), ('letters a\nS -> a * a', 2, "'*'"),
    ('names ' + ' '.join(f'N{at}' for at in range(256)), 1, 'room for 255')]


FAULTY_WORDS = [
    ('', 4, 0), ('20000000', 4, 0), ('10010101 70000000', 4, 0), ('10000100 70000000', 4, 0), ('10000001 70000000', 4, 0),
    ('10000121 70000000', 4, 0), ('10001901 70000000', 4, 0), ('10000101', 5, 1), ('10000101 70000000 70000000', 5, 2),
    ('10000101 10000101', 5, 1), ('10000101 30000000', 5, 1), ('10000101 20000000 70000000', 5, 2),
    ('10000101 20000000 40000000', 5, 3), ('10000101 20000000 30000000 40000000 30000000', 5, 4),
    ('10000101 20000000 40000000 50000000 30000000 70000000', 5, 4), ('10000101 20000000 40000001 70000000', 5, 2),
    ('10000101 20000000 20000000', 5, 2), ('10000101 20000000 50000000', 5, 2), ('10000101 20000000 40000000 60000001', 6, 3),
    ('10000101 20000000 30000001', 5, 2), ('10000101 70000001', 5, 1), ('10000101 80000000', 5, 1), ('10000101 00000000', 5, 1),
    ('10000101 20000001', 6, 1), ('10000101 20000000 30000000 50000001', 6, 3), ('10000101 20000000 30000000 6fffffff', 6, 3),
    ('10000101 50000007', 5, 1), ('10000101 ' + '20000000 30000000 ' * 129 + '70000000', 7, 257),
    ('10000101 20000000 ' + '30000000 ' * 2046 + '70000000', 3, 0)]


def faults():
    for text, line, reason in FAULTY_TEXTS:
        try:
            parse(text)
            check(False, f'{text!r} is read')
        except TextError as error:
            check(error.line == line and reason in str(error), f'{text!r}: {error}')
    for row, code, position in FAULTY_WORDS:
        try:
            decode([int(word, 16) for word in row.split()])
            check(False, f'{row} is read')
        except Damaged as fault:
            check((fault.code, fault.position) == (code, position), f'{row}: {fault}')
    print(f'faults: {len(FAULTY_TEXTS)} texts, {len(FAULTY_WORDS)} rows of words')


def limits():
    """At each limit a card is written without a warning and read; one beyond, it is written with one."""
    names, letters = [f'N{at}' for at in range(33)], [f'l{at}' for at in range(25)]
    for size, text in (((32, 33), lambda n: 'letters a\nnames ' + ' '.join(names[:n])),
                       ((24, 25), lambda n: 'letters ' + ' '.join(letters[:n]) + '\nnames S'),
                       ((128, 129), lambda n: 'letters a\nS -> ' + ' | '.join(['a'] * n)),
                       ((2044, 2045), lambda n: 'letters a\nS -> ' + 'a ' * n)):
        at, beyond = (parse(text(n)) for n in size)
        check(not beyond_limits(at), f'a warning at the limit {size[0]}')
        round_trips(encode(at), f'the limit {size[0]}')
        check(len(beyond_limits(beyond)) == 1, f'no warning beyond the limit {size[0]}')
        try:
            decode(encode(beyond))
            check(False, f'{size[1]} is read')
        except Damaged as fault:
            check(f'({fault.code})' in beyond_limits(beyond)[0], f'{size[1]}: {fault}')
    print('limits: 32 names, 24 letters, 128 rules, 2,048 words')
