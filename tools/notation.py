"""Grammars as text and as words: each is read and written here.

The text (its words are reserved: letters, names, empty, not):

    # some a's, then as many b's, but not one of each
    letters a b
    S -> A & not a b
    A -> a A b | empty
    accept aabb : 6 3    # a log, how it is to be judged, with count and far, and a remark
    reject ab

The words are those of document 01: a word's top four bits are its kind, the low 28 its payload."""
import difflib, re, sys
from array import array
from typing import NamedTuple, Optional
from logs import event_of, events, unknown_event


MAX_WORDS, MAX_NONTERMINALS, MAX_TERMINALS, MAX_RULES, MAX_INPUT = 2048, 32, 24, 128, 412
MAX_PLAIN_INPUT = 48    # of the plain judge
MAX_TERMINALS_OF_TWO = 7    # with two events of lookahead
MAX_LOGS = 4096    # of a length, of which the costliest is sought
HEADING_FIELD = 255    # what eight bits of the heading can say

HEADING, RULE, POSITIVE, NEGATIVE, TERMINAL, NONTERMINAL, END = range(1, 8)


class Symbol(NamedTuple):
    kind: int          # TERMINAL or NONTERMINAL
    number: int


class Rule(NamedTuple):
    head: int
    positives: tuple   # of bodies, each a tuple of symbols; there may be none
    negatives: tuple   # of bodies; where there is no positive one, at least one


class Grammar(NamedTuple):
    nonterminals: tuple    # their names, in the order of their numbers
    terminals: tuple
    rules: tuple


class Expectation(NamedTuple):
    """A log that a text says is accepted or rejected."""
    line: int
    verdict: str              # accepted or rejected
    log: tuple                # its events as they are written
    written: str              # the log as it stands in the text, spaces and all; empty for the empty one
    calls: Optional[tuple]    # count and far, where they are given
    remark: str


class Text(NamedTuple):
    grammar: Grammar
    lines: list               # the line of the text for each word of the grammar
    expected: tuple           # of expectations


class TextError(Exception):
    """A fault of the text, at a line counted from 1."""
    def __init__(self, line, reason):
        super().__init__(f'line {line}: {reason}')
        self.line = line


class Damaged(Exception):
    """A fault of the words, with document 01's number (3 to 7) and place."""
    def __init__(self, code, position, reason):
        where = f'word {position}: ' if code >= 4 else ''
        super().__init__(f'{where}{reason} (refused {code} {position})')
        self.code, self.position, self.reason = code, position, reason


# Text

RESERVED = {'letters', 'names', 'empty', 'not'}
TOKEN = re.compile(r"\s*(?:(->|[|&]|[A-Za-z0-9_][A-Za-z0-9_']*)|(\S))")
EXPECTED = re.compile(r"\s*(accept|reject)(?![A-Za-z0-9_'])([^:#]*)(:[^#]*)?(?:#(.*))?")    # at the beginning of a line, where no letter can stand
CALLS = re.compile(r':\s*(\d{1,9})\s+(\d{1,9})\s*')
LINE_END = re.compile(r'\r\n|\r|\n')


def lines_of(text):
    return LINE_END.split(text)


def tokens(line, number):
    """The tokens of a line, without its comment."""
    found = []
    for match in TOKEN.finditer(line.split('#', 1)[0]):
        if match[2]:
            raise TextError(number, f"the character '{match[2]}' means nothing here" + character_meant(match[2]))
        found.append(match[1])
    return found


def character_meant(character):
    """What may be meant by a character that means nothing."""
    if character in '\u2192\u21d2=:-':
        return ": a rule is written with '->'"
    if character in ',;.':
        return ': words are separated by spaces'
    if character in '!~\u00ac':
        return ": a must-not is written with 'not'"
    if character in '\u03b5\u03bb"\u2205':
        return ": the empty body is written 'empty'"
    if character.isalpha():
        return ": words are of A to Z, a to z, 0 to 9, _ and '"
    return ''


def is_word(token):
    return token not in ('->', '|', '&')


def split(line, items, separator):
    """The runs between the separators, at least one, each with the line where it is due."""
    runs = [(line, [])]
    for item in items:
        if item[0] == separator:
            runs.append((item[1], []))
        else:
            runs[-1][1].append(item)
    return runs


def statements(text):
    """The lists of (token, line), in which a line that begins with | or & continues the one before; and line and parts of what is expected of logs."""
    found, expected, continued = [], [], False
    for number, line in enumerate(lines_of(text), 1):
        parts = EXPECTED.fullmatch(line)
        if parts:
            expected.append((number, parts.groups()))
            continued = False
            continue
        items = [(token, number) for token in tokens(line, number)]
        if items and items[0][0] in ('|', '&'):
            if not continued:
                raise TextError(number, f"'{items[0][0]}' continues a rule, and there is none before it")
            found[-1].extend(items)
        elif items:
            found.append(items)
            continued = items[0][0] not in ('letters', 'names')
    return found, expected


def declared(items, what, allowed):
    """The words behind 'letters' or 'names'."""
    (_, line), *rest = items
    seen = []
    for token, line in rest:
        if not is_word(token) or token in RESERVED or not allowed(token):
            raise TextError(line, f"'{token}' cannot be a {what}: " + (
                'a name begins with a capital letter' if what == 'name' else 'a letter is a word that begins with no capital'))
        if token in seen:
            raise TextError(line, f'{what} {token} is declared twice')
        seen.append(token)
    if not seen:
        raise TextError(line, f'at least one {what} belongs here')
    if len(seen) > HEADING_FIELD:
        raise TextError(line, f'{len(seen)} {what}s: the heading has room for {HEADING_FIELD}')
    return seen


def is_nonterminal(token):
    return token[0].isupper()


def head_of(items):
    token, line = items[0]
    if not is_word(token):
        raise TextError(line, f"'{token}' without the name that the rule defines")
    if len(items) < 2 or items[1][0] != '->':
        raise TextError(line, f"after '{token}' an '->' is missing")
    if not is_nonterminal(token):
        raise TextError(line, f"'{token}' cannot be defined: a name begins with a capital letter")
    return token


def parse(text):
    """The grammar that a text says."""
    return read_text(text).grammar


def read_text(text):
    """All that a text says."""
    found, expected = statements(text)
    last = len(lines_of(text))
    terminals, nonterminals, definitions, heading = declarations(found, last)
    listed = nonterminals is not None
    if not listed:
        nonterminals = defined(definitions, last)
    resolve = resolver(nonterminals, terminals, listed)
    rules, lines = [], [heading]
    for _, items in definitions:
        head = resolve(*items[0]).number
        for line, run in split(items[1][1], items[2:], '|'):
            rules.append(parse_rule(head, line, run, resolve))
            lines += rule_lines(line, run)
    grammar = Grammar(tuple(nonterminals), tuple(terminals), tuple(rules))
    return Text(grammar, lines + [last], tuple(expectation(grammar, line, *parts) for line, parts in expected))


def declarations(found, last):
    """Letters and, where they are listed, names; each rule's name with its tokens; and the line of the letters."""
    terminals, nonterminals, definitions, heading = None, None, [], 1
    for items in found:
        token, line = items[0]
        if token in ('letters', 'names'):
            if definitions:
                raise TextError(line, f"a line '{token}' stands before the first rule")
            if (terminals if token == 'letters' else nonterminals) is not None:
                raise TextError(line, f"a second line '{token}'")
            if token == 'letters':
                terminals, heading = declared(items, 'letter', lambda word: not is_nonterminal(word)), line
            else:
                nonterminals = declared(items, 'name', is_nonterminal)
        else:
            if terminals is None:
                raise TextError(line, "a line 'letters' is missing before the first rule")
            definitions.append((head_of(items), items))
    if terminals is None:
        raise TextError(last, "the line 'letters' is missing")
    return terminals, nonterminals, definitions, heading


def defined(definitions, last):
    """The names in the order of their first rules."""
    names = list(dict.fromkeys(head for head, _ in definitions))
    if not names:
        raise TextError(last, "no name: write a rule, or a line 'names'")
    if len(names) > HEADING_FIELD:
        raise TextError(last, f'{len(names)} names: the heading has room for {HEADING_FIELD}')
    return names


def expectation(grammar, line, verb, text, calls, remark):
    """What a line expects of a log, from its parts."""
    written = ' '.join(text.split())
    if not written:
        raise TextError(line, f"behind '{verb}' a log is missing; write 'empty' for the empty one")
    written = '' if written == 'empty' else written
    log = tuple(events(grammar, written))
    for at, event in enumerate(log):
        if event_of(grammar, event) is None:
            raise TextError(line, unknown_event(grammar, at, event))
    numbers = calls and CALLS.fullmatch(calls)
    if calls and not numbers:
        raise TextError(line, "behind ':' stand count and far, two numbers")
    return Expectation(line, verb + 'ed', log, written, tuple(map(int, numbers.groups())) if numbers else None, (remark or '').strip())


def resolver(nonterminals, terminals, listed):
    """From a word of the text and its line to the symbol."""
    symbols = {name: Symbol(NONTERMINAL, at) for at, name in enumerate(nonterminals)}
    symbols.update((name, Symbol(TERMINAL, at)) for at, name in enumerate(terminals))

    def meant(token):
        near = difflib.get_close_matches(token, [*symbols, 'empty', 'not'], n=1, cutoff=0.66)
        return f'; is {near[0]} meant?' if near else ''

    def resolve(token, line):
        if token in symbols:
            return symbols[token]
        if token == 'empty':
            raise TextError(line, "'empty' stands alone in its body")
        if token in RESERVED or not is_word(token):
            raise TextError(line, f"'{token}' does not belong inside a body")
        if not is_nonterminal(token):
            raise TextError(line, f"'{token}' is not among the letters" + meant(token))
        if listed:
            raise TextError(line, f"{token} is not in the line 'names'" + meant(token))
        raise TextError(line, f'{token} has no rule' + meant(token))
    return resolve


def parse_rule(head, line, items, resolve):
    """One rule: its conjuncts, separated by &."""
    positives, negatives = [], []
    for line, conjunct in split(line, items, '&'):
        negative = bool(conjunct) and conjunct[0][0] == 'not'
        body = parse_body(line, conjunct[1:] if negative else conjunct, resolve)
        if negatives and not negative:
            raise TextError(line, 'a must behind a must-not: the musts come first')
        (negatives if negative else positives).append(body)
    return Rule(head, tuple(positives), tuple(negatives))


def rule_lines(line, items):
    """The line of each word of a rule: of its beginning, then of each conjunct and the symbols in it."""
    lines = [line]
    for line, conjunct in split(line, items, '&'):
        lines += [line] + [at for token, at in conjunct if token not in ('not', 'empty')]
    return lines


def parse_body(line, items, resolve):
    if not items:
        raise TextError(line, "a body is missing; write 'empty' for the empty one")
    if [token for token, _ in items] == ['empty']:
        return ()
    return tuple(resolve(*item) for item in items)


def body_text(grammar, body):
    return ' '.join((grammar.terminals if s.kind == TERMINAL else grammar.nonterminals)[s.number] for s in body) or 'empty'


def rule_text(grammar, rule):
    """A rule's right side."""
    return ' & '.join([body_text(grammar, body) for body in rule.positives]
                      + ['not ' + body_text(grammar, body) for body in rule.negatives])


def expectation_text(expected):
    """The line of a text that expects this."""
    calls = ' : {} {}'.format(*expected.calls) if expected.calls else ''
    remark = f'    # {expected.remark}' if expected.remark else ''
    return f'{expected.verdict.removesuffix("ed")} {expected.written or "empty"}{calls}{remark}'


def write(grammar, expected=()):
    """A text that says the grammar, and what is expected of logs."""
    lines = ['letters ' + ' '.join(grammar.terminals), 'names ' + ' '.join(grammar.nonterminals)]
    before = None
    for rule in grammar.rules:
        head = grammar.nonterminals[rule.head]
        # a name's neighbouring rules stand below one another
        opening = f'{head} ->' if rule.head != before else ' ' * (len(head) + 1) + ' |'
        lines.append(f'{opening} {rule_text(grammar, rule)}')
        before = rule.head
    lines += [expectation_text(each) for each in expected]
    return '\n'.join(lines) + '\n'


def beyond_limits(grammar):
    """What the check will refuse the grammar for, by its size alone."""
    sizes = [(len(grammar.nonterminals), MAX_NONTERMINALS, 'names', 4), (len(grammar.terminals), MAX_TERMINALS, 'letters', 4),
             (len(grammar.rules), MAX_RULES, 'rules', 7), (len(encode(grammar)), MAX_WORDS, 'words', 3)]
    return [f'{size} {what}, and the limit is {limit}: the check refuses it ({code})'
            for size, limit, what, code in sizes if size > limit]


# Words

def word(kind, payload=0):
    return kind << 28 | payload


def encode(grammar):
    words = [word(HEADING, len(grammar.nonterminals) | len(grammar.terminals) << 8)]
    for rule in grammar.rules:
        words.append(word(RULE, rule.head))
        for kind, bodies in ((POSITIVE, rule.positives), (NEGATIVE, rule.negatives)):
            for body in bodies:
                words.append(word(kind))
                words += [word(symbol.kind, symbol.number) for symbol in body]
    return words + [word(END)]


def to_bytes(words):
    return in_file_order(array('I', words)).tobytes()


def from_bytes(data):
    if len(data) % 4:
        raise Damaged(3, 0, f'{len(data)} bytes are not a row of 4-byte words')
    return in_file_order(array('I', data)).tolist()


def in_file_order(words):
    """Words as a file has them, low byte first, from those of this machine, or the other way round."""
    if sys.byteorder == 'big':
        words.byteswap()
    return words


KIND_NAMES = {HEADING: 'a heading', RULE: 'a rule', POSITIVE: 'a must', NEGATIVE: 'a must-not',
              TERMINAL: 'a letter', NONTERMINAL: 'a name', END: 'the end'}

# which kinds may stand behind which, where the words between are symbols
ALLOWED = {HEADING: {RULE, END}, RULE: {POSITIVE, NEGATIVE}, POSITIVE: {RULE, POSITIVE, NEGATIVE, TERMINAL, NONTERMINAL, END},
           NEGATIVE: {RULE, NEGATIVE, TERMINAL, NONTERMINAL, END}, END: set()}
STANDING = {HEADING: 'before the first rule', RULE: 'where a must or a must-not has to begin', POSITIVE: 'in a must',
            NEGATIVE: 'behind a must-not', END: 'behind the end'}


def heading_sizes(words):
    if not words:
        raise Damaged(4, 0, 'no words')
    kind, payload = words[0] >> 28, words[0] & 0xfffffff
    nonterminals, terminals = payload & 255, payload >> 8 & 255
    if kind != HEADING:
        raise Damaged(4, 0, 'the first word is not a heading')
    if payload >> 16:
        raise Damaged(4, 0, 'bits 16 to 27 of the heading are not zero')
    for size, limit, what in ((nonterminals, MAX_NONTERMINALS, 'names'), (terminals, MAX_TERMINALS, 'letters')):
        if not 1 <= size <= limit:
            raise Damaged(4, 0, f'{size} {what}, not 1 to {limit}')
    return nonterminals, terminals


def scan(words):
    """Yields kind and payload of each word, up to the first fault in document 01's order, which it raises."""
    if len(words) > MAX_WORDS:
        raise Damaged(3, 0, f'{len(words)} words, and the limit is {MAX_WORDS}')
    nonterminals, terminals = heading_sizes(words)
    yield HEADING, words[0] & 0xfffffff
    state, rules = HEADING, 0
    for at, w in enumerate(words[1:], 1):
        kind, payload = w >> 28, w & 0xfffffff
        if kind not in KIND_NAMES:
            raise Damaged(5, at, f'there is no kind {kind}')
        if kind not in ALLOWED[state]:
            raise Damaged(5, at, f'{KIND_NAMES[kind]} {STANDING[state]}')
        if kind in (POSITIVE, NEGATIVE, END) and payload:
            raise Damaged(5, at, f'{KIND_NAMES[kind]} with payload {payload}, not 0')
        if kind in (RULE, NONTERMINAL) and payload >= nonterminals:
            raise Damaged(6, at, f'name {payload}, and the heading has {nonterminals}')
        if kind == TERMINAL and payload >= terminals:
            raise Damaged(6, at, f'letter {payload}, and the heading has {terminals}')
        rules += kind == RULE
        if rules > MAX_RULES:
            raise Damaged(7, at, f'rule {rules - 1}: more than {MAX_RULES} rules')
        yield kind, payload
        state = state if kind in (TERMINAL, NONTERMINAL) else kind
    if state != END:
        raise Damaged(5, len(words), 'the end is missing')


def named(heading):
    """Made-up names for what a heading's payload declares."""
    return tuple(f'N{at}' for at in range(heading & 255)), tuple(chr(ord('a') + at) for at in range(heading >> 8))


def decode(words):
    """The grammar of the words, its names made up."""
    rules, bodies = [], []
    for kind, payload in scan(words):
        if kind == HEADING:
            nonterminals, terminals = named(payload)
        elif kind == RULE:
            rules.append((payload, [], []))
        elif kind in (POSITIVE, NEGATIVE):
            bodies = rules[-1][kind - POSITIVE + 1]
            bodies.append([])
        elif kind in (TERMINAL, NONTERMINAL):
            bodies[-1].append(Symbol(kind, payload))
    return Grammar(nonterminals, terminals, tuple(Rule(head, tuple(map(tuple, ps)), tuple(map(tuple, ns))) for head, ps, ns in rules))
