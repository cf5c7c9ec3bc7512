"""The proved library for scripts: a function for each call that include/vinegarspit.h declares.

    from vinegarspit import judge, judge_for, usage_totals, table, memo, usage, totals
    lent = table(), memo()
    answer = judge(words, b'\\0', *lent)     # for card R: Answer(verdict='accepted', number=0, place=0, count=2, far=1)
    lent[1][:2]                              # array('H', [1, 1])
    day, sums = usage(), totals()
    judge_for(3, 10, 100, words, b'\\0', *lent, day)    # for client 3, with a share of 10 called pairs and a limit of 100 for all
    day[12:16]                               # array('I', [1, 0, 1, 2]): its calls, refusals, acceptances, called pairs
    usage_totals(day, sums)                  # sums: array('Q', [1, 0, 1, 2])

A card is a row of words and a log a row of bytes. Lent memory, or a record, is an array that the call writes into: array('I') for
words of 32 bits, 'Q' for those of 64, 'H' for entries of 16. What the header states stands there alone: its limits and codes are attributes here
(TABLE_WORDS, NO_RULE, ...), and the types of arguments and the parts of an answer are read from it. The library is made by
tools/build_library when it is first called, and NoLibrary is raised where that fails. Judging the deepest cards takes
2,000 KiB of stack, which the main thread has."""
import ctypes, functools, os, re, subprocess
from array import array
from typing import NamedTuple
from places import HEADER, HERE, IN_REPOSITORY, LIBRARY


TYPES = {'uint8_t': ('B', ctypes.c_uint8), 'uint16_t': ('H', ctypes.c_uint16), 'uint32_t': ('I', ctypes.c_uint32),
         'uint64_t': ('Q', ctypes.c_uint64), 'size_t': (None, ctypes.c_size_t)}


# The header

class Parameter(NamedTuple):
    name: str
    type: str
    row: bool        # a pointer; the number of its elements is the parameter behind it, unless it is stated or there is none: then it is 1
    written: bool    # lent memory, or a record
    length: int      # the number of elements of a row that always has as many, else 0


@functools.cache
def header():
    """The header without its comments, and with the lengths of rows as numbers."""
    with open(HEADER) as file:
        text = re.sub(r'/\*.*?\*/', '', file.read(), flags=re.DOTALL)
    lengths = dict(re.findall(r'\b(VINEGARSPIT_\w+) = (\d+)', text))
    return re.sub(r'\[(VINEGARSPIT_\w+)\]', lambda found: f'[{lengths[found[1]]}]', text)


@functools.cache
def constants():
    """The header's limits and codes, by their names without the prefix."""
    return {name: int(value) for name, value in
            re.findall(r'\bVINEGARSPIT_(\w+) (?:= |UINT\d+_C\()(\d+)', header())}


@functools.cache
def calls():
    """The parameters of each call; the length of a row goes with it."""
    found = {}
    for name, text in re.findall(r'\b(?:uint64_t|void) vinegarspit_(\w+)\(([^)]*)\);', header()):
        parameters = [re.fullmatch(r'\s*(const )?(\w+) (\*?)(\w+)(?:\[(\d+)\])?\s*', part).groups() for part in text.split(',')]
        names = [each for *_, each, _ in parameters]
        found[name] = [Parameter(each, kind, bool(star or length), bool(star or length) and not const,
                                 int(length or bool(star) and each + '_len' not in names))
                       for const, kind, star, each, length in parameters if not each.endswith('_len')]
    return found


@functools.cache
def answering():
    """The calls that give an answer; the others only write."""
    return set(re.findall(r'\buint64_t vinegarspit_(\w+)\([^)]*\);', header()))


@functools.cache
def parts():
    """Where each part of an answer stands: its lowest bit, and its greatest value."""
    return {name: (int(shift or 0), int(mask or -1)) for name, shift, mask in
            re.findall(r'vinegarspit_(\w+)\(uint64_t answer\) \{ return \(unsigned\)\(answer(?: >> (\d+))?(?: & (\d+))?\)', header())}


def __getattr__(name):
    try:
        return constants()[name]
    except KeyError:
        raise AttributeError(name) from None


# Answers

class Answer(NamedTuple):
    verdict: str     # refused, passed, rejected or accepted
    number: int
    place: int
    count: int
    far: int

    @functools.lru_cache(maxsize=4096)
    def __str__(self):
        """As the programs print it."""
        return {'refused': f'refused {self.number} {self.place}', 'passed': 'passed'}.get(self.verdict, f'{self.verdict} {self.count} {self.far}')


@functools.lru_cache(maxsize=4096)
def unpacked(number):
    verdict, *rest = (number >> shift & mask for shift, mask in (parts()[name] for name in Answer._fields))
    return Answer({constants()[name.upper()]: name for name in ('refused', 'passed', 'rejected', 'accepted')}[verdict], *rest)


# Calls

class NoLibrary(Exception):
    """The library is not there and cannot be made, or cannot be loaded."""


@functools.cache
def library():
    if IN_REPOSITORY and subprocess.run([os.path.join(HERE, 'build_library')], stdout=subprocess.DEVNULL).returncode:
        raise NoLibrary('the library cannot be made: tools/build_library failed')
    try:
        return ctypes.CDLL(LIBRARY)
    except OSError as error:
        raise NoLibrary(f'the library cannot be loaded: {error}') from None


def row_of(parameter, argument):
    """A row for C, its elements and their number: lent memory itself, and a copy of what is only read."""
    code, element = TYPES[parameter.type]
    if not parameter.written:
        argument = array(code, list(argument))
    if not isinstance(argument, array) or argument.typecode != code:
        raise TypeError(f"{parameter.name} has to be an array('{code}')")
    if parameter.length and len(argument) != parameter.length:
        raise ValueError(f'{parameter.name} has to be of {parameter.length} elements')
    elements = (element * len(argument)).from_buffer(argument) if argument else (element * 1)()    # no pointer may be null
    return [elements] if parameter.length else [elements, ctypes.c_size_t(len(argument))]


def number_of(parameter, argument):
    """A number for C, which has to be within its width: ctypes would cut it."""
    element = TYPES[parameter.type][1]
    if not 0 <= argument < 1 << 8 * ctypes.sizeof(element):
        raise OverflowError(f'{parameter.name} has to be a number of {8 * ctypes.sizeof(element)} bits')
    return element(argument)


def call(name, *arguments):
    """Calls vinegarspit_NAME; each row is passed with its length, unless that is always the same, each number as it is."""
    parameters = calls()[name]
    if len(arguments) != len(parameters):
        raise TypeError(f'{name} takes {len(parameters)} arguments')
    written = [id(argument) for parameter, argument in zip(parameters, arguments) if parameter.written]
    if len(written) != len(set(written)):
        raise ValueError('memory that is lent twice')
    passed = []
    for parameter, argument in zip(parameters, arguments):
        if parameter.row:
            passed += row_of(parameter, argument)
        else:
            passed.append(number_of(parameter, argument))
    function = getattr(library(), 'vinegarspit_' + name)
    function.restype = ctypes.c_uint64 if name in answering() else None
    answer = function(*passed)
    return unpacked(answer) if name in answering() else None


def of_log(name, card, *lent):
    """The call vinegarspit_NAME of a card, a log and lent memory, as a function of the log's bytes alone: for many logs of one card, as the rows are laid
    out once. The memory holds what the last of these calls left."""
    parameters = calls()[name]
    before = row_of(parameters[0], card)
    after = [part for parameter, memory in zip(parameters[2:], lent, strict=True) for part in row_of(parameter, memory)]
    function = getattr(library(), 'vinegarspit_' + name)
    function.restype = ctypes.c_uint64
    return lambda log: unpacked(function(*before, bytes(log), ctypes.c_size_t(len(log)), *after))


def check(card, table):
    """Checks a card and fills the table."""
    return call('check', card, table)


def judge(card, log, table, memo):
    """Judges a log by a card and fills the table and the memo table."""
    return call('judge', card, log, table, memo)


def judge_for(client, share, limit, card, log, table, memo, usage):
    """Judges a log for a client, unless share and limit are reached, and counts the answer in the record: an array with calls, refusals,
    acceptances and called pairs of each client."""
    return call('judge_for', client, share, limit, card, log, table, memo, usage)


def usage_totals(usage, totals):
    """Adds up the clients' counters in the record."""
    return call('usage_totals', usage, totals)


def judge_plain(card, log, spans):
    """Judges a log by a card plainly and fills the words of the stretches."""
    return call('judge_plain', card, log, spans)


def tree(card, log, table, memo, tree, written):
    """Judges a log, and writes the parse tree of an accepted one into tree and the number of its words into written[0]."""
    return call('tree', card, log, table, memo, tree, written)


def check2(card, table2):
    """Checks a card with two events of lookahead and fills the table for that."""
    return call('check2', card, table2)


def judge2(card, log, table2, memo):
    """Judges a log by a card with two events of lookahead and fills the table for that and the memo table."""
    return call('judge2', card, log, table2, memo)


def log_add(events, state, event):
    """Adds an event to a kept log."""
    return call('log_add', events, state, event)


def log_mark(state, mark):
    """Has a mark of a kept log note its length."""
    return call('log_mark', state, mark)


def log_return(state, mark):
    """Cuts a kept log where a mark was set."""
    return call('log_return', state, mark)


def log_judge(card, events, state, table, memo):
    """Judges a kept log by a card and fills the table and the memo table."""
    return call('log_judge', card, events, state, table, memo)


def log_judge2(card, events, state, table2, memo):
    """Judges a kept log by a card with two events of lookahead and fills the table for that and the memo table."""
    return call('log_judge2', card, events, state, table2, memo)


def costliest(card, length, log, table, memo):
    """Writes the log of that length with the greatest count into log, judges it, and fills the table and the memo table."""
    return call('costliest', card, length, log, table, memo)


class Vertex(NamedTuple):
    rule: int
    start: int
    end: int


def vertex(word):
    """The vertex that a word of a tree is."""
    return Vertex(word & 127, word >> 7 & 511, word >> 16 & 511)


# Memory to lend, as much as each call asks for, the empty record, and room for totals

def table(fill=0):
    return array('I', [fill]) * constants()['TABLE_WORDS']


def table2(fill=0):
    return array('Q', [fill]) * constants()['TABLE2_WORDS']


def memo(fill=0):
    return array('H', [fill]) * constants()['MEMO_ENTRIES']


def tree_words(fill=0):
    return array('I', [fill]) * constants()['MEMO_ENTRIES']


def usage():
    return array('I', [0]) * next(parameter.length for parameter in calls()['judge_for'] if parameter.name == 'usage')


def totals():
    return array('Q', [0]) * next(parameter.length for parameter in calls()['usage_totals'] if parameter.name == 'totals')


def spans(fill=0):
    return array('I', [fill]) * constants()['SPAN_WORDS']


# A kept log: memory for its events, and the state of an empty one without marks

def log_events(fill=0):
    return array('B', [fill]) * constants()['LOG_EVENTS']


def log_state():
    return array('H', [0] + [constants()['NOT_SET']] * constants()['LOG_MARKS'])


# What lent memory and a record hold

def usage_of(usage, client):
    """A client's counters in the record."""
    return usage[4 * client:4 * client + 4]


def called_pairs(memo, names, length):
    """Name, place and end of each called pair in a memo table for a log of so many events; the end is none where the call failed."""
    entries = ((divmod(at, length + 1), end) for at, end in enumerate(memo[:names * (length + 1)]) if end != constants()['NOT_CALLED'])
    return [(name, place, None if end == constants()['FAILED'] else end) for (name, place), end in entries]


def span_words(spans, length):
    """The words of the stretches of a log of so many events, by their start and their end."""
    stretches = [(start, end) for start in range(length + 1) for end in range(start, length + 1)]
    return dict(zip(stretches, spans))
