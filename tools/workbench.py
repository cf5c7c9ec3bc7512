"""What the page of `tools/card serve` shows of a card's text and a log, as values for JSON.

Verdicts, refusals, tables and stretches are those of the proved library; what is reported and drawn around them is outside the proved part, as all of tools/ is."""
import functools, re
from descent import Descent
from expectations import tried_text
from explain import claims, counted, string_of, unreached
from files import card_of
from judges import ONE, PLAIN, TWO, Judges
from logs import event_of, events, log_reader
from notation import RULE, TextError, read_text, rule_text
from picture import svg
import vinegarspit


MOST_BARS = 800    # in a picture


# The card

def lines_in(told):
    """The lines of the text that a refusal speaks of."""
    return sorted({int(number) for line in told for number in re.findall(r'\bline (\d+): ', line)})


def checked(judges, judge):
    told = [] if judges.takes(judge) else judges.refused(judge)
    return {'passed': not told, 'told': told, 'lines': lines_in(told)}


def table(judges):
    """The rules in each entry of the table for one event of lookahead: the library's, for a card that clashes what its rules claim; else nothing."""
    grammar, columns = judges.card.grammar, range(len(judges.card.grammar.terminals) + 1)
    names = range(len(grammar.nonterminals))
    if judges.takes(ONE):
        words = judges.tables[ONE][2 * len(names):]
        entries = [[words[name * len(columns) + column] for column in columns] for name in names]
        return [[[] if entry == vinegarspit.NO_RULE else [entry] for entry in row] for row in entries]
    if judges.checks[ONE].number != 9:
        return []
    claimed = list(enumerate(claims(grammar)))
    return [[[rule for rule, rows in claimed if grammar.rules[rule].head == name and string_of(grammar, column) in rows] for column in columns] for name in names]


def expected_told(log):
    return {'line': log.expected.line, 'log': log.expected.written, 'events': log.expected.log, 'remark': log.expected.remark, 'verdict': log.expected.verdict,
            'holds': log.holds, 'differing': log.differing()}


@functools.lru_cache(maxsize=4)    # while a log is typed, its card stays as it is
def card_told(source):
    """The judges of the card that a text says, and what is reported of it."""
    text = read_text(source)
    card, grammar = card_of(text), text.grammar
    judges = Judges(card)
    begins = [line for word, line in zip(card.words, card.lines) if word >> 28 == RULE]
    sizes = ((grammar.nonterminals, 'name'), (grammar.terminals, 'letter'), (grammar.rules, 'rule'))
    return judges, {
        'names': grammar.nonterminals, 'letters': grammar.terminals, 'size': ', '.join(counted(len(row), what) for row, what in sizes),
        'rules': [{'line': line, 'text': f'{grammar.nonterminals[rule.head]} -> {rule_text(grammar, rule)}'} for line, rule in zip(begins, grammar.rules)],
        'checks': {judge: checked(judges, judge) for judge in judges.checks}, 'warnings': unreached(card), 'table': table(judges),
        'expected': [expected_told(log) for log in tried_text('', text, judges).logs]}


# The log

def verdict_told(judges, judge, said, log):
    reason = judges.refused(judge, said.answer, log)[0] if said.verdict == 'refused' else ''
    return {'verdict': said.verdict, 'count': said.answer.count, 'far': said.answer.far, 'reason': reason}


def reading(judges, said, tokens, log):
    """How the log was read, by the first judge that descends and gives a verdict; else the track alone."""
    by = next((judge for judge in (ONE, TWO) if judge in said and said[judge].verdict != 'refused'), None)
    if by is None:
        return {'by': None, 'calls': [], 'picture': '\n'.join(svg(log)) if len(log) <= vinegarspit.LOG_EVENTS else None}
    descent, names = Descent(judges, by, tokens, said[by].left), judges.card.grammar.nonterminals
    return {'by': by, 'calls': [[names[name], place, end, descent.proved(name, place)] for (name, place), end in descent.ends.items()],
            'picture': '\n'.join(svg(log, descent, said[by].answer.far, MOST_BARS))}


def log_told(judges, text):
    """What every judge says of a log, and how it was read."""
    grammar = judges.card.grammar
    log, tokens = events(grammar, text), log_reader(grammar)(text)
    said = {judge: judges.told(judge, tokens) for judge in judges.taking()}
    stretches = None
    if PLAIN in said and said[PLAIN].verdict != 'refused':
        stretches = [[start, end, word] for (start, end), word in vinegarspit.span_words(said[PLAIN].left, len(log)).items()]
    return {'events': log, 'unknown': [place for place, event in enumerate(log) if event_of(grammar, event) is None], 'stretches': stretches,
            'verdicts': {judge: verdict_told(judges, judge, each, log) for judge, each in said.items()}, **reading(judges, said, tokens, log)}


def told(source, log):
    """All that the page shows."""
    try:
        judges, card = card_told(source.removeprefix('\ufeff'))
    except TextError as error:
        return {'fault': {'line': error.line, 'told': str(error)}}
    return {'fault': None, **card, 'log': log_told(judges, log)}
