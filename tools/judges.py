"""The judges of the proved library on one card, in one process: which of them take it, and what each says of a log.

Nothing here decides: every check and every verdict is a call of the library. Where several judges give a verdict, it is proved to be the same."""
from array import array
from typing import NamedTuple
import vinegarspit
from logs import DIRECTION
from notation import MAX_INPUT, MAX_PLAIN_INPUT, MAX_TERMINALS_OF_TWO
from explain import column_of, refusal


ONE, TWO, PLAIN = 'one event', 'two events', 'plain'    # by one event of lookahead, by two, and plainly
COLUMNS_OF_TWO = 1 + MAX_TERMINALS_OF_TWO + MAX_TERMINALS_OF_TWO ** 2    # of a row of the table, however few letters there are


class Told(NamedTuple):
    """What a judge says of a log, and the memory that it leaves: the memo table, or the words of the stretches."""
    answer: vinegarspit.Answer
    left: array

    @property
    def verdict(self):
        return self.answer.verdict


class Judges:
    def __init__(self, card):
        self.card = card
        self.tables = {ONE: vinegarspit.table(), TWO: vinegarspit.table2()}
        self.lent = {ONE: vinegarspit.memo(), TWO: vinegarspit.memo(), PLAIN: vinegarspit.spans()}
        self.answers = {ONE: vinegarspit.of_log('judge', card.words, self.tables[ONE], self.lent[ONE]),
                        TWO: vinegarspit.of_log('judge2', card.words, self.tables[TWO], self.lent[TWO]),
                        PLAIN: vinegarspit.of_log('judge_plain', card.words, self.lent[PLAIN])}
        self.checks = {ONE: vinegarspit.check(card.words, self.tables[ONE]), TWO: vinegarspit.check2(card.words, self.tables[TWO]),
                       PLAIN: self.answers[PLAIN](b'')}    # it has no check of its own

    def takes(self, judge):
        return self.checks[judge].verdict != 'refused'

    def taking(self):
        """The judges that take the card."""
        return [judge for judge in self.checks if self.takes(judge)]

    def told(self, judge, tokens):
        """What a judge says of a log, with a copy of the memory that it leaves."""
        return Told(self.answers[judge](tokens), self.lent[judge][:])

    def verdicts(self, tokens):
        """The answer of each judge that takes the card and a log of that length."""
        return {judge: self.answers[judge](tokens) for judge in self.taking() if len(tokens) <= longest(judge)}

    def refused(self, judge, answer=None, log=()):
        """The lines that tell a refusal, of the check where none is given; the log is as it was written."""
        answer = answer or self.checks[judge]
        reason, *further = refusal(self.card, answer.number, answer.place, log, longest(judge), lookahead(judge))
        return [f'{answer}: {reason}'] + further

    def follow(self, judge, name):
        """A name's follow set, as a number."""
        return self.tables[judge][2 * name + 1]

    def chosen(self, judge, name, tokens, place):
        """The rule that the descent chooses for a name at a place of a log, or none: the entry of the table for what comes next."""
        grammar, k = self.card.grammar, lookahead(judge)
        row = len(grammar.terminals) + 1 if k == 1 else COLUMNS_OF_TWO
        column = column_of(grammar, [token % DIRECTION for token in tokens[place:place + k]], k)
        entry = self.tables[judge][2 * len(grammar.nonterminals) + name * row + column]
        return None if entry == vinegarspit.NO_RULE else entry


def lookahead(judge):
    return 2 if judge == TWO else 1


def longest(judge):
    return MAX_PLAIN_INPUT if judge == PLAIN else MAX_INPUT
