"""A log that is kept and grows, with marks to return to, in the names of a card: what the prompt of `tools/card rehearse` does.

Nothing here decides: every step and every judgement is a call of the proved library."""
import vinegarspit
from explain import counted
from logs import DIRECTION, WESTWARD, event_of, events, unknown_event


LONGEST = 60    # how much of a log is shown
LAST_NUMBER = 2 ** 32 - 1
HELP = """letters, as in "a a b" or aab, are added to the log
mark 3      notes the log's length under one of the marks 0 to 7
back 3      cuts the log where that mark was set, and clears the marks beyond
judge       judges the log as it stands
quit        leaves, as does exit or the end of input (Ctrl-D)
+ letters   adds letters that are called mark, back, judge, quit, exit or help
Events and places count from 0: place 0 is before the first event."""
LEAVING = ('quit', 'exit')


class Rehearsal:
    def __init__(self, card, lookahead=1):
        self.card = card
        self.events, self.state = vinegarspit.log_events(), vinegarspit.log_state()
        self.call, table = (vinegarspit.log_judge, vinegarspit.table()) if lookahead == 1 else (vinegarspit.log_judge2, vinegarspit.table2())
        self.lent = table, vinegarspit.memo()

    def log(self):
        """The events of the log as they are written."""
        letters = self.card.grammar.terminals
        return [letters[event % DIRECTION] + (WESTWARD if event >= DIRECTION else '') for event in self.events[:self.state[0]]]

    def marks(self):
        """The length that each mark notes which is set."""
        return {mark: length for mark, length in enumerate(self.state[1:]) if length != vinegarspit.NOT_SET}

    def told(self):
        """The log, or its end, and its marks."""
        log = self.log()
        text = ('' if all(len(letter) == 1 for letter in self.card.grammar.terminals) else ' ').join(log)
        shown = text if len(text) <= LONGEST else '...' + text[-LONGEST:]
        marks = ', '.join(f'{mark} at {length}' for mark, length in self.marks().items())
        return counted(len(log), 'event') + (f': {shown}' if log else '') + (f'; mark {marks}' if marks else '')

    def add(self, text):
        """Adds the events of a line, unless one of them is of no letter, up to the first that is refused."""
        grammar = self.card.grammar
        written = events(grammar, text)
        found = [event_of(grammar, event) for event in written]
        if None in found:
            at = found.index(None)
            return unknown_event(grammar, at, written[at]) + ': nothing is added; help lists what can be typed'
        for at, event in enumerate(found):
            answer = vinegarspit.log_add(self.events, self.state, event)
            if answer.number:
                left = counted(len(found) - at, 'event')
                return f'{answer}: the log is full, {left} cannot be added\n' + self.told()
        return self.told()

    def move(self, command, words):
        """Marks or returns."""
        last = vinegarspit.LOG_MARKS - 1
        if len(words) != 1 or not words[0].isdecimal():
            return f'{command} takes the number of a mark, 0 to {last}'
        call = vinegarspit.log_mark if command == 'mark' else vinegarspit.log_return
        mark = min(int(words[0]), LAST_NUMBER)
        answer = call(self.state, mark)
        reason = {0: None, 19: f'there is no mark {mark}, marks are 0 to {last}', 20: f'mark {mark} is not set'}[answer.number]
        return f'{answer}: {reason}' if reason else self.told()

    def done(self, command, words, line):
        """Does what a line says whose first word and others these are, and tells what has become of the log."""
        if command in ('mark', 'back'):
            return self.move(command, words)
        return HELP if command in ('help', 'judge', *LEAVING) else self.add(line.removeprefix('+'))

    def judge(self):
        return self.call(self.card.words, self.events, self.state, *self.lent)
