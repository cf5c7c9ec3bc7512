"""Cards held to the logs that their texts expect to be accepted or rejected: what `tools/card test` does.

Every log is judged by every judge of the library that takes the card and the log. Count and far, where a text has them, are those of judging with one
event of lookahead, or where that refuses the card, with two."""
import hashlib, json, os
from typing import NamedTuple
from explain import counted
from files import card_of, decoded, is_words
from judges import ONE, PLAIN, TWO, Judges
from logs import log_reader
from notation import Expectation, TextError, read_text, to_bytes


class Tried(NamedTuple):
    """An expected log, and the answer of each judge that takes it."""
    expected: Expectation
    answers: dict

    @property
    def holds(self):
        return not self.differing()

    def differing(self):
        """What is not as it should be, a line for each."""
        return [*self.verdicts_differing(), *self.judges_differing(), *self.calls_differing()]

    def verdicts_differing(self):
        log, verdict = self.expected.written or 'empty', self.expected.verdict
        if not self.answers:
            yield f'{log} is to be {verdict}, and no judge that takes the card takes a log of {counted(len(self.expected.log), "event")}'
        wrong = {judge: answer for judge, answer in self.answers.items() if answer.verdict != verdict}
        if wrong:
            yield f'{log} is to be {verdict}, and is {" and ".join(sorted({answer.verdict for answer in wrong.values()}))} ({", ".join(wrong)})'

    def judges_differing(self):
        """It is proved that there are none."""
        if len({answer.verdict for answer in self.answers.values()}) > 1:
            yield f'{self.expected.written or "empty"}: the judges differ: ' + ', '.join(f'{judge} {answer.verdict}' for judge, answer in self.answers.items())

    def calls_differing(self):
        judge = next((judge for judge in (ONE, TWO) if judge in self.answers), None)
        if self.expected.calls is None or not self.answers:
            return
        log, (count, far) = self.expected.written or 'empty', self.expected.calls
        if judge is None:
            yield f'{log} is to have count {count} and far {far}, and only the plain judge takes the card, which has neither'
        elif (count, far) != (self.answers[judge].count, self.answers[judge].far):
            yield f'{log} is to have count {count} and far {far}, and has {self.answers[judge].count} and {self.answers[judge].far} ({judge})'

    def json(self):
        line, verdict, _, written, calls, remark = self.expected
        return {'line': line, 'log': written, 'expected': verdict, 'calls': calls, 'remark': remark, 'holds': self.holds, 'differing': self.differing(),
                'answers': {judge: answer.verdict if judge == PLAIN else str(answer) for judge, answer in self.answers.items()}}


class CardTried(NamedTuple):
    path: str
    faults: list    # the lines that tell why nothing can be tried
    checks: dict    # what the check of each judge answers
    logs: list      # of what was tried
    words: str      # a fingerprint of the words: cards with the same are the same card in every box

    @property
    def wrong(self):
        return [log for log in self.logs if not log.holds]

    @property
    def holds(self):
        return not self.faults and not self.wrong

    def lines(self):
        """A line for the card, and below it what is not as expected."""
        if self.faults:
            return [f'{self.path}: {self.faults[0]}'] + ['  ' + line for line in self.faults[1:]]
        by = ', '.join(judge for judge, answer in self.checks.items() if answer.verdict != 'refused')
        count = counted(len(self.logs), 'log')
        told = 'no expected logs' if not self.logs else f'{len(self.wrong)} of {count} not as expected' if self.wrong else f'{count} as expected'
        return [f'{self.path}: {told} ({by})'] + [f'  line {log.expected.line}: {line}' for log in self.wrong for line in log.differing()]

    def json(self):
        return json.dumps({'card': self.path, 'holds': self.holds, 'faults': self.faults, 'words': self.words, 'logs': [log.json() for log in self.logs],
                           'judges': {judge: str(answer) if answer.verdict == 'refused' else 'passed' for judge, answer in self.checks.items()}}, ensure_ascii=False)


def faulty(path, *faults):
    return CardTried(path, list(faults), {}, [], '')


def tried_text(path, text, judges=None):
    """What is expected in a text, as read_text gives it, by the judges of its card."""
    judges, bytes_of = judges or Judges(card_of(text)), log_reader(text.grammar)
    logs = [Tried(expected, judges.verdicts(bytes_of(expected.written))) for expected in text.expected]
    faults = [] if judges.taking() else judges.refused(PLAIN)
    return CardTried(path, faults, judges.checks, logs, hashlib.sha256(to_bytes(judges.card.words)).hexdigest()[:16])


def tried(path):
    """What is expected in a file."""
    try:
        with open(path, 'rb') as file:
            data = file.read()
        if is_words(data):
            return faulty(path, 'the words of a card, which expect nothing: its text is wanted')
        return tried_text(path, read_text(decoded(data)))
    except OSError as error:
        return faulty(path, error.strerror)
    except (TextError, ValueError) as error:
        return faulty(path, str(error))


def cards(paths):
    """The files, and those of folders that are called *.card, however deep."""
    for path in paths:
        if not os.path.isdir(path):
            yield path
            continue
        for folder, folders, files in os.walk(path):
            folders.sort()
            yield from (os.path.join(folder, file) for file in sorted(files) if file.endswith('.card'))


def summary(done):
    logs, wrong = sum(len(each.logs) for each in done), sum(len(each.wrong) for each in done)
    faults, silent = sum(bool(each.faults) for each in done), sum(not each.logs and not each.faults for each in done)
    parts = [f'{wrong} not as expected' if wrong else 'all as expected'] * bool(logs)
    parts += [f'{counted(faults, "card")} faulty or refused'] * bool(faults) + [f'{counted(silent, "card")} without expected logs'] * bool(silent)
    return f'{counted(len(done), "card")}, {counted(logs, "log")}: ' + (', '.join(parts) or 'nothing to test')
