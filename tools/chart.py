"""Where the parts of a chart stand that shows how a log was read: bars over the stretches of the log, and captions.

A bar is a name that was called, or a letter, over its stretch. Below a call stand the musts of its rule, each in a lane of its own with all that is below
it, then the must-nots; a rule of more than one must has a caption over each lane, which tells how the descent came out there and what the rule has where it
stopped. Nothing here says why a log is as it is."""
from typing import NamedTuple, Optional
from descent import Step
from explain import counted
from notation import NONTERMINAL, TERMINAL, Symbol, body_text, rule_text


TOP, BAR, GAP, CAPTION = 6, 24, 3, 16    # heights: above all, of a bar, below it, of a caption
MUST, MUST_NOT, FAILED, NOT_RUN = 'must', 'must not', 'failed', 'not run'    # how a part looks


class Bar(NamedTuple):
    label: str
    first: int        # its columns
    last: int
    top: int
    look: str         # MUST, MUST_NOT or FAILED
    hue: int          # the must that it is of
    hollow: bool      # its end does not prove that the stretch belongs to the name
    again: bool       # what is below it stands elsewhere
    title: str        # told where it is pointed at

    @property
    def is_empty(self):
        """Whether it stands over a place, and over no event."""
        return self.first == self.last and self.first % 2 == 0


class Caption(NamedTuple):
    text: str
    holds: Optional[bool]    # none where it was not run
    first: int
    last: int
    top: int
    below: int               # the bottom of the bar that it hangs on
    look: str
    hue: int


class Lane(NamedTuple):
    """A body of a call's rule, or the first call of all as a step of no body."""
    over: Optional[Step]     # the call
    negative: bool
    body: tuple
    run: object              # none where it was not run
    steps: tuple
    above: int               # the bottom of the call's bar
    hue: int
    forbidden: bool          # it is a must-not, or below one


def columns(start, end):
    """The columns of a stretch: place p is column 2p, event p is column 2p + 1."""
    return (2 * start, 2 * start) if start == end else (2 * start + 1, 2 * end - 1)


# In words

def comes(log, place):
    return f'{log[place]} comes' if place < len(log) else 'the log ends'


def outcome(grammar, log, run):
    """How a must or a must-not came out: where it ended, or where it stopped and what the rule has there."""
    if run is None:
        return 'not run'
    if run.end is None:
        last = run.steps[-1]
        symbol = body_text(grammar, [last.symbol])
        return f'stops at {last.start}: ' + (f'the rule has {symbol} here, {comes(log, last.start)}' if last.symbol.kind == TERMINAL else f'{symbol} fails here')
    if run.holds:
        return f'ends at {run.end}, not at {run.agreed}' if run.negative else ''
    return f'ends at {run.end} too' if run.negative else f'ends at {run.end}, not at {run.agreed}'


def titles(descent, log, step):
    """The lines that are reported of a bar where it is pointed at."""
    label, ended = body_text(descent.grammar, [step.symbol]), step.end is not None
    if step.symbol.kind == TERMINAL:
        return [f'{label}: {step.start} to {step.end}' if ended else f'the rule has {label} at {step.start}, {comes(log, step.start)}']
    rule = descent.call(step.symbol.number, step.start).rule
    told = [f'{label}: {step.start} to {step.end}' if ended else f'{label}: failed at {step.start}',
            f'no rule of {label} is for what comes next' if rule is None else f'{label} -> {rule_text(descent.grammar, descent.grammar.rules[rule])}']
    if ended and not descent.proved(step.symbol.number, step.start):
        told.append(f'this end does not prove that the stretch belongs to {label}')
    return told


class Chart:
    """Bars and captions of a descent, each below what is over it and none over another; what is beyond so many bars is left out."""
    def __init__(self, descent, log, most=None):
        self.descent, self.log = descent, log
        self.skyline = [TOP] * (2 * len(log) + 1)    # where the next bar may stand, in each column
        self.bars, self.captions, self.left_out = [], [], 0
        self.reaches, self.met = {}, set()
        root = Step(Symbol(NONTERMINAL, 0), 0, descent.ends[0, 0])
        todo = [Lane(None, False, (), None, (root,), TOP, 0, False)]
        while todo:
            lane = todo.pop()
            if most is not None and len(self.bars) > most:
                self.left_out += 1
            else:
                todo += self.lanes_below(lane, self.laid(lane))

    # How far a call came

    def covered(self, step):
        """The columns of a step; of one that failed, up to where it came."""
        if step.end is not None:
            return columns(step.start, step.end)
        reach = self.reach(step.symbol.number, step.start) if step.symbol.kind == NONTERMINAL else step.start
        return columns(step.start, min(max(reach, step.start + 1), len(self.log)))

    def reach(self, name, place):
        """The farthest place that a call that failed came to, by itself or by those below it that failed."""
        todo = [(name, place)]
        while todo:
            call = todo[-1]
            steps = [step for run in self.descent.call(*call).runs for step in run.steps]
            failed = [(step.symbol.number, step.start) for step in steps if step.end is None and step.symbol.kind == NONTERMINAL]
            unknown = [each for each in failed if each not in self.reaches]
            if unknown:
                todo += unknown
                continue
            ends = [step.start if step.end is None else step.end for step in steps]
            self.reaches[todo.pop()] = max([call[1]] + ends + [self.reaches[each] for each in failed])
        return self.reaches[name, place]

    # Lanes

    def laid(self, lane):
        """Places a lane with its caption below all that is there, and gives the calls in it that are new, each with its bar's bottom."""
        captioned = lane.over and self.has_several(lane.over)
        spans = [self.covered(step) for step in lane.steps] + ([self.covered(lane.over)] if captioned else [])    # a caption goes as far as the call
        if not spans:
            return []
        first, last = min(span[0] for span in spans), max(span[1] for span in spans)
        top = max(self.skyline[first:last + 1])
        if captioned:
            self.captions.append(self.caption(lane, first, last, top))
            top += CAPTION
        below = []
        for step in lane.steps:
            at, called = (step.symbol.number, step.start), step.symbol.kind == NONTERMINAL
            self.bars.append(self.bar(lane, step, top, called and at in self.met))
            if called and at not in self.met:
                self.met.add(at)
                below.append((step, top + BAR))
        bottom = top + (BAR + GAP if lane.steps else 0)
        self.skyline[first:last + 1] = [max(bottom, at) for at in self.skyline[first:last + 1]]
        return below

    def lanes_below(self, lane, calls):
        """The lanes of calls, the last first: those of the first call are laid first."""
        found = []
        for step, bottom in calls:
            call = self.descent.call(step.symbol.number, step.start)
            bodies = [(run.negative, run.body, run, run.steps) for run in call.runs] + [(negative, body, None, ()) for negative, body in call.left]
            found += [Lane(step, negative, body, run, steps, bottom, lane.hue + number, lane.forbidden or negative)
                      for number, (negative, body, run, steps) in enumerate(bodies)]
        return reversed(found)

    def has_several(self, step):
        """Whether the rule that was chosen is more than one must, so that each of its lanes is reported."""
        rule = self.descent.grammar.rules[self.descent.call(step.symbol.number, step.start).rule]
        return len(rule.positives) != 1 or bool(rule.negatives)

    def bar(self, lane, step, top, again):
        (first, last), failed, called = self.covered(step), step.end is None, step.symbol.kind == NONTERMINAL
        label = body_text(self.descent.grammar, [step.symbol])
        look = MUST_NOT if lane.forbidden else FAILED if failed else MUST    # that a must-not fails is no fault
        hollow = called and not failed and not self.descent.proved(step.symbol.number, step.start)
        mark = ' \u2715' if failed else ''
        return Bar(label + mark, first, last, top, look, lane.hue, hollow, again, '\n'.join(titles(self.descent, self.log, step)))

    def caption(self, lane, first, last, top):
        told = outcome(self.descent.grammar, self.log, lane.run)
        text = ('must not  ' if lane.negative else 'must  ') + body_text(self.descent.grammar, lane.body) + (f'  \u2014  {told}' if told else '')
        holds = lane.run and lane.run.holds
        look = NOT_RUN if lane.run is None else FAILED if not holds else MUST_NOT if lane.negative else MUST
        return Caption(text, holds, first, last, top, lane.above, look, lane.hue)


def described(log, chart):
    """A chart in a few words, for those who do not see it."""
    return f'the log {" ".join(log) or "without events"}' + (f' and {counted(len(chart.bars), "bar")} over it' if chart else '')
