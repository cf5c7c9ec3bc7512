"""How the descent went, of a log accepted or rejected: every call, the rule that was chosen, and how far each must and must-not of it came.

It is made from what the library leaves, the table and the memo table: nothing is judged again. For an accepted log the calls that its musts reach are
the parse tree that the library writes (tests/tools compares them)."""
from typing import NamedTuple, Optional
from calls import trusted
from judges import lookahead
from logs import DIRECTION
from notation import NONTERMINAL, Symbol
import vinegarspit


class Step(NamedTuple):
    symbol: Symbol
    start: int
    end: Optional[int]    # none where it failed


class Run(NamedTuple):
    """A must or a must-not of the rule, run from the call's place."""
    negative: bool
    body: tuple
    steps: tuple             # up to the first that failed
    end: Optional[int]       # none where one failed
    agreed: Optional[int]    # where the bodies before it end; none before the first

    @property
    def holds(self):
        """Whether the rule goes on: a must ends where the others do, a must-not does not."""
        return self.end != self.agreed if self.negative else self.end is not None and self.agreed in (None, self.end)


class Call(NamedTuple):
    name: int
    place: int
    end: Optional[int]     # none where it failed
    rule: Optional[int]    # none where the table has none for what comes next
    runs: tuple            # up to the first that does not hold
    left: tuple            # the bodies behind that one, which were not run, each with whether it is a must-not


def bodies_of(rule):
    """The bodies of a rule in the order in which they are run, each with whether it is a must-not."""
    return tuple((False, body) for body in rule.positives) + tuple((True, body) for body in rule.negatives)


class Descent:
    def __init__(self, judges, judge, tokens, memo):
        self.judges, self.judge, self.tokens = judges, judge, tokens
        self.grammar = judges.card.grammar
        self.calls = {}
        self.ends = {(name, place): end for name, place, end in vinegarspit.called_pairs(memo, len(self.grammar.nonterminals), len(tokens))}

    def call(self, name, place):
        """A call that was made."""
        if (name, place) not in self.calls:
            rule = self.judges.chosen(self.judge, name, self.tokens, place)
            bodies = () if rule is None else bodies_of(self.grammar.rules[rule])
            runs = () if rule is None else tuple(self.runs(self.grammar.rules[rule], place))
            self.calls[name, place] = Call(name, place, self.ends[name, place], rule, runs, bodies[len(runs):])
        return self.calls[name, place]

    def proved(self, name, place):
        """Whether the end of a call proves that the stretch up to it belongs to the name; another end proves nothing."""
        end = self.ends[name, place]
        return end is not None and trusted(self.judges.follow(self.judge, name), self.tokens, end, lookahead(self.judge))

    def runs(self, rule, place):
        agreed = None if rule.positives else len(self.tokens)    # must-nots alone take all up to the end
        for negative, body in bodies_of(rule):
            steps = tuple(self.steps(body, place))
            run = Run(negative, body, steps, steps[-1].end if steps else place, agreed)
            yield run
            if not run.holds:
                return
            agreed = agreed if negative else run.end

    def steps(self, body, place):
        for symbol in body:
            if symbol.kind == NONTERMINAL:
                end = self.ends[symbol.number, place]
            else:
                end = place + 1 if self.letter(place) == symbol.number else None
            yield Step(symbol, place, end)
            if end is None:
                return
            place = end

    def letter(self, place):
        """The letter of the event behind a place, or none at the end of the log."""
        return self.tokens[place] % DIRECTION if place < len(self.tokens) else None

    def vertices(self):
        """The calls that the musts of an accepted log come to, from the root down, each once."""
        todo, seen = [(0, 0)], set()
        while todo:
            met = todo.pop()
            if met in seen:
                continue
            seen.add(met)
            call = self.call(*met)
            yield vinegarspit.Vertex(call.rule, call.place, call.end)
            todo += [(step.symbol.number, step.start) for run in reversed(call.runs) if not run.negative
                     for step in reversed(run.steps) if step.symbol.kind == NONTERMINAL]
