"""The parse tree of an accepted log, from its vertices, as indented text."""
from typing import NamedTuple
from notation import TERMINAL, rule_text
import vinegarspit


class Met(NamedTuple):
    vertex: vinegarspit.Vertex
    depth: int
    again: bool       # it has been met before, and what is below it stands there
    parent: object    # the vertex above it, or None


class Leaf(NamedTuple):
    place: int
    depth: int
    parent: object


def descendants(grammar, at, vertex):
    """The direct descendants, a list for each must: places of events, and vertices."""
    rule = grammar.rules[vertex.rule]
    if not rule.positives:
        return [list(range(vertex.start, vertex.end))]
    found = []
    for body in rule.positives:
        place, row = vertex.start, []
        for kind, number in body:
            row.append(place if kind == TERMINAL else at[number, place])
            place = place + 1 if kind == TERMINAL else row[-1].end
        found.append(row)
    return found


def walked(grammar, vertices):
    """The tree from its root down, musts in order: what is met, one after the other."""
    at = {(grammar.rules[vertex.rule].head, vertex.start): vertex for vertex in vertices}
    todo, seen = [(vertices[0], 0, None)], set()
    while todo:
        met, depth, parent = todo.pop()
        if isinstance(met, int):
            yield Leaf(met, depth, parent)
            continue
        yield Met(met, depth, met in seen, parent)
        if met not in seen:
            seen.add(met)
            todo += [(each, depth + 1, met) for row in reversed(descendants(grammar, at, met)) for each in reversed(row)]


def text(grammar, log, vertices):
    for met in walked(grammar, vertices):
        indent = '  ' * met.depth
        if isinstance(met, Leaf):
            yield f'{indent}{log[met.place]}'
            continue
        name = grammar.nonterminals[grammar.rules[met.vertex.rule].head]
        told = 'as above' if met.again else f'rule {met.vertex.rule}: {rule_text(grammar, grammar.rules[met.vertex.rule])}'
        yield f'{indent}{name} {met.vertex.start}-{met.vertex.end}  {told}'
