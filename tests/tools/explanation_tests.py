"""What is told of a refusal is what the recorded number and place say."""
from checking import check
from explain import (claims, column_of, first_and_follow, first_of, letters_behind, never_begun, nullable, own_reason, string_of, way_back, way_behind,
                     way_to_never)
from notation import NONTERMINAL, decode, encode, from_bytes, word
from recorded_cards import recorded, recorded_wide


def first_clash(grammar, k=1):
    """The lowest name and column that two rules claim, column 0 standing for a rule of must-nots alone that a letter may follow."""
    seen = set()
    twice = {(name, 0) for name in range(len(grammar.nonterminals)) if letters_behind(grammar, name)}
    for rule, claimed in zip(grammar.rules, claims(grammar, k)):
        entries = {(rule.head, column_of(grammar, string, k)) for string in claimed}
        twice |= seen & entries
        seen |= entries
    return min(twice, default=None)


def is_step(grammar, words, step):
    """Whether a rule of the one name has the body, with the other where the step says, on the card too."""
    return (words[step.word] == 6 << 28 | step.to == word(*step.body[step.at])
            and any(rule.head == step.name and step.body in (rule.negatives if step.negative else rule.positives) for rule in grammar.rules))


def is_way_back(grammar, name, way):
    """Whether each step is one of left dependence, and they lead from the name to itself."""
    empty, words = nullable(grammar), encode(grammar)
    return (way[0].name == name == way[-1].to and all(one.to == next.name for one, next in zip(way, way[1:]))
            and all(is_step(grammar, words, step) and all(symbol.kind == NONTERMINAL and symbol.number in empty for symbol in step.body[:step.at])
                    for step in way))


def is_way_behind(grammar, name, letter, way):
    """Whether the letter may come behind the last name in its body, and what follows a body's name may follow the name in it."""
    empty, words, first = nullable(grammar), encode(grammar), first_and_follow(grammar)[0]
    *passed, last = way
    return (way[0].to == name and all(one.name == next.to for one, next in zip(way, way[1:])) and all(is_step(grammar, words, step) for step in way)
            and all(symbol.kind == NONTERMINAL and symbol.number in empty for step in passed for symbol in step.rest)
            and (letter,) in first_of(last.rest, first, 1))


def is_way_to_never(grammar, name, way, k=1):
    """Whether each step is to a name that nothing can begin, and the last to one that has a reason of its own or was met before."""
    never, words, met = never_begun(grammar, k), encode(grammar), [name] + [step.to for step in way]
    return (all(step.name == at and step.to in never and not step.negative and is_step(grammar, words, step) for at, step in zip(met, way))
            and (own_reason(grammar, met[-1], never) or met[-1] in met[:-1]))


def explanations():
    """What is told of a recorded refusal, computed here in names, is what the place says."""
    recursive = unbegun = clashing = passing = followed = 0
    for data, refusal in recorded().items():
        if refusal and refusal[0] not in (8, 9, 13):
            continue
        grammar = decode(from_bytes(data))
        ways = [way_back(grammar, name) for name in range(len(grammar.nonterminals))]
        lowest = next((name for name, way in enumerate(ways) if way), None)
        if refusal and refusal[0] == 8:
            recursive += 1
            check(lowest == refusal[1] and is_way_back(grammar, lowest, ways[lowest]), f'{data.hex()}: the way from {lowest}')
        else:
            check(lowest is None, f'{data.hex()}: a way from {lowest}')
            never = never_begun(grammar)
            if refusal and refusal[0] == 13:
                unbegun += 1
                check(never[:1] == [refusal[1]] and all(is_way_to_never(grammar, name, way_to_never(grammar, name)) for name in never),
                      f'{data.hex()}: nothing can begin {never}')
                continue
            check(not never, f'{data.hex()}: nothing can begin {never}')
            clash = divmod(refusal[1], 32) if refusal else None
            check(first_clash(grammar) == clash, f'{data.hex()}: {first_clash(grammar)}, recorded is {clash}')
            clashing, passing = clashing + bool(refusal), passing + (not refusal)
            for name in range(len(grammar.nonterminals)):
                for letter in letters_behind(grammar, name):
                    followed += 1
                    check(is_way_behind(grammar, name, letter, way_behind(grammar, name, letter)), f'{data.hex()}: {letter} behind {name}')
    print(f'explanations: {recursive} left-recursive cards, {unbegun} with a name that nothing can begin, {clashing} with a clash, {passing} with none of these, '
          f'{followed} letters behind names with a rule of must-nots alone')


def wide_rows(grammar):
    """The sets and the claimed entries of each name with two events of lookahead, as they are recorded."""
    first, follow = first_and_follow(grammar, 2)
    for name in range(len(grammar.nonterminals)):
        sets = [sum(1 << column_of(grammar, string, 2) for string in family[name]) for family in (first, follow)]
        cells = {column_of(grammar, string, 2): number for number, claimed in enumerate(claims(grammar, 2))
                 if grammar.rules[number].head == name for string in claimed}
        yield ' '.join([*map(str, sets), *(f'{column}:{cells[column]}' for column in sorted(cells))])


def wide_explanations():
    """With two events of lookahead: what is told of a recorded refusal, and the recorded sets and entries."""
    unbegun = clashing = passing = 0
    for data, refusal, table in recorded_wide():
        if refusal and refusal[0] not in (9, 13):
            continue
        grammar = decode(from_bytes(data))
        check(all(column_of(grammar, string_of(grammar, column, 2), 2) == column for column in range(57)), 'columns')
        never = never_begun(grammar, 2)
        if refusal and refusal[0] == 13:
            unbegun += 1
            check(never[:1] == [refusal[1]] and all(is_way_to_never(grammar, name, way_to_never(grammar, name, 2), 2) for name in never),
                  f'{data.hex()}: nothing can begin {never}')
            continue
        clash = divmod(refusal[1], 64) if refusal else None
        check(not never and first_clash(grammar, 2) == clash, f'{data.hex()}: {never} {first_clash(grammar, 2)}, recorded is {clash}')
        check(refusal or '/'.join(wide_rows(grammar)) == table, f'{data.hex()}: {"/".join(wide_rows(grammar))}, recorded is {table}')
        clashing, passing = clashing + bool(refusal), passing + (not refusal)
    print(f'two events of lookahead: {unbegun} cards with a name that nothing can begin, {clashing} with a clash, {passing} with sets and entries as recorded')
