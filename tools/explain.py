"""Why a card is refused, told in its own names and with the lines of its text.

Nothing here decides: the programs refuse, with a number and a place, and what they found is looked up again in the grammar."""
from typing import NamedTuple, Optional
from itertools import product
from logs import unknown_event
from notation import (MAX_WORDS, MAX_INPUT, MAX_LOGS, MAX_TERMINALS_OF_TWO, NEGATIVE, NONTERMINAL, RULE, Grammar, Damaged,
                      body_text, rule_text, scan)


LONGEST = 100    # how much of a rule or a body is shown


class Card(NamedTuple):
    words: list
    grammar: Optional[Grammar]    # none where the words are damaged
    lines: Optional[list]         # the text's line for each word; none where there was no text

    def where(self, at):
        """The line of the text that a word was written in, or which word it is."""
        if self.lines:
            return f'line {self.lines[min(at, len(self.lines) - 1)]}'
        return f'word {at}' + (f' ({self.words[at]:08x})' if at < len(self.words) else '')

    def rule_at(self, at):
        """The number of the rule that a word stands in."""
        return sum(word >> 28 == RULE for word in self.words[:at]) - 1

    def rule(self, number):
        """A rule, with where it begins."""
        rule = self.grammar.rules[number]
        begins = [at for at, word in enumerate(self.words) if word >> 28 == RULE][number]
        return f'{self.where(begins)}: {self.grammar.nonterminals[rule.head]} -> {shortened(rule_text(self.grammar, rule))}'


def counted(number, what):
    return f'{number} {what}' + ('' if number == 1 else 's')


def shortened(text):
    return text if len(text) <= LONGEST else text[:LONGEST] + ' ...'


# Names in bodies

class Step(NamedTuple):
    """A body of one name has another in it."""
    name: int
    to: int
    word: int          # where `to` stands on the card
    body: tuple
    negative: bool
    at: int            # where `to` stands in the body

    @property
    def passed(self):
        return tuple(symbol.number for symbol in self.body[:self.at])

    @property
    def rest(self):
        return self.body[self.at + 1:]


def steps(grammar):
    """A step for each name in each body, of both signs, in card order."""
    word = 1
    for rule in grammar.rules:
        word += 1
        for negative, bodies in ((False, rule.positives), (True, rule.negatives)):
            for body in bodies:
                word += 1
                for at, symbol in enumerate(body):
                    if symbol.kind == NONTERMINAL:
                        yield Step(rule.head, symbol.number, word + at, body, negative, at)
                word += len(body)


def shortest(start, onward):
    """A shortest row of steps; onward gives the steps from a name, each with the name that it leads to, or none where it is the last."""
    ways, seen = [(start, [])], set()
    while ways:
        longer = []
        for name, way in ways:
            for step, to in onward(name):
                if to is None:
                    return way + [step]
                if to not in seen:
                    seen.add(to)
                    longer.append((to, way + [step]))
        ways = longer
    return None


def body_of(card, step):
    return shortened(('not ' if step.negative else '') + body_text(card.grammar, step.body))


# Names that the start never reaches

def unreached(card):
    """A line for each name that no row of bodies leads to from name 0: it has no say in any verdict."""
    grammar = card.grammar
    found = list(steps(grammar))
    reached, before = {0}, 0
    while before != len(reached):
        before = len(reached)
        reached |= {step.to for step in found if step.name in reached}
    return [f'{card.rule(number).split(":")[0]}: {grammar.nonterminals[name]} is not reached from {grammar.nonterminals[0]}'
            for name in range(len(grammar.nonterminals)) if name not in reached for number in rules_of(grammar, name)[:1]]


# Left recursion

def nullable(grammar):
    """The names that may be empty, by the least rule."""
    found, before = set(), None
    while before != len(found):
        before = len(found)
        for rule in grammar.rules:
            if all(symbol.kind == NONTERMINAL and symbol.number in found for body in rule.positives for symbol in body):
                found.add(rule.head)
    return found


def left_steps(grammar):
    """The steps of left dependence from each name: only names that may be empty stand before the other."""
    empty, found = nullable(grammar), [[] for _ in grammar.nonterminals]
    for step in steps(grammar):
        if all(symbol.kind == NONTERMINAL and symbol.number in empty for symbol in step.body[:step.at]):
            found[step.name].append(step)
    return found


def way_back(grammar, name):
    """A shortest row of steps of left dependence from a name back to itself, or none."""
    found = left_steps(grammar)
    return shortest(name, lambda at: ((step, None if step.to == name else step.to) for step in found[at]))


def step_text(card, step):
    names = card.grammar.nonterminals
    passed = list(dict.fromkeys(names[name] for name in step.passed))
    reason = f', since {" and ".join(passed)} may be empty' if passed else ''
    return f"{card.where(step.word)}: {names[step.name]} reaches {names[step.to]} in '{body_of(card, step)}'{reason}"


# Claims. A lookahead set is a set of rows of at most k letters, the empty row standing for the end.

def strung(first, second, k):
    return {(left + right)[:k] for left in first for right in second}


def first_of(body, first, k):
    found = {()}
    for symbol in body:
        found = strung(found, first[symbol.number] if symbol.kind == NONTERMINAL else {(symbol.number,)}, k)
    return found


def least(sizes, additions):
    """The least sets that hold what the additions say of them; an addition is a set's number and what it has to hold."""
    sets, changed = [set() for _ in range(sizes)], True
    while changed:
        changed = False
        for at, members in additions(sets):
            if not members <= sets[at]:
                sets[at] |= members
                changed = True
    return sets


def every_row(grammar, k):
    return {row for length in range(k + 1) for row in product(range(len(grammar.terminals)), repeat=length)}


def rule_first(grammar, rule, first, k):
    """The meeting of a rule's musts; without any, all rows of the card's letters."""
    return every_row(grammar, k).intersection(*(first_of(body, first, k) for body in rule.positives))


def first_and_follow(grammar, k=1):
    names = len(grammar.nonterminals)
    first = least(names, lambda sets: ((rule.head, rule_first(grammar, rule, sets, k)) for rule in grammar.rules))

    def followed(sets):
        yield 0, {()}
        for step in steps(grammar):
            yield step.to, strung(first_of(step.rest, first, k), sets[step.name], k)
    return first, least(names, followed)


def claims(grammar, k=1):
    """What each rule claims: the rows of letters on which it would be chosen."""
    first, follow = first_and_follow(grammar, k)
    return [strung(rule_first(grammar, rule, first, k), follow[rule.head], k) for rule in grammar.rules]


def claimants(grammar, name, string, k=1):
    """The rules of a name that claim the entry for a row of letters."""
    return [number for number, claimed in enumerate(claims(grammar, k)) if grammar.rules[number].head == name and string in claimed]


# Columns. With one event of lookahead the letters in order, then the end; with two the end, then each last letter, then each two letters.

WIDTH = {1: 32, 2: 64}    # what a name weighs in the place of a clash


def string_of(grammar, column, k=1):
    """The row of letters that a column stands for."""
    letters, few = len(grammar.terminals), MAX_TERMINALS_OF_TWO
    if k == 1:
        return () if column == letters else (column,)
    return () if column == 0 else (column - 1,) if column <= few else divmod(column - few - 1, few)


def column_of(grammar, string, k=1):
    """The column of a row of letters."""
    if k == 1:
        return string[0] if string else len(grammar.terminals)
    number = 0
    for letter in string:
        number = MAX_TERMINALS_OF_TWO * number + 1 + letter
    return number


# Names whose first set is empty: nothing can begin them, so no log belongs to them.

def never_begun(grammar, k=1):
    """The names whose first set is empty, lowest first."""
    return [name for name, rows in enumerate(first_and_follow(grammar, k)[0]) if not rows]


def rules_of(grammar, name):
    return [number for number, rule in enumerate(grammar.rules) if rule.head == name]


def needed(grammar, number, never):
    """The names in the musts of a rule that nothing can begin."""
    found = (symbol.number for body in grammar.rules[number].positives for symbol in body if symbol.kind == NONTERMINAL)
    return [name for name in dict.fromkeys(found) if name in never]


def own_reason(grammar, name, never):
    """Whether a name has no rule, or one whose musts begin apart."""
    rules = rules_of(grammar, name)
    return not rules or any(not needed(grammar, number, never) for number in rules)


def way_to_never(grammar, name, k=1):
    """Steps by musts from a name that nothing can begin, to such names: a shortest row to one that has a reason of its own, or, where none can be
    come to, up to one that was met before."""
    never, found = never_begun(grammar, k), [[] for _ in grammar.nonterminals]
    for step in steps(grammar):
        if step.to in never and not step.negative:
            found[step.name].append(step)
    way = shortest(name, lambda at: ((step, None if own_reason(grammar, step.to, never) else step.to) for step in found[at]))
    if way is None:
        way, met = [], set()
        while name not in met and found[name]:
            met.add(name)
            way.append(next((step for step in found[name] if step.to not in met), found[name][0]))
            name = way[-1].to
    return way


def why_never(card, number, never, k):
    """A rule that nothing can begin, and why."""
    names = [card.grammar.nonterminals[name] for name in needed(card.grammar, number, never)]
    apart = {1: 'its musts have no beginning in common', 2: 'its musts have no beginning of two events in common'}[k]
    return f'{card.rule(number)}: ' + (f'nothing can begin {" or ".join(names)}' if names else apart)


# Rules of must-nots alone. Such a rule takes all up to the end of the log, so no letter may follow its name.

def only_forbid(grammar, name):
    """The rules of a name that have no must."""
    return [number for number, rule in enumerate(grammar.rules) if rule.head == name and not rule.positives]


def letters_behind(grammar, name):
    """The letters that may follow a name, if it has a rule of must-nots alone."""
    if not only_forbid(grammar, name):
        return []
    return sorted(row[0] for row in first_and_follow(grammar)[1][name] if row)


def way_behind(grammar, name, letter):
    """A shortest row of steps from the name to a body in which the letter may come behind what is at the end of the steps before."""
    first, follow = first_and_follow(grammar)

    def onward(at):
        for step in steps(grammar):
            behind = first_of(step.rest, first, 1)
            if step.to == at and (letter,) in strung(behind, follow[step.name], 1):
                yield step, None if (letter,) in behind else step.name
    return shortest(name, onward)


def behind_text(card, step, letter, last):
    name, head = (card.grammar.nonterminals[at] for at in (step.to, step.name))
    where = f"{card.where(step.word)}: in '{body_of(card, step)}'"
    if last:
        return f'{where} {card.grammar.terminals[letter]} may follow {name}'
    return f'{where} {name} may be the last, so what follows {head} may follow {name}'


# Refusals

def damage(card):
    """What is wrong with the words, or none."""
    try:
        for _ in scan(card.words):
            pass
    except Damaged as fault:
        return fault


def ahead(grammar, string, k):
    """Where a row of letters comes next."""
    letters = [grammar.terminals[letter] for letter in string]
    if not letters:
        return 'at the end of the log'
    if len(letters) == 2:
        return f'where the next two events are {letters[0]} and {letters[1]}'
    return f'where the next event is {letters[0]}' + (', the last of the log' if k == 2 else '')


def meant(card, name, column, rules, k=1):
    """How many rules claim an entry, and which."""
    grammar = card.grammar
    count = {0: 'no rule', 2: 'two rules'}.get(len(rules), f'{len(rules)} rules')
    there = ahead(grammar, string_of(grammar, column, k), k)
    return [f'{count} of {grammar.nonterminals[name]} may be meant {there}'] + [card.rule(rule) for rule in rules]


def several_meant(card, name, column, k):
    """The rules that claim an entry, if there are two or more."""
    rules = claimants(card.grammar, name, string_of(card.grammar, column, k), k)
    return meant(card, name, column, rules, k) if len(rules) > 1 else []


def gap_told(card, line):
    """The lines that tell one line of the program gaps: an entry with its rules, or a name with a rule of must-nots alone."""
    name, *entry = line.split()
    if not entry:
        return no_end_settled(card, int(name))
    column, *rules = entry
    return meant(card, int(name), int(column), [int(rule) for rule in rules if rule != '-'])


def no_end_settled(card, name):
    """The rules of must-nots alone of a name that letters may follow, and where the first of the letters comes from; nothing if there are none."""
    grammar = card.grammar
    letters = letters_behind(grammar, name)
    if not letters:
        return []
    *way, last = way_behind(grammar, name, letters[0])
    told = ', '.join(grammar.terminals[letter] for letter in letters)
    return ([f'{grammar.nonterminals[name]} has a rule of must-nots alone, which takes all up to the end of the log, but {told} may follow {grammar.nonterminals[name]}']
            + [card.rule(rule) for rule in only_forbid(grammar, name)]
            + [behind_text(card, step, letters[0], False) for step in way] + [behind_text(card, last, letters[0], True)])


def nothing_begins(card, name, k):
    """Why a name's first set is empty: each of its rules, and one row of names that lead to one with a reason of its own."""
    grammar, never = card.grammar, never_begun(card.grammar, k)
    rules, called = rules_of(grammar, name), grammar.nonterminals[name]
    if not rules:
        return [f'{called} has no rule, so no log belongs to it']
    told = [why_never(card, number, never, k) for number in rules]
    way = way_to_never(grammar, name, k)
    for step in way[1:]:
        told.append(why_never(card, card.rule_at(step.word), never, k))
    last = way[-1].to if way else name
    if not rules_of(grammar, last):
        told.append(f'{grammar.nonterminals[last]} has no rule')
    elif last != name:
        told += [why_never(card, number, never, k) for number in rules_of(grammar, last) if not needed(grammar, number, never)][:1]
    return [f'nothing can begin {called}, so no log belongs to it'] + told


def forbids_alone(card, place):
    """Whether a word begins the first must-not of a rule that has no must."""
    return 0 < place < len(card.words) and [word >> 28 for word in card.words[place - 1:place + 1]] == [RULE, NEGATIVE]


def words_refused(card, number, place, k):
    """Why the words are refused, with 3 to 7 or 18."""
    if number == 3 and len(card.words) <= MAX_WORDS:
        return 'the file is no row of 4-byte words'
    if number == 18:
        return f'{card.words[0] >> 8 & 255} letters, and with two events of lookahead the limit is {MAX_TERMINALS_OF_TWO}'
    fault = damage(card)
    if fault and (fault.code, fault.position) == (number, place):
        reason = fault.reason
    else:
        reason = 'a rule of must-nots alone, which is not taken with two events of lookahead' if k == 2 and forbids_alone(card, place) else 'a damaged card'
    return (f'{card.where(place)}: ' if number > 4 else '') + reason


def refusal(card, number, place, log=(), longest=MAX_INPUT, k=1):
    """The lines that tell a refusal with k events of lookahead; the log is a row of letters as they were written, and of so many events at most."""
    grammar = card.grammar
    if number in (3, 4, 5, 6, 7, 18):
        return [words_refused(card, number, place, k)]
    if number == 22:
        letters = len(grammar.terminals)
        return [f'there are {letters}^{len(log)} logs of {len(log)} events, and the limit is {MAX_LOGS:,}']
    if number == 10:
        return [f'the log has {len(log)} events, and the limit is {longest}']
    if grammar is None or number not in (8, 9, 11, 13):
        return ['docs/REFERENCE.md has a table of refusals']
    if number == 8:
        name = grammar.nonterminals[place]
        return [f'left-recursive: {name} reaches {name} again before any event is read'] + [
            step_text(card, step) for step in way_back(grammar, place) or ()]
    if number == 13:
        return nothing_begins(card, place, k)
    if number == 9:
        name, column = divmod(place, WIDTH[k])
        reasons = (no_end_settled(card, name) if (column, k) == (0, 1) else []) + several_meant(card, name, column, k)
        return reasons or ['two rules claim an entry of the table']
    return [unknown_event(grammar, place, log[place])]
