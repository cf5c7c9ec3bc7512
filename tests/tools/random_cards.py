"""Random grammars, as text and as words: both are written here a second time, apart from the notation's own writers."""
import string
from notation import RESERVED


def spelling(rng, first, taken):
    while True:
        word = rng.choice(first) + ''.join(rng.choices(string.ascii_letters + string.digits + "_'", k=rng.choice([0, 0, 1, 5])))
        if word not in taken and word not in RESERVED:
            taken.add(word)
            return word


def random_rules(rng, nonterminals, terminals):
    """Pairs of a head and its conjuncts; a conjunct is (negative, symbols), a symbol (is a terminal, number)."""
    def body():
        return [rng.choice([(True, rng.randrange(terminals)), (False, rng.randrange(nonterminals))])
                for _ in range(rng.choice([0, 0, 1, 1, 2, 3, 7]))]

    def conjuncts():
        musts, must_nots = rng.choice([(0, 1), (0, 3), (1, 0), (1, 0), (1, 1), (1, 3), (2, 0), (2, 1), (4, 3)])
        return [(False, body()) for _ in range(musts)] + [(True, body()) for _ in range(must_nots)]
    return [(rng.randrange(nonterminals), conjuncts()) for _ in range(rng.choice([0, 1, 5, 20, 128]))]


def in_order_of_definition(rules):
    """The rules with each nonterminal numbered by its first rule, and without symbols that have none."""
    numbers = {head: at for at, head in enumerate(dict.fromkeys(head for head, _ in rules))}
    return len(numbers), [(numbers[head], [(negative, [(t, n if t else numbers[n]) for t, n in body if t or n in numbers])
                                           for negative, body in conjuncts]) for head, conjuncts in rules]


def expected_words(nonterminals, terminals, rules):
    words = [0x10000000 + 256 * terminals + nonterminals]
    for head, conjuncts in rules:
        words.append(0x20000000 + head)
        for negative, body in conjuncts:
            words.append(0x40000000 if negative else 0x30000000)
            words += [(0x50000000 if t else 0x60000000) + n for t, n in body]
    return words + [0x70000000]


def random_text(rng, nonterminals, terminals, rules, listed):
    taken = set()
    names = [spelling(rng, string.ascii_uppercase, taken) for _ in range(nonterminals)]
    letters = [spelling(rng, string.ascii_lowercase + string.digits + '_', taken) for _ in range(terminals)]

    def gap():    # a place where a rule may go on in the next line
        return rng.choice([' ', '  ', '\n   ', ' # a remark & not | a rule -> of it\n\n\t'])

    def body(symbols):
        return ' '.join((letters if t else names)[n] for t, n in symbols) or 'empty'
    lines = ['letters ' + ' '.join(letters)] + ['names  ' + ' '.join(names) + ' # all'] * listed
    rng.shuffle(lines)
    before = None
    for head, conjuncts in rules:
        side = (gap() + '& ').join(('not ' if negative else '') + body(symbols) for negative, symbols in conjuncts)
        if head == before and rng.random() < 0.7:
            lines[-1] += gap() + '| ' + side
        else:
            lines += [rng.choice(['', '# a comment', '\r'])] * rng.choice([0, 1]) + [names[head] + ' -> ' + side]
        before = head
    return '\n'.join(lines) + rng.choice(['', '\n', '\n\n'])


def small_card(rng):
    """The words of a card with four names and two letters, of short rules: one in five passes."""
    def body():
        return [(True, rng.randrange(2)) if rng.random() < 0.6 else (False, rng.randrange(1, 4)) for _ in range(rng.choice([0, 1, 1, 2]))]

    def conjuncts():
        return [(False, body())] + rng.choice([[], [(True, body())], [(True, body())], [(False, body())]])
    return expected_words(4, 2, [(name, conjuncts()) for name in range(4) for _ in range(rng.choice([1, 1, 2]))])
