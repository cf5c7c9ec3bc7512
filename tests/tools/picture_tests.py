"""The picture of a reading shows what the descent did: every call and no other, the parse tree of an accepted log, and no bar over another."""
import os, random, re, tempfile
from array import array
from itertools import product
from xml.dom import minidom
import vinegarspit
from chart import Chart
from checking import CARD, ROOT, check, example, run
from descent import Descent
from explain import Card
from files import card_of
from judges import ONE, PLAIN, TWO, Judges
from logs import log_reader
from notation import decode, read_text, write
from picture import svg
from random_cards import small_card


def boxes(picture):
    """The bars of a picture: left, top, right, bottom."""
    for group in minidom.parseString(picture).getElementsByTagName('g'):
        if group.getAttribute('class') == 'bar':
            left, top, wide, high = (float(group.getElementsByTagName('rect')[0].getAttribute(key)) for key in ('x', 'y', 'width', 'height'))
            yield left, top, left + wide, top + high


def overlap(one, other):
    return one[0] < other[2] - 1 and other[0] < one[2] - 1 and one[1] < other[3] and other[1] < one[3]


def vertices_written(words, tokens):
    lent, written = vinegarspit.tree_words(), array('I', [0])
    vinegarspit.tree(words, tokens, vinegarspit.table(), vinegarspit.memo(), lent, written)
    return [vinegarspit.vertex(word) for word in lent[:written[0]]]


def drawn(judges, judge, tokens, what):
    """Checks a picture, and gives whether its musts were compared with the parse tree."""
    grammar = judges.card.grammar
    log, said = [grammar.terminals[token] for token in tokens], judges.told(judge, tokens)
    descent = Descent(judges, judge, tokens, said.left)
    call, table, memo = *((vinegarspit.judge, vinegarspit.table()) if judge == ONE else (vinegarspit.judge2, vinegarspit.table2())), vinegarspit.memo()
    used = len(grammar.nonterminals) * (len(tokens) + 1)
    check(call(judges.card.words, tokens, table, memo) == said.answer and memo[:used] == said.left[:used], f'the call with rows laid out once: {what}')
    check(Chart(descent, log).met == set(descent.ends), f'calls of {what}')
    found = list(boxes('\n'.join(svg(log, descent, said.answer.far))))
    check(not any(overlap(one, other) for at, one in enumerate(found) for other in found[:at]), f'bars over one another of {what}')
    for name, place in descent.ends:
        call = descent.call(name, place)
        holds = bool(call.runs) and all(run.holds for run in call.runs) and not call.left
        check((call.end is not None) == holds, f'the call of {name} at {place} of {what}')
    if said.verdict != 'accepted':
        return False
    vertices = list(descent.vertices())
    check(all(descent.proved(grammar.rules[each.rule].head, each.start) for each in vertices), f'hollow bars in the tree of {what}')
    if judge == ONE:
        check(vertices_written(judges.card.words, tokens) == vertices, f'vertices of {what}')
    return judge == ONE


def charts(number):
    """Of random cards, by either lookahead: an accepted log, if a short one is, and any."""
    rng, pictures, trees = random.Random(3), 0, 0
    short = [bytes(log) for length in range(6) for log in product(range(2), repeat=length)]
    while pictures < number:
        words = small_card(rng)
        judges = Judges(Card(words, decode(words), None))
        for judge in (judge for judge in judges.taking() if judge != PLAIN):
            accepted = [log for log in short if judges.answers[judge](log).verdict == 'accepted']
            for tokens in [bytes(rng.randrange(2) for _ in range(rng.randrange(8)))] + ([rng.choice(accepted)] if accepted else []):
                trees += drawn(judges, judge, tokens, f'{write(judges.card.grammar)} {list(tokens)} {judge}')
                pictures += 1
    print(f'pictures: {pictures} have every call, {trees} of them the parse tree')


# A log of an example, the judge, and the captions of its picture.
CAPTIONS = [
    ('loop.card', 'aaabbbcc', ONE, ['\u2715 must  a As b BC c  \u2014  stops at 8: the rule has c here, the log ends',
     '\u2013 must  a AB b c Cs  \u2014  not run', '\u2013 must not  a b c  \u2014  not run']),
    ('loop.card', 'aaabbccc', ONE, ['\u2713 must  a As b BC c', '\u2715 must  a AB b c Cs  \u2014  stops at 5: the rule has b here, c comes',
     '\u2013 must not  a b c  \u2014  not run']),
    ('loop.card', 'abc', ONE, ['\u2713 must  a As b BC c', '\u2713 must  a AB b c Cs', '\u2715 must not  a b c  \u2014  ends at 3 too']),
    ('E.card', 'ba', ONE, ['\u2713 must  B', '\u2713 must not  b C  \u2014  stops at 1: C fails here']),
    ('ladder.card', 'la', TWO, ['\u2713 must  Cuts', '\u2713 must not  Full  \u2014  stops at 0: Full fails here'])]


def captions():
    """What is told of a must says what the descent did and what the rule has there; none says which event is missing."""
    for file, log, judge, expected in CAPTIONS:
        text = read_text(example(file))
        judges, tokens = Judges(card_of(text)), log_reader(text.grammar)(log)
        said = judges.told(judge, tokens)
        picture = minidom.parseString('\n'.join(svg(list(log), Descent(judges, judge, tokens, said.left), said.answer.far)))
        groups = [group for group in picture.getElementsByTagName('g') if group.getAttribute('class') == 'caption']
        told = [' '.join([group.getElementsByTagName('text')[0].firstChild.data, group.getElementsByTagName('title')[0].firstChild.data]) for group in groups]
        check(told == expected, f'{file} {log}: {told}')
        check(not re.search(r'\bdue\b|miss|lost', picture.toxml()), f'{file} {log}: a guess')
    print(f'pictures: the captions of {len(CAPTIONS)}')


def commands():
    """tree --svg draws by either lookahead, and rejected logs too."""
    loop, ladder = (os.path.join(ROOT, 'examples', name) for name in ('loop.card', 'ladder.card'))
    with tempfile.TemporaryDirectory() as folder:
        path = os.path.join(folder, 'x.svg')
        for args, code, events in (((loop, 'aabbcc'), 0, 6), ((loop, 'aaabbbcc'), 1, 8), ((loop, ''), 0, 0), ((ladder, '--lookahead', '2', 'la<lmb'), 0, 5)):
            status, out, errors = run(CARD, 'tree', '--svg', path, *args)
            with open(path) as file:
                picture = file.read()
            os.remove(path)
            check((status, errors) == (code, '') and out.startswith(b'rejected') == bool(code) and picture.count('class="event"') == events,
                  f'{args}: {status} {errors}')
            minidom.parseString(picture)
        check(run(CARD, 'tree', '--svg', path, ladder, 'la')[0] == 2 and not os.path.exists(path), 'a refused card has no picture')
    minidom.parseString('\n'.join(svg(['a', '\x01', '<', '&'])))    # what was typed may be anything
    print('pictures: of tree --svg')
