"""The cards of tests/vectors, each with what is recorded of it."""
import os, re
from checking import ROOT


def recorded():
    """Each card of the vectors once, with the refusal that is recorded for it, or none."""
    cards = {}
    folder = os.path.join(ROOT, 'tests', 'vectors')
    for name in sorted(name for name in os.listdir(folder) if name.split('_')[-1] in ('sheet.txt', 'judge.txt')):
        for line in open(os.path.join(folder, name)):
            if line.strip() and not line.startswith('#'):
                card, *_, output = (field.strip() for field in line.split('|'))
                refused = re.match(r'refused (\d+) (\d+)', output)
                refusal = (int(refused[1]), int(refused[2])) if refused else None
                cards.setdefault(b'' if card in ('-', 'no file') else bytes.fromhex(card), refusal)
    return cards


def recorded_wide():
    """Each card that is checked with two events of lookahead, with the refusal that is recorded for it, or none, and what is told of its table."""
    with open(os.path.join(ROOT, 'tests', 'vectors', 'p10_check2.txt')) as file:
        rows = [[field.strip() for field in line.split('|')] for line in file if line.strip() and not line.startswith('#')]
    for card, _, answer, table in rows:
        verdict, *numbers = answer.split()
        yield b'' if card == '-' else bytes.fromhex(card), tuple(map(int, numbers[:2])) if verdict == 'refused' else None, table
