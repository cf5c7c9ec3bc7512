"""Logs as they are written in the letters of a card, and as bytes."""

WESTWARD = '<'      # behind a letter: the event of a westward axle, which has its top bit set
DIRECTION = 128     # the weight of that bit
NO_LETTER = 255     # stands in a log for what is no letter of the card, so that the judge refuses it


def events(grammar, text):
    """The events of a log as they are written, each a letter or a letter with the mark of a westward axle; letters of one character may be
    written together."""
    written = []
    for word in text.split():
        if word.removesuffix(WESTWARD) in grammar.terminals:
            written.append(word)
            continue
        for at, letter in enumerate(word):
            if letter == WESTWARD and at:
                written[-1] += letter
            else:
                written.append(letter)
    return written


def event_of(grammar, written):
    """The byte of an event, or None where it is of no letter."""
    letter = written.removesuffix(WESTWARD)
    if letter not in grammar.terminals:
        return None
    return grammar.terminals.index(letter) + (DIRECTION if letter != written else 0)


def unknown_event(grammar, at, written):
    return f"event {at}, '{written}', is not among the letters {' '.join(grammar.terminals)}" + (' (the first event is event 0)' if at else '')


def parse_input(grammar, text):
    """The events of a log written in the grammar's letters, as bytes."""
    written = events(grammar, text)
    found = [event_of(grammar, event) for event in written]
    if None in found:
        at = found.index(None)
        raise ValueError(unknown_event(grammar, at, written[at]))
    return bytes(found)


def log_reader(grammar):
    """A function from a log as it is written to its bytes, with NO_LETTER for an event of no letter: quick for many logs of one card."""
    letters = {letter + mark: number + (DIRECTION if mark else 0) for number, letter in enumerate(grammar.terminals) for mark in ('', WESTWARD)}
    singles = bytes(letters.get(chr(code), NO_LETTER) for code in range(256)) if all(len(letter) == 1 for letter in grammar.terminals) else None

    def read(text):
        if singles and text.isascii() and WESTWARD not in text:
            return ''.join(text.split()).encode().translate(singles)
        return bytes(letters.get(event, NO_LETTER) for event in events(grammar, text))
    return read
