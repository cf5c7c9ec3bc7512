"""The calls of a judgement in the names of a card, with a mark where an end may be trusted.

An end alone proves nothing. Where what comes next in the log is in the name's follow set, it is the end exactly when the stretch belongs to the
name: that is proved for both lookaheads (`EntriesTell` of crates/following). The follow sets are those that the program sheet prints, or with two
events of lookahead those of the library's table."""
from explain import column_of
from logs import DIRECTION
from notation import MAX_TERMINALS


NOTHING = MAX_TERMINALS    # the place of "nothing" in a set for one event of lookahead; with two the places are those of the columns
MARKED = '* the stretch belongs to the name: its follow set has what comes next. An end without a mark proves nothing'


def trusted(follow, tokens, end, lookahead=1):
    """Whether what comes next in the log, as far as so many events go, is in a follow set."""
    letters = [token % DIRECTION for token in tokens[end:end + lookahead]]
    place = column_of(None, letters, 2) if lookahead == 2 else letters[0] if letters else NOTHING
    return bool(follow >> place & 1)


def call_lines(names, follows, tokens, calls, lookahead):
    """A line for each call, which is a row of name, place and end as the program judge prints them, and in the end what the mark says."""
    width, marked = max(map(len, names)), False
    for name, place, end in calls:
        mark = end != '-' and trusted(follows[int(name)], tokens, int(end), lookahead)
        marked |= mark
        yield f'{names[int(name)]:<{width}} {place:>4} {"failed" if end == "-" else end:>7}' + ' *' * mark
    if marked:
        yield MARKED
