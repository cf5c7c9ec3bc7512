"""Texts, cards and logs as they are read from files and from standard input."""
import sys
from exits import fail, say
from explain import Card
from notation import Damaged, TextError, beyond_limits, decode, encode, from_bytes, read_text, to_bytes


UTF_16 = (b'\xff\xfe', b'\xfe\xff')    # how a text in UTF-16 begins

CHUNK = 1 << 16    # how many bytes of a stream are read at once


def standard_input():
    if sys.stdin is None:
        fail('standard input is closed')
    return sys.stdin


def read(path):
    try:
        if path == '-':
            return standard_input().buffer.read()
        with open(path, 'rb') as file:
            return file.read()
    except OSError as error:
        fail(f'{path}: {error.strerror}')


def is_words(data):
    """A well-formed card has a zero byte in its heading, a text has none."""
    return b'\0' in data and not data.startswith(UTF_16)


def decoded(data, otherwise='neither text nor the words of a card'):
    """The text of a file; where it is none, a ValueError says why."""
    if data.startswith(UTF_16):
        raise ValueError('a text in UTF-16: save it as UTF-8')
    try:
        return data.decode('utf-8-sig')
    except UnicodeDecodeError as error:
        line = 1 + data.count(b'\n', 0, error.start)
        raise ValueError(f'{otherwise}: line {line} is not in UTF-8') from None


def text_of(path, data, *otherwise):
    try:
        return decoded(data, *otherwise)
    except ValueError as error:
        fail(f'{path}: {error}')


def text_read(path, data):
    try:
        return read_text(text_of(path, data))
    except TextError as error:
        fail(f'{path}: {error}')


def parsed(path, data):
    """All that a text says, with a warning for each limit that its grammar passes."""
    text = text_read(path, data)
    for reason in beyond_limits(text.grammar):
        say(f'{path}: warning: {reason}')
    return text


def card_of(text):
    """The card that a text says."""
    return Card(encode(text.grammar), text.grammar, text.lines)


def loaded(path):
    """The bytes of a text's card or of a card, and what is known of it."""
    data = read(path)
    if not is_words(data):
        card = card_of(text_read(path, data))
        return to_bytes(card.words), card
    try:
        words = from_bytes(data)
    except Damaged:
        return data, Card([], None, None)
    try:
        return data, Card(words, decode(words), None)
    except Damaged:
        return data, Card(words, None, None)


def log_text(path, letters):
    """The log of the letters that were given or, without any, of standard input; the path is that of its card."""
    if letters:
        return ' '.join(letters)
    if path == '-':
        fail('the card is read from standard input, so the log has to be an argument')
    if standard_input().isatty():
        say('the log, then the end of input:')
    text = text_of('log', standard_input().buffer.read(), 'not a text of letters')
    lines = sum(bool(line.strip()) for line in text.splitlines())
    if lines > 1:
        say(f'log: {lines} lines are read as one log; judge --each judges each line')
    return text


def lines_arrived(stream):
    """The lines of a stream, in lists of those that have arrived together: few where they are typed or asked one by one, many where a file is read."""
    rest = b''
    while data := stream.read1(CHUNK):
        *lines, rest = (rest + data).split(b'\n')
        if lines:
            yield lines
    if rest:
        yield [rest]
