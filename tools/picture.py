"""The chart of a reading as a picture in SVG: the log as ticks on a track along the bottom, and the bars over it.

Each must has a colour of its own, what is of a must-not is hatched, what failed is red. Colours are attributes, so that the picture is the same in a file
and in a page that forbids styles."""
from collections import Counter
from html import escape
from chart import BAR, CAPTION, FAILED, GAP, MUST, MUST_NOT, NOT_RUN, Chart, described
from explain import counted
from logs import WESTWARD


EVENT, SLOT, EMPTY = 32, 16, 22    # least widths: of an event, of the place before one, of an empty stretch
EDGE = SLOT / 2 - 1                # how far a bar goes over the places at its ends
WIDEST = 120                       # of an event, for the names over it
TRACK = 74                         # the height of the track
LETTER = 6.65                      # the width of a letter of a caption

# fill, line, text
HUES = [('#dce9fb', '#4a78b8', '#16345f'), ('#d8f0de', '#3f8a5a', '#123f26'), ('#e9e0fa', '#7a5cc0', '#38246e'),
        ('#fbebcb', '#a87a22', '#553a05'), ('#d4eff3', '#2f8795', '#0d424b'), ('#fbe0ec', '#b14f82', '#5f1c3e')]
LOOKS = {MUST_NOT: ('url(#hatched)', '#8b8f98', '#3d4148'), FAILED: ('url(#failed)', '#b3261e', '#7a1710'), NOT_RUN: ('#ffffff', '#8b8f98', '#5c6068')}
MARKS = {True: ('\u2713', '#1d6b3d'), False: ('\u2715', '#b3261e'), None: ('\u2013', '#5c6068')}
DASHED = ' stroke-dasharray="4 3"'
PATTERNS = ('<defs><pattern id="hatched" width="6" height="6" patternUnits="userSpaceOnUse" patternTransform="rotate(45)"><rect width="6" height="6" fill="#f6f6f7"/>'
            '<rect width="1.5" height="6" fill="#dcdee2"/></pattern><pattern id="failed" width="6" height="6" patternUnits="userSpaceOnUse" '
            'patternTransform="rotate(45)"><rect width="6" height="6" fill="#fff5f4"/><rect width="1.5" height="6" fill="#f3c9c5"/></pattern></defs>')
FONT = 'ui-monospace, DejaVu Sans Mono, Menlo, Consolas, monospace'


def colours(look, hue):
    return HUES[hue % len(HUES)] if look == MUST else LOOKS[look]


def text_width(text):
    return 7 * len(text) + 12


def safe(text):
    """A text for XML, which takes no characters that are not printed."""
    return escape(''.join(character if character.isprintable() or character == '\n' else '\ufffd' for character in text))


def fitting(text, width, wide=7):
    room = int(width // wide)
    return text if len(text) <= room else text[:max(room - 1, 0)] + '\u2026'


def edges(bars, log):
    """The left edge of each column, and the right edge of the last: wide enough for the letters, and for the names that stand over one event or over none."""
    widths = [SLOT] + [width for event in log for width in (max(EVENT, min(WIDEST, text_width(event))), SLOT)]
    beside = {}
    for bar in bars:
        if bar.is_empty:
            beside[bar.first, bar.top] = beside.get((bar.first, bar.top), SLOT - 2) + max(EMPTY, text_width(bar.label)) + 2
        elif bar.first == bar.last:
            widths[bar.first] = max(widths[bar.first], min(WIDEST, text_width(bar.label) - 2 * EDGE))
    for (column, _), width in beside.items():
        widths[column] = max(widths[column], width)
    found = [8]
    for width in widths:
        found.append(found[-1] + width)
    return found


def placed(bars, xs):
    """The left and the right edge of each bar; of empty stretches there may be several side by side."""
    used = {}
    for bar in bars:
        left, right = xs[bar.first] - EDGE, xs[bar.last + 1] + EDGE
        if bar.is_empty:
            left = used.get((bar.first, bar.top), xs[bar.first] + SLOT / 2)
            right = left + max(EMPTY, text_width(bar.label))
            used[bar.first, bar.top] = right + 2
        yield left, right


def bars_drawn(bars, places):
    for bar, (left, right) in zip(bars, places):
        fill, line, ink = colours(bar.look, bar.hue)
        fill = '#ffffff' if bar.hollow else fill
        yield (f'<g class="bar"><title>{safe(bar.title)}</title><rect x="{left:g}" y="{bar.top + .5:g}" width="{right - left:g}" height="{BAR - 1}" '
               f'rx="{11 if bar.is_empty else 4}" fill="{fill}" stroke="{line}"{DASHED * bar.again}/><text x="{(left + right) / 2:g}" y="{bar.top + 16}" '
               f'text-anchor="middle" fill="{ink}">{safe(fitting(bar.label, right - left - 4))}</text></g>')


def rooms(captions, bars, places, xs):
    """How far to the right each caption may go: up to what stands beside it, or as far as it likes."""
    beside, lefts = {}, [xs[caption.first] - EDGE for caption in captions]
    parts = [(bar.top, bar.top + BAR, left) for bar, (left, _) in zip(bars, places)]
    parts += [(caption.top, caption.top + CAPTION, left) for caption, left in zip(captions, lefts)]
    for part in parts:
        for band in range(part[0] // CAPTION, part[1] // CAPTION + 1):
            beside.setdefault(band, []).append(part)
    for caption, left in zip(captions, lefts):
        near = (part for band in (0, 1) for part in beside.get(caption.top // CAPTION + band, ()))
        yield min((other for top, bottom, other in near if other > left and top < caption.top + CAPTION and caption.top < bottom),
                  default=left + 17 + LETTER * len(caption.text))


def captions_drawn(captions, limits, xs):
    for caption, right in zip(captions, limits):
        left, (mark, colour), ink = xs[caption.first] - EDGE, MARKS[caption.holds], colours(caption.look, caption.hue)[2]
        if caption.top > caption.below + GAP:    # a lane below others hangs on a line of its own
            yield f'<path d="M{left - 3:g} {caption.below}V{caption.top + CAPTION / 2:g}h3" fill="none" stroke="{ink}" stroke-opacity=".55"/>'
        text = safe(fitting(caption.text, right - left - 15, LETTER))
        yield (f'<g class="caption" font-size="11"><title>{safe(caption.text)}</title><text x="{left + 2:g}" y="{caption.top + 12}" fill="{colour}">{mark}</text>'
               f'<text x="{left + 15:g}" y="{caption.top + 12}" fill="{ink}" xml:space="preserve">{text}</text></g>')


# The track

def rails(xs, rail):
    left, right = xs[0], xs[-1]
    for at in range(int(left) + 4, int(right), 9):
        yield f'<path d="M{at} {rail - 7}v14" stroke="#cfc6b8" stroke-width="3"/>'
    yield f'<path d="M{left} {rail - 4}H{right:g}M{left} {rail + 4}H{right:g}" stroke="#6b6f76" stroke-width="1.5"/>'


def event_drawn(place, event, middle, rail):
    letter, west = event.removesuffix(WESTWARD), event.endswith(WESTWARD)
    wide = max(24, min(WIDEST, text_width(letter)))
    title = f'event {place}: {letter}' + (', westward' if west else '')
    yield (f'<g class="event"><title>{safe(title)}</title><rect x="{middle - wide / 2:g}" y="{rail - 12}" width="{wide}" height="24" rx="12" fill="#fffdf8" '
           f'stroke="#3d4148" stroke-width="1.5"/><text x="{middle:g}" y="{rail + 4}" text-anchor="middle" font-weight="bold" fill="#1d1f23">'
           f'{safe(fitting(letter, wide - 4))}</text></g>')
    if west:
        yield f'<path d="M{middle - wide / 2 - 8:g} {rail}l6 -4v8z" fill="#3d4148"/>'


def place_drawn(place, middle, rail, count, is_far):
    """A place's number, and below it how many calls began there."""
    if is_far:
        yield f'<path d="M{middle:g} {rail - 18}V{rail + 16}" stroke="#b3561e" stroke-width="2"/><path d="M{middle:g} {rail - 18}l10 4l-10 4z" fill="#b3561e"/>'
    title = f'place {place}: {counted(count, "call")}' + (', the farthest' if is_far else '')
    ink, weight = ('#8a3d0c', ' font-weight="bold"') if is_far else ('#5c6068', '')
    calls = f'<rect x="{middle - 5:g}" y="{rail + 32}" width="10" height="{min(count, 7) * 2 + 2}" rx="1.5" fill="#9db4d3"/>' if count else ''
    yield (f'<g class="place" font-size="10"><title>{title}</title><text x="{middle:g}" y="{rail + 27}" text-anchor="middle" fill="{ink}"{weight}>{place}</text>'
           f'{calls}</g>')


def track(log, xs, top, far, calls):
    """The log as ticks on a track, its places, how many calls began at each, and the farthest of them."""
    rail = top + 22
    yield from rails(xs, rail)
    for place, event in enumerate(log):
        yield from event_drawn(place, event, (xs[2 * place + 1] + xs[2 * place + 2]) / 2, rail)
    for place in range(len(log) + 1):
        yield from place_drawn(place, (xs[2 * place] + xs[2 * place + 1]) / 2, rail, calls[place], place == far)


def svg(log, descent=None, far=None, most=None):
    """The lines of the picture: the track alone where there was no descent."""
    chart = Chart(descent, log, most) if descent else None
    bars, captions = (chart.bars, chart.captions) if chart else ([], [])
    xs = edges(bars, log)
    places = list(placed(bars, xs))
    limits = list(rooms(captions, bars, places, xs))
    bottom = max([bar.top + BAR for bar in bars] + [caption.top + CAPTION for caption in captions] + [0]) + 12
    wide = max([xs[-1] + 8, 320] + [limit + 8 for limit in limits] + [right + 4 for _, right in places])
    high = bottom + TRACK
    yield (f'<svg xmlns="http://www.w3.org/2000/svg" width="{wide:g}" height="{high}" viewBox="0 0 {wide:g} {high}" role="img" '
           f'aria-label="{safe(described(log, chart))}" font-family="{FONT}" font-size="12">')
    yield PATTERNS
    yield f'<rect width="{wide:g}" height="{high}" fill="#ffffff"/>'
    yield from captions_drawn(captions, limits, xs)
    yield from bars_drawn(bars, places)
    yield from track(log, xs, bottom, far, Counter(place for _, place in descent.ends) if descent else Counter())
    if chart and chart.left_out:
        yield f'<text x="8" y="{bottom - 1}" font-size="11" fill="#7a1710">{counted(chart.left_out, "lane")} left out: the picture would be too large</text>'
    yield '</svg>'
