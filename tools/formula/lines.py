"""Text on one line of a terminal: blanks, cells and carets."""

import unicodedata

WHITESPACE = frozenset('\t\n\v\f\r \x85\u200e\u200f\u2028\u2029')

SHOWN_OF_A_LINE = 60


def flat(text):
    """The text on one line, a character for each character of it."""
    return ''.join(_shown(char) for char in text)


def _shown(char):
    if char in WHITESPACE:
        return ' '
    return char if char.isprintable() else '?'


def cells(text):
    """How many cells of a terminal a text takes."""
    return sum(_cells_of(char) for char in text)


def _cells_of(char):
    if unicodedata.combining(char):
        return 0
    return 2 if unicodedata.east_asian_width(char) in 'WF' else 1


def carets(text, start, end):
    """Carets under text[start:end], at least one."""
    return (' ' * cells(text[:start])
            + '^' * max(cells(text[start:end]), 1))


def under(text, start, end):
    """The text, indented, and a line of carets under a part of it."""
    line = flat(text)
    return f'  {line}\n  ' + carets(line, start, end)


def shortened(line):
    """A line of a program as a person can read it, however long it is."""
    if len(line) > SHOWN_OF_A_LINE:
        return f'{line[:SHOWN_OF_A_LINE]!r}.. ({len(line)} characters)'
    return repr(line)


def columns(start, end):
    """The columns of text[start:end], from 1, as people count them."""
    if end <= start + 1:
        return f'{start + 1}'
    return f'{start + 1}-{end}'


def amount(number, word):
    """`1 step`, `2 steps`."""
    return f'{number:,} {word}' + ('' if number == 1 else 's')
