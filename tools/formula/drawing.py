"""An answer for people: the text with its marks, and the tree with lines."""

from .faults import AnswerFault
from .lines import carets, cells, columns, flat
from .numbers import (GUARD_REFUSALS, LITERAL, NAME_REF, PATH_EXPR, PATH_TYPE,
                      REFUSALS)
from .terminal import PLAIN
from .tree import Leaf, Mark, walk

# Nodes that the short form folds to their text.
FOLDED = frozenset((LITERAL, NAME_REF, PATH_EXPR, PATH_TYPE))

COLUMNS_AT_MOST = 60
COLUMNS_NOTE = ('columns: counted by this tool from the steps;'
                ' all else is the answer of the proved program')


def draw(tree, full=False, style=PLAIN):
    """The text with carets under errors and rest, then the tree."""
    return '\n'.join(text_lines(tree, style)
                     + tree_lines(tree.roots, full, style)
                     + [style.paint('dim', COLUMNS_NOTE)]) + '\n'


# ------------------------------------------------------- the text and carets

def text_lines(tree, style=PLAIN):
    """The text, and a line of carets for each error and for the rest."""
    line = flat(tree.source.text)
    return [line] + [carets(line, start, end) + ' ' + style.paint(paint, words)
                     for start, end, words, paint in marks_of(tree)]


def marks_of(tree):
    """Start, end, words and paint of each mark under the text, in order."""
    for mark in tree.marks:
        yield mark.start, mark.start + 1, error_words(mark), 'bad'
    if tree.unread:
        yield (*tree.unread, 'unread: the reading ends before this', 'note')


def error_words(mark):
    number = '' if mark.code is None else f' ({mark.code})'
    return f'error: {mark.words}{number}'


# ------------------------------------------------------------------ the tree

def tree_lines(roots, full=False, style=PLAIN):
    """A line for each node, token and error, with its columns."""
    rows = [row for root in roots for row in _rows(root, full, style)]
    width = min(max((cells(lead + words) for lead, words, _, _ in rows),
                    default=0), COLUMNS_AT_MOST)
    return [_line(row, width, style) for row in rows]


def _line(row, width, style):
    lead, words, paint, part = row
    gap = ' ' * max(width - cells(lead + words), 0)
    return (style.paint('dim', lead) + style.paint(paint, words) + gap + '  '
            + style.paint('dim', columns(part.start, part.end)))


def _rows(root, full, style):
    """Lead, words, paint and part of each line of the tree."""
    stack = [(root, '', '')]
    while stack:
        part, lead, below = stack.pop()
        words, paint = _words(part, full)
        yield lead, words, paint, part
        parts = [] if is_folded(part, full) else getattr(part, 'parts', [])
        for index in range(len(parts) - 1, -1, -1):
            is_last = index == len(parts) - 1
            stack.append((parts[index],
                          below + (style.last if is_last else style.branch),
                          below + (style.none if is_last else style.down)))


def is_folded(part, full=False):
    """Whether a node is drawn as one line with its text."""
    return (not full and not isinstance(part, (Leaf, Mark))
            and part.kind in FOLDED
            and not any(isinstance(p, Mark) for p in walk(part)))


def folded_text(node):
    return ''.join(p.text for p in walk(node) if isinstance(p, Leaf))


def _words(part, full):
    if isinstance(part, Mark):
        return error_words(part), 'bad'
    if isinstance(part, Leaf):
        text = flat(part.text)
        return (f'{part.name} {text}' if full else text), 'strong'
    if is_folded(part, full):
        return f'{part.name} {flat(folded_text(part))}', ''
    return part.name, ''


# ------------------------------------------------------------------ refusals

def refusal_lines(source, refusal, style=PLAIN, known=REFUSALS):
    """A refusal in words with its number, and carets where it has a place.

    Raises AnswerFault where it can't be one of this formula.
    """
    if refusal.number not in known:
        raise AnswerFault(f'there is no refusal {refusal.number}')
    words, counted = known[refusal.number]
    _check_place(source, refusal, counted)
    line = style.paint('bad', f'refused: {words} ({refusal.number})')
    if counted == 'nothing':
        return [line]
    if counted == 'wanted':
        return [f'{line}, values wanted: {refusal.place}']
    if counted == 'consumed':
        return [f'{line}, tokens consumed: {refusal.place}']
    if counted in ('marker', 'byte'):
        return [f'{line}, at {counted} {refusal.place}']
    width = source.longest_glued(refusal.place)
    return [f'{line}, ' + source.place(refusal.place, width),
            source.under(refusal.place, width)]


def _check_place(source, refusal, counted):
    count = len(source.tokens)
    last = {'token': count - 1, 'position': count, 'consumed': count,
            'nothing': 0}.get(counted, refusal.place)
    if refusal.place > last:
        raise AnswerFault(f'refusal {refusal.number} never stands at'
                          f' {refusal.place}, there are {count} tokens')


GUARD_KNOWN = {**REFUSALS, **GUARD_REFUSALS}
