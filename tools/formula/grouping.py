"""A formula with every grouping made visible by parentheses.

Parentheses stand around each operation that has an operator, and around a
postfix form under a prefix, where another grouping could be meant. Braces,
which no formula has, mark errors and the unread rest.
"""

from .drawing import folded_text
from .lines import flat
from .numbers import (AWAIT_EXPR, BIN_EXPR, CALL_EXPR, CAST_EXPR, ERROR_NODE,
                      FIELD_EXPR, INDEX_EXPR, LITERAL, METHOD_CALL_EXPR,
                      NAME_REF, PAREN_EXPR, PATH_EXPR, PATH_TYPE, PREFIX_EXPR,
                      PUNCTUATION, RANGE_EXPR, REF_EXPR, TRY_EXPR)
from .terminal import PLAIN
from .tree import Leaf, Mark, fold

WRAPPED = frozenset((BIN_EXPR, CAST_EXPR, PREFIX_EXPR, RANGE_EXPR, REF_EXPR))
PREFIXED = frozenset((PREFIX_EXPR, REF_EXPR))
POSTFIX = frozenset((AWAIT_EXPR, CALL_EXPR, FIELD_EXPR, INDEX_EXPR,
                     METHOD_CALL_EXPR, TRY_EXPR))
COMMA = PUNCTUATION[',']


def grouped(tree, style=PLAIN):
    """The text of a tree with its groupings, errors and rest marked."""
    text = fold(tree.root, lambda part, texts: _text(part, texts, style))
    if tree.unread:
        start, end = tree.unread
        rest = flat(tree.source.text[start:end])
        text += ' ' + style.paint('note', f'{{unread: {rest}}}')
    return text


def group_of(part):
    """The text of one part of a tree with its groupings."""
    return fold(part, lambda p, texts: _text(p, texts, PLAIN))


def _text(part, texts, style):
    if isinstance(part, Leaf):
        return flat(part.text)
    if isinstance(part, Mark):
        return style.paint('bad', f'{{{part.words}}}')
    if part.kind in (LITERAL, NAME_REF, PATH_EXPR, PATH_TYPE):
        return flat(folded_text(part)) if _is_whole(part) else ''.join(texts)
    if part.kind == ERROR_NODE:
        return _error(part, texts, style)
    if part.kind == PAREN_EXPR:
        return _paren(part, texts)
    joined = _joined(part, texts)
    return f'({joined})' if part.kind in WRAPPED else joined


def _error(part, texts, style):
    # The error with the token that it skipped, if it skipped one.
    words = ': '.join(p.words if isinstance(p, Mark) else text
                      for p, text in zip(part.parts, texts))
    return style.paint('bad', f'{{{words}}}')


def _is_whole(part):
    return not any(isinstance(p, Mark) for p in part.parts)


def _paren(part, texts):
    # The formula's own parentheses, but not twice.
    inner = [p for p in part.parts if not isinstance(p, Leaf)]
    if (len(part.parts) == 3 and len(inner) == 1
            and getattr(inner[0], 'kind', None) in WRAPPED | {PAREN_EXPR}):
        return texts[1]
    return ''.join(texts)


def _joined(part, texts):
    if part.kind in (BIN_EXPR, CAST_EXPR):
        return ' '.join(texts)
    if part.kind == RANGE_EXPR:
        return _range(texts)
    if part.kind in PREFIXED:
        return _prefix(part, texts)
    return ''.join(_spaced(part.parts, texts))


def _range(texts):
    # `1. .. 2` keeps its blank: `1...2` would be read otherwise.
    return ''.join(text + ' ' if text.endswith('.') and set(text) != {'.'}
                   else text for text in texts)


def _prefix(part, texts):
    words = []
    for inner, text in zip(part.parts, texts):
        if getattr(inner, 'kind', None) in POSTFIX:
            text = f'({text})'
        words.append(text + ' ' if text == 'mut' else text)
    return ''.join(words)


def _spaced(parts, texts):
    # A blank behind a comma that something follows, and around an error.
    for index, (part, text) in enumerate(zip(parts, texts)):
        last = index == len(parts) - 1
        if isinstance(part, Mark):
            yield (' ' if index else '') + text + ('' if last else ' ')
        elif _is_comma(part) and not _closes(parts[index + 1:]):
            yield text + ' '
        else:
            yield text


def _is_comma(part):
    return isinstance(part, Leaf) and part.kind == COMMA


def _closes(parts):
    return not parts or isinstance(parts[0], (Leaf, Mark))
