"""Text to raw tokens. The product does no lexing: this is the tool's own."""

import re
from collections import namedtuple

from .faults import LexError
from .lines import WHITESPACE
from .numbers import (FLOAT_NUMBER, IDENT, INT_NUMBER, KEYWORDS, PUNCTUATION,
                      STRING, TRIVIA)

Token = namedtuple('Token', 'kind joint text start')

# The keywords of edition 2021; contextual ones (union, raw, ..) are names.
KEYWORDS_OUTSIDE = frozenset((
    'Self abstract async become box break const continue crate do dyn else enum'
    ' extern final fn for if impl in let loop macro match mod move override'
    ' priv pub ref return self static struct super trait try type typeof unsafe'
    ' unsized use virtual where while yield').split())

COMMENT_MARK = re.compile(r'/\*|\*/')
STRING_BODY = re.compile(r'"(?:[^"\\]|\\.)*"', re.DOTALL)
RAW_STRING_OPEN = re.compile(r'r(#*)"')
DIGITS_OR_BASE = re.compile(r'0(?:[bo][0-9_]*|x[0-9a-fA-F_]*)|[0-9][0-9_]*')
FRACTION = re.compile(r'[0-9][0-9_]*')
EXPONENT = re.compile(r'[eE][+-]?([0-9_]*)')


def lex(text):
    """The raw tokens of a text, their joints as shortcuts.rs sets them.

    An IDENT neither makes the token before it joint nor changes what the
    token after it sees, so `-` in `-a` isn't joint and `a` in `(a)` is. A
    float's own joint says only whether it ends in a dot.
    """
    tokens = []
    was_joint = False
    for kind, start, end in _pieces(text):
        token = Token(kind, 0, text[start:end], start)
        if kind == TRIVIA:
            was_joint = False
        elif kind == IDENT:
            tokens.append(token)
        else:
            if was_joint:
                tokens[-1] = tokens[-1]._replace(joint=1)
            if kind != FLOAT_NUMBER:
                was_joint = True
            elif token.text.endswith('.'):
                was_joint = False
            else:
                token = token._replace(joint=1)
            tokens.append(token)
    return tokens


def _pieces(text):
    start = 0
    while start < len(text):
        kind, end = _piece(text, start)
        yield kind, start, end
        start = end


def _piece(text, start):
    first = text[start]
    if first in WHITESPACE:
        return TRIVIA, start + 1
    if text.startswith('//', start):
        return TRIVIA, _line_comment_end(text, start)
    if text.startswith('/*', start):
        return TRIVIA, _block_comment_end(text, start)
    if first == '"':
        return STRING, _string_end(text, start)
    if RAW_STRING_OPEN.match(text, start):
        return STRING, _raw_string_end(text, start)
    if _starts_name(first):
        return _word(text, start)
    if first in '0123456789':
        return _number(text, start)
    if first in PUNCTUATION:
        return PUNCTUATION[first], start + 1
    if first == "'":
        raise LexError(text, start,
                       'characters and lifetimes are outside the cut')
    raise LexError(text, start, f'{_visible(first)} is outside the cut')


def _starts_name(char):
    return char.isidentifier()


def _name_end(text, start):
    end = start
    while end < len(text) and ('_' + text[end]).isidentifier():
        end += 1
    return end


def _suffix_end(text, start):
    if start < len(text) and _starts_name(text[start]):
        return _name_end(text, start)
    return start


def _line_comment_end(text, start):
    end = text.find('\n', start)
    return len(text) if end < 0 else end


def _block_comment_end(text, start):
    depth = 0
    for mark in COMMENT_MARK.finditer(text, start):
        depth += 1 if mark.group() == '/*' else -1
        if depth == 0:
            return mark.end()
    raise LexError(text, start, 'this comment has no end')


def _string_end(text, start):
    body = STRING_BODY.match(text, start)
    if not body:
        raise LexError(text, start, 'this string has no end')
    return _suffix_end(text, body.end())


def _raw_string_end(text, start):
    opening = RAW_STRING_OPEN.match(text, start)
    closing = '"' + opening.group(1)
    end = text.find(closing, opening.end())
    if end < 0:
        raise LexError(text, start, 'this string has no end')
    return _suffix_end(text, end + len(closing))


def _word(text, start):
    end = _name_end(text, start)
    word = text[start:end]
    after = text[end:end + 1]
    if word == 'r' and after == '#':
        raise LexError(text, start, 'raw identifiers are outside the cut')
    if after and after in '"\'#':
        raise LexError(text, start,
                       f'a literal with prefix `{word}` is outside the cut')
    if word == '_':
        raise LexError(text, start, '`_` is outside the cut')
    if word in KEYWORDS_OUTSIDE:
        raise LexError(text, start, f'keyword `{word}` is outside the cut')
    return KEYWORDS.get(word, IDENT), end


def _number(text, start):
    digits = DIGITS_OR_BASE.match(text, start)
    end = digits.end()
    if digits.group()[1:2] in ('b', 'o', 'x'):
        if not digits.group()[2:].strip('_'):
            raise LexError(text, start, 'no digits after the base')
    kind = INT_NUMBER
    exponent_may_follow = True
    if _dot_belongs_to_number(text, end):
        kind = FLOAT_NUMBER
        end += 1
        fraction = FRACTION.match(text, end)
        if fraction:
            end = fraction.end()
        else:
            exponent_may_follow = False
    exponent = EXPONENT.match(text, end) if exponent_may_follow else None
    if exponent:
        if not exponent.group(1).strip('_'):
            raise LexError(text, start, 'no digits in the exponent')
        kind = FLOAT_NUMBER
        end = exponent.end()
    return kind, _suffix_end(text, end)


def _dot_belongs_to_number(text, at):
    # `1..2` is a range and `1.foo` a field or method; `1.` and `1.+` are floats.
    if text[at:at + 1] != '.':
        return False
    after = text[at + 1:at + 2]
    return after != '.' and not _starts_name(after)


def _visible(char):
    return f'`{char}`' if char.isprintable() else f'U+{ord(char):04X}'


def end_of(token):
    return token.start + len(token.text)
