"""The command `diff`: two revisions, or two files of them, for people."""

import difflib
import os

from .drawing import refusal_lines
from .faults import FormulaError
from .grouping import grouped
from .lexer import lex
from .lines import amount, carets, cells, flat
from .page import page_of
from .revisions import (COMPARE_LIMIT, Revisions, difference_words,
                        refused_words, steps_words, warnings)

TOO_LONG = 3


# -------------------------------------------------------------- for a terminal

def text_of(revisions, style):
    """Two revisions for a terminal."""
    if revisions.refused:
        return refused_text(revisions, style)
    parts = [*_texts(revisions, style), *_groupings(revisions, style),
             *_findings(revisions, style), *_warnings(revisions, style)]
    return '\n'.join(parts) + '\n'


def _texts(revisions, style):
    for side, (name, reading) in enumerate(revisions.both):
        line = flat(reading.source.text)
        spans = sorted(span for d in revisions.differences
                       for span in d.spans(side))
        yield f'{name:8}{line}'
        if spans:
            yield ' ' * 8 + style.paint('bad', _caret_line(line, spans))


def _caret_line(line, spans):
    drawn = ''
    for start, end in spans:
        marked = carets(line, start, end)
        drawn = drawn + marked[cells(drawn):]
    return drawn


def _groupings(revisions, style):
    yield style.paint('dim', 'groups as')
    for name, reading in revisions.both:
        yield f'{name:8}{grouped(reading.tree, style)}'


def _findings(revisions, style):
    yield ''
    yield f'compare: {steps_words(revisions.steps)}'
    if revisions.steps and revisions.same_grouping:
        yield 'the grouping is the same: only parentheses differ'
    for difference in revisions.differences:
        yield style.paint('strong', difference_words(difference, revisions))
    if revisions.equal:
        yield 'names and numbers are the same too (looked at by this tool)'


def _warnings(revisions, style):
    for words in warnings(revisions):
        yield style.paint('note', 'warning: ') + words


def refused_text(revisions, style):
    name, reading = refused_words(revisions)
    if not reading.refusal:
        return (f'the {name} formula is refused: compare takes'
                f' {COMPARE_LIMIT} tokens at most ({TOO_LONG}), it has'
                f' {len(reading.source.tokens):,}\n')
    return f'the {name} formula is ' + '\n'.join(
        refusal_lines(reading.source, reading.refusal, style)) + '\n'


# ------------------------------------------------------------------- the files

def pairs_of(first, second):
    """The pairs of formulas of two files, with their line numbers.

    A formula that was put in or taken out has None on the other side.
    """
    one, other = formulas_of(first), formulas_of(second)
    matcher = difflib.SequenceMatcher(
        None, [text for _, text in one], [text for _, text in other],
        autojunk=False)
    for sort, a, b, c, d in matcher.get_opcodes():
        if sort == 'equal':
            continue
        for index in range(max(b - a, d - c)):
            yield (one[a + index] if a + index < b else None,
                   other[c + index] if c + index < d else None)


def formulas_of(path):
    """The formulas of a file, one a line, with their line numbers."""
    try:
        with open(path, encoding='utf-8-sig', newline='\n') as file:
            lines = file.read().split('\n')
    except (OSError, UnicodeDecodeError) as fault:
        raise FormulaError(f"can't read {path}: {fault}") from None
    return [(number, line.rstrip('\r')) for number, line
            in enumerate(lines, 1) if not _is_empty(line)]


def _is_empty(line):
    return not line.strip() or line.lstrip().startswith('//')


# ----------------------------------------------------------------- the command

def diff_command(given, style):
    first, second = given.others(2)
    if '--text' not in given.flags and all(map(os.path.isfile,
                                               (first, second))):
        compared, alone = compare_files(first, second)
    else:
        compared, alone = [Revisions(first, second)], []
    if '--html' in given.options:
        return write_page(given.options['--html'], compared, alone)
    blocks = [_titled(r, style) for r in compared] + [
        words + '\n' for words in alone]
    return '\n'.join(blocks) or 'no formula differs\n'


def _titled(revisions, style):
    title = f'{revisions.title}\n' if revisions.title else ''
    return style.paint('strong', title) + text_of(revisions, style)


def compare_files(first, second):
    """The revisions of two files, and words on formulas of one alone."""
    compared, alone = [], []
    for one, other in pairs_of(first, second):
        if one and other:
            compared.append(_revisions_of_lines(one, other))
        else:
            number, text = one or other
            alone.append(f'line {number} is in the'
                         f' {"first" if one else "second"} file alone:'
                         f' {flat(text)}')
    return compared, alone


def _revisions_of_lines(one, other):
    for number, text in (one, other):
        try:
            lex(text)
        except FormulaError as fault:
            raise FormulaError(f'line {number}: {fault}') from None
    return Revisions(one[1], other[1],
                     f'line {one[0]} and line {other[0]}'
                     if one[0] != other[0] else f'line {one[0]}')


def write_page(path, compared, alone):
    try:
        with open(path, 'w', encoding='utf-8') as file:
            file.write(page_of(compared, alone))
    except OSError as fault:
        raise FormulaError(f"can't write {path}: {fault.strerror}") from None
    return f'{path}: {amount(len(compared), "pair")} of formulas\n'
