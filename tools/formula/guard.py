"""A guard formula evaluated by the proved program `guard`.

The program takes a stored form and one value for each number and each name,
in order of appearance: finding the values is the tool's part, working them
out the program's.
"""

import re

from .answer import parse_refusal
from .drawing import GUARD_KNOWN, refusal_lines
from .faults import AnswerFault, FormulaError, UsageError
from .lines import shortened
from .numbers import IDENT, INT_NUMBER
from .programs import command_of, words_of
from .reading import answer_lines
from .source import Source
from .stored import encode

SMALLEST, LARGEST = -2 ** 63, 2 ** 63 - 1
DIGITS_AT_MOST = 100
ASSIGNMENT = re.compile(r'\s*(\w+)\s*=\s*(.*?)\s*', re.DOTALL)
SIGNED = re.compile(r'-?(?:0[xX][0-9a-fA-F_]+|0[oO][0-7_]+|0[bB][01_]+'
                    r'|[0-9][0-9_]*)')
VALUE_LINE = re.compile('value (0|-?[1-9][0-9]{0,18})')
MOST_BYTES = 4096
NOT_ALLOWED = 11
READ_FIRST = range(1, NOT_ALLOWED + 1)


def guard_command(given, style):
    if not given.others():
        raise UsageError('TEXT expected')
    text, *pairs = given.others()
    program = given.options.get('--program')
    words = words_of(program) if program is not None else command_of('guard')
    return evaluate(words, Source(text), assigned(pairs), style)


def assigned(pairs):
    """The names and values of arguments NAME=VALUE."""
    values = {}
    for pair in pairs:
        parts = ASSIGNMENT.fullmatch(pair)
        if not parts:
            raise UsageError(f'NAME=VALUE expected, {pair!r} given')
        name, value = parts.groups()
        if name in values:
            raise FormulaError(f'`{name}` is given twice')
        values[name] = number(value, f'the value of `{name}`')
    return values


def number(text, what):
    """A number of 64 bits with a sign, as Rust writes it."""
    if not SIGNED.fullmatch(text):
        raise FormulaError(f'{what} is no whole number: {shortened(text)}')
    digits = text.replace('_', '')
    if len(digits) > DIGITS_AT_MOST:
        raise FormulaError(f'{what} is outside the range of 64 bits:'
                           f' {shortened(text)}')
    sign, digits = ('-', digits[1:]) if digits[0] == '-' else ('', digits)
    value = int(sign + (digits.lstrip('0') or '0')) if digits.isdigit() else (
        int(sign + digits, 0))
    if not SMALLEST <= value <= LARGEST:
        raise FormulaError(f'{what} is outside the range of 64 bits:'
                           f' {shortened(text)}')
    return value


LITERAL_DIGITS = re.compile(r'0x[0-9a-fA-F_]+|0o[0-9_]+|0b[0-9_]+'
                            r'|[0-9][0-9_]*')


def literal(token):
    """The value of a number as written; its suffix (`1u8`) says nothing."""
    digits = LITERAL_DIGITS.match(token.text).group()
    return number(digits, f'the number at column {token.start + 1}')


def evaluate(words, source, values, style):
    """The value of a guard, or its refusal, for people."""
    listed, missing = listed_values(source, values)
    lines = answer_lines(words, record(source, listed), MOST_BYTES)
    refusal = parse_refusal(lines)
    if missing and not (refusal and refusal.number in READ_FIRST):
        name = missing[0]
        raise FormulaError(f'no value for `{name}`: give it as {name}=NUMBER')
    if refusal:
        return '\n'.join(
            refusal_lines(source, refusal, style, GUARD_KNOWN)) + '\n'
    return value_words(value_of(lines), style)


def listed_values(source, values):
    """A value for each number and name in order, and the names without one.

    In a formula that the evaluator allows, every name is a path of its own.
    """
    listed, missing, used = [], [], set()
    for token in source.tokens:
        if token.kind == INT_NUMBER:
            listed.append(literal(token))
        elif token.kind == IDENT:
            used.add(token.text)
            listed.append(values.get(token.text, 0))
            if token.text not in values:
                missing.append(token.text)
    unused = [name for name in values if name not in used]
    if unused:
        raise FormulaError(f'the formula has no name `{unused[0]}`')
    return listed, missing


def record(source, listed):
    """What the program reads: a stored form, a count and the values."""
    return (encode(source.tokens) + len(listed).to_bytes(2, 'little')
            + b''.join(value.to_bytes(8, 'little', signed=True)
                       for value in listed))


def value_of(lines):
    value = VALUE_LINE.fullmatch(lines[0])
    if not value or len(lines) > 1:
        raise AnswerFault(f'no value: {shortened(lines[-1])}')
    return int(value.group(1))


def value_words(value, style):
    counts = style.paint('good', 'true') if value else style.paint('bad',
                                                                   'false')
    return f'value {value}, which counts as {counts}\n'
