#!/usr/bin/env python3
"""Makes the cases of the program `read_tests`, and what it must print.

usage:
  cases.py CASES ANSWERS

CASES is what `read_tests` reads, ANSWERS what it must print. Every answer is
worked out from 01 below, by hand for lists and by `held` for stored forms;
no program of this project has a part in it.
"""

import sys

import formula

NODES = {name: number for number, name in formula.NODE_NAMES.items()}
KINDS = {name: number for number, name in formula.KIND_NAMES.items()}

READ_LIMIT, BATCH_LIMIT = 256, 4096

# ------------------------------------------------------------- steps by hand

LEAVE, SPLIT, SPLIT_DOT = 196608, 262144, 262145


def enter(node):
    return 65536 + NODES[node]


def tok(kind, width=1):
    return 131072 + 256 * width + KINDS[kind]


def error(code):
    return 327680 + code


def node(name, *parts):
    """A node over its parts: steps, or lists of steps."""
    steps = [enter(name)]
    for part in parts:
        steps += part if isinstance(part, list) else [part]
    return steps + [LEAVE]


def literal(kind='INT_NUMBER'):
    return node('LITERAL', tok(kind))


NAME_REF = node('NAME_REF', tok('IDENT'))
NAME_PATH = node('PATH', node('PATH_SEGMENT', NAME_REF))
NAME = node('PATH_EXPR', NAME_PATH)
TYPE = node('PATH_TYPE', NAME_PATH)
ONE = literal()
MISSING = node('ERROR', error(1))


def skipped(kind):
    """"an ERROR node with the error and one token\""""
    return node('ERROR', error(1), tok(kind))


def binary(left, operator, right, width=1):
    return node('BIN_EXPR', left, tok(operator, width), right)


def arguments(*parts):
    return node('ARG_LIST', tok('L_PAREN'), *parts)


# text, consumed, steps
LISTS = (
    # P1 to P12
    ('', 0, MISSING),
    ('!1', 2, node('PREFIX_EXPR', tok('BANG'), ONE)),
    ('1 + 2 * 3', 5, binary(ONE, 'PLUS', binary(ONE, 'STAR', ONE))),
    ('1 = 2 = 3', 5, binary(ONE, 'EQ', binary(ONE, 'EQ', ONE))),
    ('1 < 2 < 3', 5, binary(binary(ONE, 'L_ANGLE', ONE), 'L_ANGLE', ONE)),
    ('-1 as T', 4, node('CAST_EXPR', node('PREFIX_EXPR', tok('MINUS'), ONE),
                        tok('AS_KW'), TYPE)),
    ('1.. + 2', 3, node('RANGE_EXPR', ONE, tok('DOT2', 2))),
    ('x = 1.. + 2', 7, binary(
        binary(NAME, 'EQ', node('RANGE_EXPR', ONE, tok('DOT2', 2))),
        'PLUS', ONE)),
    ('a.0.1', 3, [enter('FIELD_EXPR')] * 2 + NAME + [tok('DOT'), SPLIT]),
    ('a.0. b', 4, [enter('FIELD_EXPR')] * 2 + NAME
     + [tok('DOT'), SPLIT_DOT] + NAME_REF + [LEAVE]),
    ('a[', 2, node('INDEX_EXPR', NAME, tok('L_BRACK'), MISSING, error(6))),
    ('&&x', 3, node('REF_EXPR', tok('AMP'),
                    node('REF_EXPR', tok('AMP'), NAME))),
    # "Run as well"
    ('a...b', 3, node('RANGE_EXPR', NAME, tok('DOT2', 2))),
    # readings of 01, with their smallest cases
    ('f(', 2, node('CALL_EXPR', NAME, arguments(error(5)))),
    ('f(+', 3, node('CALL_EXPR', NAME, arguments(skipped('PLUS'), error(5)))),
    ('f(,1)', 5, node('CALL_EXPR', NAME, arguments(
        skipped('COMMA'), ONE, tok('R_PAREN')))),
    ('f(1 1)', 5, node('CALL_EXPR', NAME, arguments(
        ONE, error(7), ONE, tok('R_PAREN')))),
    ('1::b', 1, ONE),
    (')', 0, [error(1)]),
    (']', 0, [error(1)]),
    ('+', 1, skipped('PLUS')),
    ('(1', 2, node('PAREN_EXPR', tok('L_PAREN'), ONE, error(5))),
    ('1 as 1', 2, node('CAST_EXPR', ONE, tok('AS_KW'), error(4))),
    ('a.', 2, node('FIELD_EXPR', NAME, tok('DOT'), error(3))),
    ('(+,', 2, node('PAREN_EXPR', tok('L_PAREN'), skipped('PLUS'), error(5))),
    ('a...=b', 6, binary(
        node('RANGE_EXPR', NAME, tok('DOT2', 2), skipped('DOT')), 'EQ', NAME)),
    ('1 != 2', 4, binary(ONE, 'NEQ', ONE, 2)),
    ('a == b && c', 7, binary(
        binary(NAME, 'EQ2', NAME, 2), 'AMP2', NAME, 2)),
)


# Each of the 24 glued tokens where an operator may stand, `a -= b`, where a
# prefix may, `-= a`, and at the end, `a -=`.

# "longest glued form first"; the kind, its spelling and its width
OPERATORS = (
    ('MINUSEQ', '-=', 2), ('NEQ', '!=', 2), ('STAREQ', '*=', 2),
    ('SLASHEQ', '/=', 2), ('AMP2', '&&', 2), ('AMPEQ', '&=', 2),
    ('PERCENTEQ', '%=', 2), ('CARETEQ', '^=', 2), ('PLUSEQ', '+=', 2),
    ('SHL', '<<', 2), ('LTEQ', '<=', 2), ('EQ2', '==', 2), ('GTEQ', '>=', 2),
    ('SHR', '>>', 2), ('PIPEEQ', '|=', 2), ('PIPE2', '||', 2),
    ('SHLEQ', '<<=', 3), ('SHREQ', '>>=', 3),
)

GLUED_OPERATORS = tuple(
    case for kind, spelling, width in OPERATORS for case in (
        (f'a {spelling} b', 2 + width, binary(NAME, kind, NAME, width)),
        (f'a {spelling}', 1 + width, binary(NAME, kind, MISSING, width)),
    )
)

GLUED_RANGES = tuple(
    case for kind, spelling, width in (('DOT2', '..', 2), ('DOT2EQ', '..=', 3))
    for case in (
        (f'a {spelling} b', 2 + width,
         node('RANGE_EXPR', NAME, tok(kind, width), NAME)),
        (f'{spelling} a', 1 + width,
         node('RANGE_EXPR', tok(kind, width), NAME)),
        (f'a {spelling}', 1 + width,
         node('RANGE_EXPR', NAME, tok(kind, width))),
    )
)

GLUED = GLUED_OPERATORS + GLUED_RANGES + (
    # "`=>` is no operator"
    ('a => b', 1, NAME),
    ('a =>', 1, NAME),
    # "`->` reads as `-`"
    ('a -> b', 3, binary(NAME, 'MINUS', skipped('R_ANGLE'))),
    ('a ->', 3, binary(NAME, 'MINUS', skipped('R_ANGLE'))),
    # "`...` reads as `..`": by `.` and IDENT there is no right operand, and
    # "a lone `.` as atom" is an error
    ('a ... b', 3, node('RANGE_EXPR', NAME, tok('DOT2', 2))),
    ('a ...', 4, node('RANGE_EXPR', NAME, tok('DOT2', 2), skipped('DOT'))),
    ('... a', 2, node('RANGE_EXPR', tok('DOT2', 2))),
    ('a :: b', 4, node('PATH_EXPR', node(
        'PATH', NAME_PATH, tok('COLON2', 2),
        node('PATH_SEGMENT', NAME_REF)))),
    # "`&` .. `*`, `!`, `-` take one raw token"
    ('-= a', 2, node('PREFIX_EXPR', tok('MINUS'), skipped('EQ'))),
    ('-> a', 2, node('PREFIX_EXPR', tok('MINUS'), skipped('R_ANGLE'))),
    ('!= a', 2, node('PREFIX_EXPR', tok('BANG'), skipped('EQ'))),
    ('*= a', 2, node('PREFIX_EXPR', tok('STAR'), skipped('EQ'))),
    ('&& a', 3, node('REF_EXPR', tok('AMP'),
                     node('REF_EXPR', tok('AMP'), NAME))),
    ('&= a', 2, node('REF_EXPR', tok('AMP'), skipped('EQ'))),
    # no first tokens
    ('/= a', 1, skipped('SLASH')),
    ('%= a', 1, skipped('PERCENT')),
    ('^= a', 1, skipped('CARET')),
    ('+= a', 1, skipped('PLUS')),
    ('== a', 1, skipped('EQ')),
    ('=> a', 1, skipped('EQ')),
    ('>= a', 1, skipped('R_ANGLE')),
    ('>> a', 1, skipped('R_ANGLE')),
    ('>>= a', 1, skipped('R_ANGLE')),
)

# text, refusal, place
REFUSED = (
    ('-' * 128 + '1', 6, 128),
    ('-' * 128, 6, 128),
    ('()', 7, 1),
    ('(1,)', 7, 2),
    ('|a| a', 7, 0),
    ('<a', 7, 0),
    (': a', 7, 0),
    ('[1]', 7, 0),
    ('a::1', 7, 1),
    ('a.b::c', 7, 3),
    ('a!', 7, 1),
    ('1 as T!', 7, 3),
    ('1 as T(', 7, 3),
    ('1 as T < b', 7, 3),
    ('1 as !T', 7, 2),
    ('1 as != 2', 7, 2),
    ('1 as &T', 7, 2),
    ('1 as (T)', 7, 2),
    ('1 as [T]', 7, 2),
    ('1 as *T', 7, 2),
    ('1 as <T', 7, 2),
    ('1 as ::T', 7, 2),
    # of the 24 glued tokens: `::` and those that begin with `<` or `|`
    ('a ::', 7, 1),
    (':: a', 7, 0),
    ('<< a', 7, 0),
    ('<= a', 7, 0),
    ('<<= a', 7, 0),
    ('|| a', 7, 0),
    ('|= a', 7, 0),
    # "(no reading is opened, so never 6)"
    ('(' * 128 + ')', 7, 128),
    ('(' * 128 + '1', 6, 128),
    ('-' * 127 + 'f(1)', 6, 129),
)

# ----------------------------------------------------------- stored forms


def section(tag, payload):
    return bytes([tag]) + len(payload).to_bytes(2, 'little') + bytes(payload)


def form(kinds, joints):
    return section(1, kinds) + section(2, joints)


def of_text(text):
    tokens = formula.lex(text)
    return form([token.kind for token in tokens],
                [token.joint for token in tokens])


def held(data, limit):
    """What bytes hold: (kinds, joints), or a refusal with its place.

    A byte is looked at one after the other, as 01 says it: a tag that is
    another byte fits no valid form, lengths and payloads may be anything, a
    byte after the joints fits none, and a file that ends too early is
    refused at its length. A length above the limit is 3 at 0 once its second
    byte is read.
    """
    lists, at = [], 0
    for tag in 1, 2:
        if at == len(data):
            return 10, at
        if data[at] != tag:
            return 10, at
        if len(data) < at + 3:
            return 10, len(data)
        length = data[at + 1] + 256 * data[at + 2]
        if length > limit:
            return 3, 0
        if len(data) < at + 3 + length:
            return 10, len(data)
        lists.append(data[at + 3:at + 3 + length])
        at += 3 + length
    if at < len(data):
        return 10, at
    return tuple(lists)


def checked(kinds, joints):
    """Refusals 3, 1 and 2 of a list, in this order, or None."""
    if len(kinds) != len(joints):
        return 3, 0
    for number, wrong in ((1, [not 1 <= kind <= 29 for kind in kinds]),
                          (2, [joint > 1 for joint in joints])):
        if any(wrong):
            return number, wrong.index(True)
    return None


def refusal(number, place):
    return f'refused {number} at {place}\n'


def answer(consumed, steps):
    return ''.join([f'consumed {consumed} steps {len(steps)}\n']
                   + [f'{step}\n' for step in steps])


BANG_ONE = form([25, 2], [1, 0])
BANG_ONE_ANSWER = answer(*LISTS[1][1:])


def of_damaged(data):
    """The answer to a damaged form of `!1`, where its list is still `!1` or
    is refused."""
    lists = held(data, READ_LIMIT)
    if isinstance(lists[0], int):
        return refusal(*lists)
    wrong = checked(*lists)
    if wrong:
        return refusal(*wrong)
    assert lists[0] == b'\x19\x02', data
    return BANG_ONE_ANSWER


def damaged():
    """Each beginning of a form, each byte changed, and a byte after."""
    for end in range(len(BANG_ONE)):
        yield BANG_ONE[:end]
    for at in range(len(BANG_ONE)):
        for byte in range(256):
            # another kind makes another list, and no damaged form
            if byte == BANG_ONE[at] or at in (3, 4) and 1 <= byte <= 29:
                continue
            yield BANG_ONE[:at] + bytes([byte]) + BANG_ONE[at + 1:]
    for byte in 0, 1, 2, 255:
        yield BANG_ONE + bytes([byte])


def deep():
    """128 readings open, one in the other."""
    minus, paren = '-' * 127, '(' * 127
    yield 'r', of_text(minus + '1'), answer(128, (
        [enter('PREFIX_EXPR'), tok('MINUS')] * 127 + ONE + [LEAVE] * 127))
    yield 'r', of_text(paren + '1' + ')' * 127), answer(255, (
        [enter('PAREN_EXPR'), tok('L_PAREN')] * 127 + ONE
        + [tok('R_PAREN'), LEAVE] * 127))
    # the 128th reading is open, and a `,` opens none
    yield 'r', of_text(minus + 'f(,)'), answer(131, (
        [enter('PREFIX_EXPR'), tok('MINUS')] * 127
        + node('CALL_EXPR', NAME, arguments(
            skipped('COMMA'), tok('R_PAREN'))) + [LEAVE] * 127))


def cases():
    """Yields a letter, the bytes and the answer."""
    for text, consumed, steps in LISTS:
        yield 'r', of_text(text), answer(consumed, steps)
    for text, consumed, steps in GLUED:
        yield 'r', of_text(text), answer(consumed, steps)
    yield from deep()
    for text, number, place in REFUSED:
        yield 'r', of_text(text), refusal(number, place)
    for data in damaged():
        yield 'r', data, of_damaged(data)
    # kinds and joints out of range at each place of a longer list
    for at in range(5):
        kinds, joints = [2, 19, 2, 21, 2], [0] * 5
        kinds[at] = 30
        yield 'r', form(kinds, joints), refusal(1, at)
        kinds[at], joints[at] = 2, 2
        yield 'r', form(kinds, joints), refusal(2, at)
    # order: 3 before 1 before 2
    yield 'r', form([0], []), refusal(3, 0)
    yield 'r', form([2, 0], [2, 0]), refusal(1, 1)
    # lengths around 256, of the kinds and of the joints, and nothing read on
    closing = [11]
    yield 'r', form(closing * 256, [0] * 256), answer(0, [error(1)])
    yield 'r', form(closing * 257, [0] * 257), refusal(3, 0)
    yield 'r', b'\x01\x01\x01', refusal(3, 0)
    yield 'r', b'\x01\x00\x01', refusal(10, 3)
    yield 'r', b'\x01\x00\x00\x02\x01\x01', refusal(3, 0)
    yield 'r', b'\x01\x00\x00\x01\x01\x01', refusal(10, 3)
    # the reader's own limit
    yield 'b', form(closing * 4096, [0] * 4096), answer(0, [error(1)])
    yield 'b', form(closing * 4097, [0] * 4097), refusal(3, 0)
    yield 'b', b'\x01\x01\x10', refusal(3, 0)
    yield 'b', b'\x01\x00\x10', refusal(10, 3)
    # a form that stands first, whatever follows it
    yield 'b', BANG_ONE + b'\x07', BANG_ONE_ANSWER
    yield 'b', BANG_ONE[:9], refusal(10, 9)
    yield 'b', b'', refusal(10, 0)


def main(arguments):
    if len(arguments) != 2:
        print(__doc__.strip(), file=sys.stderr)
        return 2
    stored, printed = b'', ''
    for letter, data, text in cases():
        stored += section(ord(letter), data)
        printed += text
    assert len(stored) <= 65536, len(stored)
    with open(arguments[0], 'wb') as file:
        file.write(stored)
    with open(arguments[1], 'w') as file:
        file.write(printed)
    print(f'{sum(1 for _ in cases())} cases, {len(stored)} bytes')
    return 0


if __name__ == '__main__':
    sys.exit(main(sys.argv[1:]))
