"""Tests of formula.py. The numbers here are the document's, written out by
hand, so that a slip in the tool's tables can't hide in the tests."""

import re
import unittest

import formula
import testing
from formula import (Answer, AnswerFault, LexError, Refusal, Token, cli,
                     texts)
from formula.drawing import refusal_lines, text_lines, tree_lines
from formula.source import Source
from formula.tree import Tree

(ERROR, LITERAL, PATH_EXPR, PATH, PATH_SEGMENT, NAME_REF, PAREN_EXPR, REF_EXPR,
 PREFIX_EXPR, BIN_EXPR, RANGE_EXPR, CALL_EXPR, ARG_LIST, INDEX_EXPR,
 METHOD_CALL_EXPR, FIELD_EXPR, AWAIT_EXPR, TRY_EXPR, CAST_EXPR,
 PATH_TYPE) = range(80, 100)

LEAVE = 196608
SPLIT, SPLIT_ENDING_IN_DOT = 262144, 262145


def enter(node):
    return 65536 + node


def token(kind, width=1):
    return 131072 + 256 * width + kind


def error(code):
    return 327680 + code


def literal():
    return [enter(LITERAL), token(2), LEAVE]


def name():
    return [enter(NAME_REF), token(1), LEAVE]


def path():
    return [enter(PATH_EXPR), enter(PATH), enter(PATH_SEGMENT), *name(),
            LEAVE, LEAVE, LEAVE]


def path_drawn(text, depth):
    names = ['PATH_EXPR', 'PATH', 'PATH_SEGMENT', 'NAME_REF', f'IDENT {text}']
    return ''.join('  ' * (depth + i) + line + '\n'
                   for i, line in enumerate(names))


def kinds(text):
    return [t.kind for t in formula.lex(text)]


def joints(text):
    return [t.joint for t in formula.lex(text)]


def spellings(text):
    return [t.text for t in formula.lex(text)]


def tree(text, consumed, steps):
    return Tree(Source(text), Answer(consumed, steps))


def drawn(text, consumed, steps):
    """Every node, two blanks a level, without columns."""
    return indented(tree_lines(tree(text, consumed, steps).roots, full=True))


def indented(lines):
    return ''.join(re.sub('[│├└─ ]{3}', '  ', line[:line.rindex('  ')])
                   .rstrip() + '\n' for line in lines)


class Lexing(unittest.TestCase):
    def test_every_raw_kind(self):
        text = ('a 1 1.5 "s" true false as mut await'
                ' ( ) [ ] , : . & | + - * / % ^ ! = < > ?')
        self.assertEqual(kinds(text), list(range(1, 30)))
        self.assertEqual(spellings(text), text.split())

    def test_the_example_of_the_usage_text(self):
        text = '-a as T * (b[0].x + 1)'
        self.assertEqual(
            kinds(text), [20, 1, 7, 1, 21, 10, 1, 12, 2, 13, 16, 1, 19, 2, 11])
        self.assertEqual(
            joints(text), [0, 0, 0, 0, 0, 0, 1, 1, 1, 1, 0, 0, 0, 1, 0])

    def test_starts(self):
        self.assertEqual([t.start for t in formula.lex(' a +=\n1')],
                         [1, 3, 4, 6])

    def test_names(self):
        for text in ('x', '_x', 'x1', 'é', 'union', 'r', 'gen', 'True', 'asm'):
            self.assertEqual(kinds(text), [1], text)

    def test_integers(self):
        for text in ('0', '12', '1_000', '0x1f', '0xE5', '0b10', '0o17', '1u8',
                     '0u8', '1f32', '0x1e5', '1_', '0b1_u8'):
            self.assertEqual(kinds(text), [2], text)

    def test_floats(self):
        for text in ('1.0', '1.', '0.', '0.1', '1e5', '1E+5', '1.0e-3',
                     '1.0f32', '1_0.0_1', '1e-5_0', '00.5', '0e0'):
            self.assertEqual(kinds(text), [3], text)

    def test_dots_after_digits(self):
        cases = {
            '1..2': ['1', '.', '.', '2'],
            '1.foo': ['1', '.', 'foo'],
            '1.e5': ['1', '.', 'e5'],
            '1._0': ['1', '.', '_0'],
            '1. + 2': ['1.', '+', '2'],
            '1.+2': ['1.', '+', '2'],
            '1.0.1': ['1.0', '.', '1'],
            '1.0..2': ['1.0', '.', '.', '2'],
            'a.0.1': ['a', '.', '0.1'],
            'a.0. b': ['a', '.', '0.', 'b'],
            'a.0.b': ['a', '.', '0', '.', 'b'],
            'a.0.1.2.3': ['a', '.', '0.1', '.', '2.3'],
            '1./**/2': ['1.', '2'],
        }
        for text, expected in cases.items():
            self.assertEqual(spellings(text), expected, text)

    def test_strings(self):
        for text in ('""', '"a b"', r'"\""', r'"\\"', '"a\nb"', 'r"\\"',
                     'r#"a"b"#', 'r##"a"#b"##', '"a"suffix'):
            self.assertEqual(kinds(text), [4], text)

    def test_comments_and_blanks_are_skipped(self):
        self.assertEqual(spellings('a // b\n+ /* c /* d */ e */ 1\t'),
                         ['a', '+', '1'])
        self.assertEqual(formula.lex(' // nothing'), [])


class Joints(unittest.TestCase):
    def test_punctuation_and_numbers_that_touch(self):
        self.assertEqual(joints('!1'), [1, 0])
        self.assertEqual(joints('! 1'), [0, 0])
        self.assertEqual(joints('1+2'), [1, 1, 0])
        self.assertEqual(joints('(true)'), [1, 1, 0])
        self.assertEqual(joints('"a"+1'), [1, 1, 0])

    def test_comments_break_joints(self):
        self.assertEqual(joints('&/**/&'), [0, 0])
        self.assertEqual(joints('&//\n&'), [0, 0])

    def test_an_identifier_makes_nothing_joint(self):
        self.assertEqual(joints('-a'), [0, 0])
        self.assertEqual(joints('a+b'), [0, 0, 0])

    def test_an_identifier_hands_on_the_joint_before_it(self):
        self.assertEqual(joints('(a)'), [0, 1, 0])
        self.assertEqual(joints('( a)'), [0, 0, 0])
        self.assertEqual(joints('(a )'), [0, 0, 0])

    def test_await_is_no_identifier(self):
        self.assertEqual(joints('a.await'), [0, 1, 0])

    def test_a_float_is_joint_unless_it_ends_in_a_dot(self):
        for text in ('0.1', '1e5', '1.0f32', '1.5 +'):
            self.assertEqual(joints(text)[0], 1, text)
        for text in ('0.', '0.+', '0. +', '0.)'):
            self.assertEqual(joints(text)[0], 0, text)
        self.assertEqual(joints('(0.)'), [1, 0, 0])
        self.assertEqual(joints('(0.1)'), [1, 1, 0])
        self.assertEqual(joints('a.0.1'), [0, 1, 1])
        self.assertEqual(joints('a.0. b'), [0, 1, 0, 0])

    def test_all_glued_tokens(self):
        spellings = ('-= -> :: != .. *= /= && &= %= ^= += << <= == => >= >> |='
                     ' || ... ..= <<= >>=').split()
        self.assertEqual(len(spellings), 24)
        for kind, spelling in enumerate(spellings, 40):
            tokens = formula.lex(f'a {spelling} b')
            parts = tokens[1:-1]
            self.assertEqual(''.join(t.text for t in parts), spelling)
            self.assertEqual(tuple(t.kind for t in parts), formula.GLUED[kind])
            self.assertEqual([t.joint for t in parts],
                             [1] * (len(parts) - 1) + [0])
            self.assertEqual(Source('', tokens).longest_glued(1), len(spelling))

    def test_parts_apart_are_not_glued(self):
        self.assertEqual(Source('. .').longest_glued(0), 1)
        self.assertEqual(Source('.. .').longest_glued(0), 2)


class TextOutsideTheCut(unittest.TestCase):
    def assert_refused(self, text, column, words):
        with self.assertRaises(LexError) as caught:
            formula.lex(text)
        self.assertEqual(caught.exception.column, column, text)
        self.assertIn(words, str(caught.exception))

    def test_characters(self):
        for char in ';{}#@$~\\`':
            self.assert_refused('a + ' + char, 5, f'`{char}` is outside')
        self.assert_refused('a\0', 2, 'U+0000 is outside')

    def test_keywords(self):
        for word in ('if', 'self', 'Self', 'crate', 'async', 'dyn', 'let'):
            self.assert_refused(f'a + {word}', 5, f'keyword `{word}`')
        self.assert_refused('_', 1, '`_`')

    def test_literals(self):
        self.assert_refused("1 + 'a'", 5, 'lifetimes')
        self.assert_refused('b"a"', 1, 'prefix `b`')
        self.assert_refused("b'a'", 1, 'prefix `b`')
        self.assert_refused('cr#"a"#', 1, 'prefix `cr`')
        self.assert_refused('r#x', 1, 'raw identifiers')
        self.assert_refused('a "b', 3, 'no end')
        self.assert_refused('a "b\\"', 3, 'no end')
        self.assert_refused('r#"b"', 1, 'no end')
        self.assert_refused('a /* /* */', 3, 'no end')
        self.assert_refused('0x', 1, 'no digits after the base')
        self.assert_refused('0b_', 1, 'no digits after the base')
        self.assert_refused('1e', 1, 'no digits in the exponent')
        self.assert_refused('1.5e+', 1, 'no digits in the exponent')

    def test_a_caret_points_at_it(self):
        with self.assertRaises(LexError) as caught:
            formula.lex('a +\n ;')
        self.assertEqual(
            str(caught.exception),
            'column 6: `;` is outside the cut\n  a +  ;\n       ^')


class StoredForm(unittest.TestCase):
    def test_p2(self):
        self.assertEqual(list(formula.encode(formula.lex('!1'))),
                         [1, 2, 0, 25, 2, 2, 2, 0, 1, 0])

    def test_empty(self):
        self.assertEqual(list(formula.encode([])), [1, 0, 0, 2, 0, 0])

    def test_packed(self):
        """02: tag 3, eight to a byte, first token in the lowest bit."""
        self.assertEqual(list(formula.encode(formula.lex('!1'), packed=True)),
                         [1, 2, 0, 25, 2, 3, 1, 0, 1])
        self.assertEqual(list(formula.encode([], packed=True)),
                         [1, 0, 0, 3, 0, 0])
        nine = formula.lex('- -- ---- --')
        self.assertEqual([t.joint for t in nine], [0, 1, 0, 1, 1, 1, 0, 1, 0])
        self.assertEqual(list(formula.encode(nine, packed=True))[12:],
                         [3, 2, 0, 0b10111010, 0])
        nine = formula.lex('-' * 10)
        self.assertEqual(list(formula.encode(nine, packed=True))[13:],
                         [3, 2, 0, 255, 1])

    def test_low_byte_first(self):
        stored = formula.encode(formula.lex('-' * 258))
        self.assertEqual(list(stored[:3]), [1, 2, 1])
        self.assertEqual(list(stored[261:264]), [2, 2, 1])
        self.assertEqual(len(stored), 2 * (3 + 258))

    def test_round_trip(self):
        for text in ('', '!1', 'a.0.1', 'f(x, "y")? as T <<= 1..=2', '-' * 4097):
            tokens = formula.lex(text)
            self.assertEqual(formula.decode(formula.encode(tokens)),
                             ([t.kind for t in tokens],
                              [t.joint for t in tokens]))

    def test_too_many_tokens(self):
        with self.assertRaises(formula.FormulaError):
            formula.encode([Token(20, 0, '-', 0)] * 65536)

    def test_free_bytes_and_unequal_lengths_decode(self):
        self.assertEqual(formula.decode(bytes([1, 1, 0, 99, 2, 0, 0])),
                         ([99], []))

    def test_broken_forms(self):
        cases = [
            ([], 0), ([2], 0), ([1], 1), ([1, 0], 2), ([1, 0, 0], 3),
            ([1, 1, 0], 3), ([1, 1, 0, 5], 4), ([1, 0, 0, 1], 3),
            ([1, 0, 0, 2, 0, 0, 0], 6), ([1, 0, 0, 2, 1, 0], 6),
            ([1, 0, 0, 2, 2, 0, 1], 7),
        ]
        for stored, place in cases:
            with self.assertRaises(formula.BrokenForm) as caught:
                formula.decode(bytes(stored))
            self.assertEqual(caught.exception.place, place, stored)


class ReadingAnswers(unittest.TestCase):
    def test_steps(self):
        self.assertEqual(formula.parse_answer(['consumed 2 steps 1\n', '7\n']),
                         Answer(2, [7]))

    def test_refusal(self):
        self.assertEqual(formula.parse_answer(['refused 7 at 3']),
                         Refusal(7, 3))

    def test_anything_else_is_a_fault(self):
        for lines in ([], [''], ['consumed 2'], ['consumed 02 steps 0'],
                      ['consumed 0 steps 1'], ['consumed 0 steps 0', '1'],
                      ['consumed 0 steps 1', 'x'], ['consumed 0 steps 1', '-1'],
                      ['consumed 0 steps 1', '1', ''], ['refused 7'],
                      ['refused 7 at 3', '1'], ['Refused 7 at 3']):
            with self.assertRaises(AnswerFault, msg=lines):
                formula.parse_answer(lines)


class Drawings(unittest.TestCase):
    maxDiff = None

    def test_p1_empty(self):
        steps = [enter(ERROR), error(1), LEAVE]
        self.assertEqual(drawn('', 0, steps),
                         'ERROR\n'
                         '  error: expected expression (1)\n')

    def test_p2_prefix(self):
        steps = [65624, 131353, 65617, 131330, 196608, 196608]
        self.assertEqual(drawn('!1', 2, steps),
                         'PREFIX_EXPR\n'
                         '  BANG !\n'
                         '  LITERAL\n'
                         '    INT_NUMBER 1\n')

    def test_p3_product_inside_sum(self):
        steps = [enter(BIN_EXPR), *literal(), token(19),
                 enter(BIN_EXPR), *literal(), token(21), *literal(), LEAVE,
                 LEAVE]
        self.assertEqual(len(steps), 15)
        self.assertEqual(drawn('1 + 2 * 3', 5, steps),
                         'BIN_EXPR\n'
                         '  LITERAL\n'
                         '    INT_NUMBER 1\n'
                         '  PLUS +\n'
                         '  BIN_EXPR\n'
                         '    LITERAL\n'
                         '      INT_NUMBER 2\n'
                         '    STAR *\n'
                         '    LITERAL\n'
                         '      INT_NUMBER 3\n')

    def test_p6_cast_of_the_prefix(self):
        steps = [enter(CAST_EXPR), enter(PREFIX_EXPR), token(20), *literal(),
                 LEAVE, token(7), enter(PATH_TYPE), enter(PATH),
                 enter(PATH_SEGMENT), *name(), LEAVE, LEAVE, LEAVE, LEAVE]
        self.assertEqual(len(steps), 18)
        self.assertEqual(drawn('-1 as T', 4, steps),
                         'CAST_EXPR\n'
                         '  PREFIX_EXPR\n'
                         '    MINUS -\n'
                         '    LITERAL\n'
                         '      INT_NUMBER 1\n'
                         '  AS_KW as\n'
                         '  PATH_TYPE\n'
                         '    PATH\n'
                         '      PATH_SEGMENT\n'
                         '        NAME_REF\n'
                         '          IDENT T\n')

    def test_p7_an_unread_rest(self):
        steps = [enter(RANGE_EXPR), *literal(), token(44, 2), LEAVE]
        self.assertEqual(drawn('1.. + 2', 3, steps),
                         'RANGE_EXPR\n'
                         '  LITERAL\n'
                         '    INT_NUMBER 1\n'
                         '  DOT2 ..\n')
        self.assertEqual(text_lines(tree('1.. + 2', 3, steps)),
                         ['1.. + 2',
                          '    ^^^ unread: the reading ends before this'])

    def test_p9_a_float_split_in_two(self):
        steps = [enter(FIELD_EXPR), enter(FIELD_EXPR), *path(), token(16),
                 SPLIT]
        self.assertEqual(len(steps), 13)
        self.assertEqual(drawn('a.0.1', 3, steps),
                         'FIELD_EXPR\n'
                         '  FIELD_EXPR\n'
                         + path_drawn('a', 2) +
                         '    DOT .\n'
                         '    NAME_REF\n'
                         '      INT_NUMBER 0\n'
                         '  DOT .\n'
                         '  NAME_REF\n'
                         '    INT_NUMBER 1\n')

    def test_p10_a_float_that_ends_in_a_dot(self):
        steps = [enter(FIELD_EXPR), enter(FIELD_EXPR), *path(), token(16),
                 SPLIT_ENDING_IN_DOT, *name(), LEAVE]
        self.assertEqual(len(steps), 17)
        self.assertEqual(drawn('a.0. b', 4, steps),
                         'FIELD_EXPR\n'
                         '  FIELD_EXPR\n'
                         + path_drawn('a', 2) +
                         '    DOT .\n'
                         '    NAME_REF\n'
                         '      INT_NUMBER 0\n'
                         '  DOT .\n'
                         '  NAME_REF\n'
                         '    IDENT b\n')

    def test_p11_two_errors(self):
        steps = [enter(INDEX_EXPR), *path(), token(12), enter(ERROR), error(1),
                 LEAVE, error(6), LEAVE]
        self.assertEqual(len(steps), 16)
        self.assertEqual(drawn('a[', 2, steps),
                         'INDEX_EXPR\n'
                         + path_drawn('a', 1) +
                         '  L_BRACK [\n'
                         '  ERROR\n'
                         '    error: expected expression (1)\n'
                         '  error: expected `]` (6)\n')

    def test_p12_two_references(self):
        steps = [enter(REF_EXPR), token(17), enter(REF_EXPR), token(17),
                 *path(), LEAVE, LEAVE]
        self.assertEqual(len(steps), 15)
        self.assertEqual(drawn('&&x', 3, steps),
                         'REF_EXPR\n'
                         '  AMP &\n'
                         '  REF_EXPR\n'
                         '    AMP &\n'
                         + path_drawn('x', 2))

    def test_an_error_names_its_place(self):
        steps = [enter(BIN_EXPR), *literal(), token(19), enter(ERROR),
                 error(1), token(22), LEAVE, LEAVE]
        self.assertEqual(drawn('1 + / 2', 3, steps),
                         'BIN_EXPR\n'
                         '  LITERAL\n'
                         '    INT_NUMBER 1\n'
                         '  PLUS +\n'
                         '  ERROR\n'
                         '    error: expected expression (1)\n'
                         '    SLASH /\n')

    def test_the_error_that_no_node_holds(self):
        self.assertEqual(drawn(') + 1', 0, [327681]),
                         'error: expected expression (1)\n')

    def test_a_float_without_a_dot_as_a_field(self):
        steps = [enter(FIELD_EXPR), enter(FIELD_EXPR), *path(), token(16),
                 SPLIT]
        self.assertEqual(drawn('a.1e5', 3, steps),
                         'FIELD_EXPR\n'
                         '  FIELD_EXPR\n'
                         + path_drawn('a', 2) +
                         '    DOT .\n'
                         '    error: illegal float literal, says this tool\n'
                         '    ERROR\n'
                         '      FLOAT_NUMBER 1e5\n')

    def test_a_glued_token_is_one_leaf(self):
        steps = [enter(BIN_EXPR), *literal(), token(63, 3), *literal(), LEAVE]
        self.assertIn('  SHREQ >>=\n', drawn('1 >>= 2', 5, steps))

    def test_a_string_stays_on_its_line(self):
        steps = [enter(LITERAL), token(4), LEAVE]
        self.assertEqual(drawn('"a\nb"', 1, steps),
                         'LITERAL\n  STRING "a b"\n')


class Refusals(unittest.TestCase):
    def refused(self, text, number, place):
        return self.lines(Source(text), number, place)

    def lines(self, source, number, place):
        return ''.join(line + '\n' for line
                       in refusal_lines(source, Refusal(number, place)))

    def test_a_form_outside_the_cut(self):
        self.assertEqual(self.refused('a.b::c', 7, 3),
                         'refused: a form outside the cut (7),'
                         ' at token 3 `::` (column 4)\n'
                         '  a.b::c\n'
                         '     ^^\n')

    def test_the_text_stands_on_one_line(self):
        self.assertEqual(self.refused('1 /* one */ as\n[ 2', 7, 2),
                         'refused: a form outside the cut (7),'
                         ' at token 2 `[` (column 16)\n'
                         '  1 /* one */ as [ 2\n'
                         '                 ^\n')

    def test_at_the_end(self):
        self.assertEqual(self.refused('--', 6, 2),
                         'refused: too many expressions open at once (6),'
                         ' at the end\n'
                         '  --\n'
                         '    ^\n')

    def test_a_kind_that_has_no_name(self):
        source = Source('?', [Token(0, 0, '?', 0)])
        self.assertEqual(self.lines(source, 1, 0),
                         'refused: a kind is not 1 to 29 (1),'
                         ' at token 0 `?` (column 1)\n'
                         '  ?\n'
                         '  ^\n')

    def test_places_that_are_no_tokens(self):
        self.assertEqual(
            self.refused('1', 3, 0),
            'refused: lists of unequal length, or too many tokens (3)\n')
        self.assertEqual(
            self.refused('1', 5, 1),
            'refused: more steps than step room (5), tokens consumed: 1\n')
        self.assertEqual(
            self.refused('1', 8, 9),
            'refused: a machine call with an unfit marker, kind or code (8),'
            ' at marker 9\n')
        self.assertEqual(
            self.refused('1', 10, 4),
            'refused: the stored form is broken (10), at byte 4\n')

    def test_every_refusal_has_words(self):
        for number in range(1, 11):
            self.assertIn(f'({number})', self.refused('1', number, 0))

    def test_places_that_can_not_be(self):
        for number, place in ((1, 1), (2, 1), (3, 1), (4, 2), (5, 2), (6, 2),
                              (7, 1), (9, 1), (0, 0), (11, 0)):
            with self.assertRaises(AnswerFault, msg=(number, place)):
                self.refused('1', number, place)


class AnswersThatDoNotFit(unittest.TestCase):
    def assert_fault(self, words, text, consumed, steps):
        with self.assertRaises(AnswerFault) as caught:
            drawn(text, consumed, steps)
        self.assertIn(words, str(caught.exception))

    def test_balance(self):
        self.assert_fault('nodes never left: PREFIX_EXPR', '!1', 2,
                          [65624, 131353, 65617, 131330, 196608])
        self.assert_fault('a leave without an enter', '!1', 2,
                          [65624, 131353, 65617, 131330, LEAVE, LEAVE, LEAVE])

    def test_consumed(self):
        self.assert_fault('the steps take 1 tokens, the answer says 2', '1 2',
                          2, literal())
        self.assert_fault('the steps take 1 tokens, the answer says 0', '1',
                          0, literal())

    def test_roots(self):
        self.assert_fault('a second root', '1 1', 2, literal() + literal())
        self.assert_fault('there are no steps', '1', 0, [])

    def test_outside_every_node(self):
        self.assert_fault('a token outside every node', '1', 1, [token(2)])
        self.assert_fault('an error outside every node', '1', 1,
                          literal() + [error(1)])
        self.assert_fault('an error outside every node', ')', 0, [error(5)])

    def test_tokens(self):
        def one_token(step):
            return [enter(LITERAL), step, LEAVE]

        self.assert_fault('step 1 (131331): FLOAT_NUMBER of width 1 taken,'
                          ' INT_NUMBER 1 found', '1', 1, one_token(token(3)))
        self.assert_fault('runs past', '1', 1, one_token(token(2, 2)))
        self.assert_fault('nothing found', '1', 0, one_token(token(2, 0)))
        self.assert_fault('runs past', '', 1, one_token(token(2)))
        self.assert_fault('DOT2 of width 2 taken, DOT . DOT . found', '. .', 2,
                          one_token(token(44, 2)))
        self.assert_fault('DOT2 of width 3 taken', '...', 3,
                          one_token(token(44, 3)))
        self.assert_fault('DOT of width 2 taken', '..', 2,
                          one_token(token(16, 2)))

    def test_splits(self):
        before = [enter(FIELD_EXPR), enter(FIELD_EXPR), *path(), token(16)]
        self.assert_fault('the joint byte of `0.1` is 1', 'a.0.1', 3,
                          before + [SPLIT_ENDING_IN_DOT, LEAVE])
        self.assert_fault('the joint byte of `0.` is 0', 'a.0. b', 3,
                          before + [SPLIT])
        self.assert_fault('a split of no FLOAT_NUMBER', 'a.b', 3,
                          before + [SPLIT])
        self.assert_fault('a split of no FLOAT_NUMBER', 'a.', 3,
                          before + [SPLIT])
        self.assert_fault('no FIELD_EXPR', 'a.0.1', 3,
                          [enter(BIN_EXPR), *before[1:], SPLIT])
        self.assert_fault('a leave without an enter', 'a.0.1', 3,
                          before + [SPLIT, LEAVE])
        self.assert_fault('a token outside every node', 'a.0. b', 3,
                          before[1:] + [SPLIT_ENDING_IN_DOT])

    def test_numbers_that_are_no_steps(self):
        for step in (0, 65535, enter(79), enter(100), token(0), token(30),
                     token(39), token(64), LEAVE + 1, SPLIT + 2, error(0),
                     error(8), 393216, 2 ** 32 + LEAVE):
            self.assert_fault(f'step 1 ({step}): this is no step', '1', 1,
                              [enter(LITERAL), step, LEAVE])

    def test_the_tree_up_to_the_fault_is_kept(self):
        with self.assertRaises(AnswerFault) as caught:
            drawn('!1', 2, [65624, 131353, 0])
        self.assertEqual(indented(tree_lines(caught.exception.roots, True)),
                         'PREFIX_EXPR\n  BANG !\n')


class CommandLine(testing.Case):
    P2_ANSWER = ('consumed 2 steps 6\n65624\n131353\n65617\n131330\n196608\n'
                 '196608\n')
    P2_DRAWN = ('!1\n'
                'PREFIX_EXPR   1-2\n'
                '├─ !          1\n'
                '└─ LITERAL 1  2\n'
                'columns: counted by this tool from the steps; all else is the'
                ' answer of the proved program\n')

    def test_encode(self):
        done = testing.call('encode', '!1')
        self.assertEqual(done.stdout, bytes([1, 2, 0, 25, 2, 2, 2, 0, 1, 0]))
        self.assert_prints('1 2 0 25 2 2 2 0 1 0\n',
                           'encode', '--decimal', '!1')
        self.assert_prints('1 2 0 25 2 3 1 0 1\n',
                           'encode', '--packed', '--decimal', '!1')
        self.assert_prints('01 02 00 19 02 02 02 00 01 00\n',
                           'encode', '--hex', '!1')

    def test_a_formula_may_look_like_an_option(self):
        self.assert_prints('1 2 0 20 1 2 2 0 0 0\n',
                           'encode', '--decimal', '-h')
        self.assert_prints('1 3 0 20 20 1 2 3 0 1 0 0\n',
                           'encode', '--x', '--decimal')

    def test_tokens(self):
        self.assert_prints('index  kind             joint  column  text\n'
                           '    0  25 BANG              1       1  !\n'
                           '    1   2 INT_NUMBER        0       2  1\n',
                           'tokens', '!1')

    def test_draw(self):
        self.assert_prints(self.P2_DRAWN, 'draw', '!1',
                           given=self.P2_ANSWER.encode())
        self.assert_prints('refused: a form outside the cut (7),'
                           ' at token 0 `|` (column 1)\n  |\n  ^\n',
                           'draw', '|', given=b'refused 7 at 0\n')

    def test_draw_of_an_answer_to_something_else(self):
        self.assert_fails(1, 'THE ANSWER DOES NOT FIT: step 1',
                          'draw', '-1', given=self.P2_ANSWER.encode())

    def test_show(self):
        program = self.program(
            'import sys\n'
            'wanted = bytes([1, 2, 0, 25, 2, 2, 2, 0, 1, 0])\n'
            'assert sys.stdin.buffer.read() == wanted\n'
            f'print({self.P2_ANSWER!r}, end="")\n')
        self.assert_prints(self.P2_DRAWN, 'show', program, '!1')

    def test_show_of_a_program_that_fails(self):
        program = self.program('import sys\nsys.exit("no luck")\n')
        self.assert_fails(1, 'no luck', 'show', program, '!1')
        self.assert_fails(1, 'exit status 1', 'show', program, '!1')
        self.assert_fails(1, "can't run", 'show', './no-such-program', '!1')
        self.assert_fails(1, "can't run", 'show', '', '!1')

    def test_text_outside_the_cut(self):
        self.assert_fails(1, 'column 3: keyword `if` is outside the cut\n'
                             '  ! if\n'
                             '    ^\n', 'encode', '! if')

    def test_usage(self):
        self.assert_prints(texts.SUMMARY, 'help')
        self.assert_prints(texts.HELP['encode'], 'help', 'encode')
        self.assert_prints(texts.HELP['encode'], 'encode', '--help')
        self.assert_fails(2, 'usage:')
        self.assert_fails(2, 'usage:', 'paint', '!1')
        self.assert_fails(2, 'usage: formula.py encode', 'encode')
        self.assert_fails(2, 'usage:', 'encode', '!1', '--decimals')
        self.assert_fails(2, 'usage:', 'encode', '--hex', '--decimal', '!1')
        self.assert_fails(2, 'usage:', 'show')
        self.assert_fails(2, '--program wants a value', 'show', '--program')

    def test_every_command_has_a_help(self):
        for name in cli.COMMANDS:
            self.assertTrue(texts.HELP[name].startswith(
                f'formula.py {name} '), name)
            self.assertIn(f'formula.py {name} ', texts.SUMMARY)
            self.assertIn(f'formula.py {name} ', texts.example_of(name))


if __name__ == '__main__':
    unittest.main()
