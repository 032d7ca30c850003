"""Tests of the commands `group` and `show`: what a person sees."""

import itertools
import os
import pty
import subprocess
import sys
import unittest

import testing
from formula import lex
from formula.lines import carets, cells
from formula.reading import READER, read
from formula.numbers import PAREN_EXPR
from formula.tree import Leaf, Mark, fold

GUARD = '(p - p0) * gain[i].k / (t as T) < limit && !fault(x, y) || mode == 3'


@testing.needs(READER)
class Groupings(unittest.TestCase):
    # worked out from the precedence table of the Rust Reference, by hand
    CASES = {
        'a == b && c + 1 < d': '((a == b) && ((c + 1) < d))',
        GUARD: '((((((p - p0) * gain[i].k) / (t as T)) < limit)'
               ' && (!(fault(x, y)))) || (mode == 3))',
        '1 + 2 * 3': '(1 + (2 * 3))',
        '1 = 2 = 3': '(1 = (2 = 3))',
        '1 - 2 - 3': '((1 - 2) - 3)',
        '-a as T': '((-a) as T)',
        '-a.b': '(-(a.b))',
        '&mut a[0]': '(&mut (a[0]))',
        '&&x': '(&(&x))',
        '- -a': '(-(-a))',
        '(a)': '(a)',
        '((a + b)) * c': '((a + b) * c)',
        'f(a + b, c,)': 'f((a + b), c,)',
        'x.f(1)?.await.0': 'x.f(1)?.await.0',
        'a.0.1 + b.0. c': '(a.0.1 + b.0.c)',
        'a..b': '(a..b)',
        '1. ..2': '(1. ..2)',
        'x = 1.. + 2': '((x = (1..)) + 2)',
        '0x1F + "a  b"': '(0x1F + "a  b")',
        'a::b::c as T::U': '(a::b::c as T::U)',
        'p/*low*/<  1': '(p < 1)',
    }

    MARKED = {
        '1 + / 2': '(1 + {expected expression: /}) {unread: 2}',
        'a < b ) && c': '(a < b) {unread: ) && c}',
        'f(1 2': 'f(1 {expected `,`} 2 {expected `)`}',
        'a[': 'a[{expected expression} {expected `]`}',
        '': '{expected expression}',
        ')': '{expected expression} {unread: )}',
        'a.': 'a. {expected field name or number}',
        '1 as 1': '(1 as {expected type}) {unread: 1}',
    }

    def test_by_hand(self):
        for text, expected in {**self.CASES, **self.MARKED}.items():
            with self.subTest(text=text):
                self.assertEqual(read(text).grouped(), expected + '\n')

    def test_a_refusal_is_told_in_words(self):
        self.assertEqual(read('a.b::c').grouped(),
                         'refused: a form outside the cut (7),'
                         ' at token 3 `::` (column 4)\n'
                         '  a.b::c\n     ^^\n')

    def test_read_again_it_groups_the_same(self):
        """Parentheses change nothing but where they stand."""
        operators = '=', '..', '||', '<', '&', '+', 'as', '*'
        for one, other in itertools.product(operators, repeat=2):
            text = (f'-a {one} {"T" if one == "as" else "b.c"} {other}'
                    f' {"U" if other == "as" else "!d[0]"}')
            first = read(text)
            if first.refusal or first.tree.marks or first.tree.unread:
                continue
            with self.subTest(text=text):
                again = read(first.grouped())
                self.assertEqual(again.grouped(), first.grouped())
                self.assertEqual(shape(again.tree), shape(first.tree))

    def test_a_long_sum(self):
        text = ' + '.join('1' * 2000)
        self.assertEqual(len(lex(text)), 3999)
        grouped = read(text).grouped()
        self.assertEqual(grouped, '(' * 1999 + '1' + ' + 1)' * 1999 + '\n')
        self.assertEqual(read(text).drawn().count('\n'), 1 + 5998 + 1)


def shape(tree):
    """A tree without its parentheses, as a flat text."""
    def text_of(part, texts):
        if isinstance(part, Leaf):
            return part.text
        if isinstance(part, Mark):
            return '!'
        if part.kind == PAREN_EXPR:
            return texts[1]
        return f'<{part.name} {" ".join(texts)}>'
    return fold(tree.root, text_of)


@testing.needs(READER)
class Shown(testing.Case):
    def test_lines_and_columns(self):
        self.assert_prints(
            'a == b && !é\n'
            'BIN_EXPR           1-12\n'
            '├─ BIN_EXPR        1-6\n'
            '│  ├─ PATH_EXPR a  1\n'
            '│  ├─ ==           3-4\n'
            '│  └─ PATH_EXPR b  6\n'
            '├─ &&              8-9\n'
            '└─ PREFIX_EXPR     11-12\n'
            '   ├─ !            11\n'
            '   └─ PATH_EXPR é  12\n'
            'columns: counted by this tool from the steps; all else is the'
            ' answer of the proved program\n',
            'show', 'a == b && !é')

    def test_full(self):
        self.assert_prints(
            'a::b\n'
            'PATH_EXPR               1-4\n'
            '└─ PATH                 1-4\n'
            '   ├─ PATH              1\n'
            '   │  └─ PATH_SEGMENT   1\n'
            '   │     └─ NAME_REF    1\n'
            '   │        └─ IDENT a  1\n'
            '   ├─ COLON2 ::         2-3\n'
            '   └─ PATH_SEGMENT      4\n'
            '      └─ NAME_REF       4\n'
            '         └─ IDENT b     4\n'
            'columns: counted by this tool from the steps; all else is the'
            ' answer of the proved program\n',
            'show', '--full', 'a::b')

    def test_carets_under_errors_and_rest(self):
        lines = read('f(1 2 ').drawn().split('\n')
        self.assertEqual(lines[:3], ['f(1 2 ',
                                     '    ^ error: expected `,` (7)',
                                     '     ^ error: expected `)` (5)'])
        lines = read('a < b ) && c').drawn().split('\n')
        self.assertEqual(lines[:2], [
            'a < b ) && c',
            '      ^^^^^^ unread: the reading ends before this'])

    def test_carets_under_wide_characters(self):
        self.assertEqual(cells('日本'), 4)
        self.assertEqual(cells('e\u0301'), 1)
        self.assertEqual(carets('日本 / c', 3, 4), '     ^')

    def test_a_program_of_ones_own(self):
        answer = 'consumed 1 steps 3\n65617\n131330\n196608\n'
        program = self.printer(answer)
        for words in (['--program', program, '7'], [program, '7']):
            done = testing.call('show', *words)
            self.assertIn('LITERAL 7  1\n', done.stdout.decode())
            self.assertEqual(testing.call('group', *words).stdout, b'7\n')

    def test_a_formula_that_looks_like_an_option(self):
        self.assert_prints('(-(-full))\n', 'group', '--full')
        done = testing.call('show', ' --full')
        self.assertIn('PATH_EXPR full', done.stdout.decode())


@testing.needs(READER)
class Colours(unittest.TestCase):
    def on_a_terminal(self, *arguments, **more):
        """What the tool writes to a terminal."""
        ours, theirs = pty.openpty()
        process = subprocess.Popen(
            [sys.executable, testing.TOOL, *arguments], stdout=theirs,
            env=testing.environment(TERM='xterm', **more))
        os.close(theirs)
        written = b''
        while True:
            try:
                data = os.read(ours, 4096)
            except OSError:
                break
            if not data:
                break
            written += data
        process.wait()
        os.close(ours)
        return written

    def test_on_a_terminal_alone(self):
        self.assertIn(b'\x1b[', self.on_a_terminal('show', '1 +'))
        self.assertNotIn(b'\x1b[', testing.call('show', '1 +').stdout)

    def test_no_color(self):
        self.assertNotIn(b'\x1b[',
                         self.on_a_terminal('show', '1 +', NO_COLOR='1'))
        self.assertIn(b'\x1b[', self.on_a_terminal('show', '1 +', NO_COLOR=''))


if __name__ == '__main__':
    unittest.main()
