"""Tests of `formula.py diff`: findings by hand, and that they and `compare`
never contradict each other."""

import itertools
import os
import tempfile
import unittest

import testing
from formula.diff import pairs_of
from formula.faults import AnswerFault
from formula.numbers import step_words
from formula.page_style import STYLE
from formula.revisions import (Revisions, Step, difference_words, step_lines,
                               warnings)

FORMULAS = ('a', 'b', '1', 'a + b', 'a + c', 'a - b', 'a < b', 'a <= b',
            '(a + b)', 'a + b * c', '(a + b) * c', '-a', '!a', 'f(a)',
            'f(a, b)', 'f()', 'a.b', 'a.c', 'a[b]', 'a as T', 'a..', 'a.0.1',
            'a && b', 'a && b && c', 'a +', 'a )', ')', '')


@testing.needs('batch', 'compare')
class Findings(unittest.TestCase):
    # first, second, what is marked in each, and the words
    CASES = (
        ('a < b', 'a <= b', ['<'], ['<='],
         'in `a < b` (columns 1-5), `<` became `<=`'),
        ('lo < p && p < hi', 'lo < p && p < hi + 1', ['hi'], ['hi + 1'],
         '`hi` (columns 15-16) became `hi + 1` (columns 15-20)'),
        ('a && b', 'a && b && c', [], ['&& c'],
         '`&& c` was put around `a && b` (columns 1-6)'),
        ('a + b', '(a + b)', [], ['(', ')'],
         '`( .. )` was put around `a + b` (columns 1-5)'),
        ('a.f(b)?', 'a.f(b)', ['?'], [],
         '`?` was taken away from around `a.f(b)` (columns 1-6)'),
        ('f(1, 2)', 'f(1, 2, x)', [], [', x'],
         'in `(1, 2)` (columns 2-7), `, x` was added'),
        ('f(1, 2)', 'f(2)', ['1,'], [],
         'in `(1, 2)` (columns 2-7), `1,` was taken out'),
        ('a + b', 'c - d', ['a + b'], ['c - d'],
         '`a + b` (columns 1-5) became `c - d` (columns 1-5)'),
        ('p == 1', 'p == 2', ['1'], ['2'],
         '`1` (column 6) became `2` (column 6): a name or a number, found by'
         ' this tool; steps hold none'),
        ('a', '', ['a'], [''],
         '`a` (column 1) became `nothing` (column 1)'),
    )

    def test_by_hand(self):
        for first, second, ours, theirs, words in self.CASES:
            with self.subTest(first=first, second=second):
                revisions = Revisions(first, second)
                (found,) = revisions.differences
                for side, text, marked in ((0, first, ours),
                                           (1, second, theirs)):
                    self.assertEqual([text[start:end] for start, end
                                      in found.spans(side)], marked)
                self.assertEqual(difference_words(found, revisions), words)

    def test_several_at_once(self):
        revisions = Revisions(
            'p * k < limit && !fault(x, y)',
            'p * k < limit + margin && !fault(x, z) || mode == 3')
        self.assertEqual([d.sort for d in revisions.differences],
                         ['put around', 'replaced', 'renamed'])

    def test_never_against_compare(self):
        """`compare` says equal exactly where only names were found."""
        for first, second in itertools.islice(
                itertools.product(FORMULAS, repeat=2), 0, None, 9):
            with self.subTest(first=first, second=second):
                found = Revisions(first, second)
                self.assertEqual(
                    found.steps == [],
                    all(d.sort == 'renamed' for d in found.differences))

    def test_the_confession_of_equal_steps(self):
        """Steps end where the reading ends: a person must be told."""
        found = Revisions('a < b', 'a < b ) && c')
        self.assertEqual((found.said, found.differences), (['equal'], []))
        self.assertFalse(found.equal)
        self.assertEqual(list(warnings(found)), [
            'the second formula was not read to its end: `) && c` (from'
            ' column 7 on) is no part of the comparison'])

    def test_long_formulas(self):
        one = ' + '.join(f'a{i}' for i in range(128))
        other = ' + '.join(f'a{i}' for i in range(127)) + ' - b'
        self.assertEqual(
            [one[start:end] for found in Revisions(one, other).differences
             for start, end in found.spans(0)], ['+', 'a127'])


class ComparesLines(unittest.TestCase):
    def test_lines(self):
        self.assertEqual(step_lines(['equal']), [])
        self.assertEqual(
            step_lines(['1 131353 131348', 'first 2 65617', 'second 3 7']),
            [Step(1, 131353, 131348), Step(2, 65617, None), Step(3, None, 7)])

    def test_other_lines(self):
        for line in '', 'equals', '1 2', 'third 1 2', '1 2 3 4', '9' * 5000:
            with self.assertRaises(AnswerFault, msg=line):
                step_lines([line])

    def test_words_of_steps(self):
        self.assertEqual(
            [step_words(step) for step in (65624, 131353, 196608, 262144,
                                           262145, 327681, 3)],
            ['enter PREFIX_EXPR', 'token BANG', 'leave', 'float split',
             'float split, ends in a dot', 'error: expected expression',
             'no step (3)'])


@testing.needs('batch', 'compare')
class Command(testing.Case):
    def test_two_texts(self):
        self.assert_prints(
            'first   a < b && c\n'
            '          ^\n'
            'second  a <= b && c\n'
            '          ^^\n'
            'groups as\n'
            'first   ((a < b) && c)\n'
            'second  ((a <= b) && c)\n'
            '\n'
            'compare: 1 step at the same place differs\n'
            'in `a < b` (columns 1-5), `<` became `<=`\n',
            'diff', 'a < b && c', 'a <= b && c')

    def test_equal(self):
        done = testing.call('diff', 'a+b', 'a + b')
        self.assertTrue(done.stdout.decode().endswith(
            'compare: equal, the steps are the same\n'
            'names and numbers are the same too (looked at by this tool)\n'))

    def test_only_parentheses(self):
        done = testing.call('diff', 'a + b * c', 'a + (b * c)')
        self.assertIn('the grouping is the same: only parentheses differ',
                      done.stdout.decode())

    def test_refusals(self):
        self.assert_prints(
            'the second formula is refused: a form outside the cut (7),'
            ' at token 1 `!` (column 2)\n  a!\n   ^\n', 'diff', 'a', 'a!')
        self.assert_prints(
            'the first formula is refused: a form outside the cut (7),'
            ' at token 0 `|` (column 1)\n  |\n  ^\n', 'diff', '|', 'a!')
        self.assert_prints(
            'the first formula is refused: compare takes 256 tokens at most'
            ' (3), it has 257\n', 'diff', '+'.join('a' * 129), 'a')

    def files(self, *contents):
        room = tempfile.TemporaryDirectory()
        self.addCleanup(room.cleanup)
        for number, content in enumerate(contents):
            path = os.path.join(room.name, str(number))
            with open(path, 'wb') as file:
                file.write(content)
            yield path

    def test_two_files(self):
        one, other = self.files(
            b'// pump 3\na < b\nx\n\nold\n', b'a <= b\r\nx\r\nnew\r\nmore\r\n')
        done = testing.call('diff', one, other)
        text = done.stdout.decode()
        self.assertIn('line 2 and line 1\nfirst   a < b\n', text)
        self.assertIn('`old` (columns 1-3) became `new` (columns 1-3)', text)
        self.assertTrue(text.endswith(
            'line 4 is in the second file alone: more\n'))
        self.assertNotIn('first   x', text)

    def test_two_files_alike(self):
        one, other = self.files(b'a < b\n', b'\xef\xbb\xbfa < b')
        self.assert_prints('no formula differs\n', 'diff', one, other)

    def test_a_file_that_is_no_text(self):
        one, other = self.files(b'a\xff\n', b'a\n')
        self.assert_fails(1, "can't read", 'diff', one, other)

    def test_a_line_outside_the_cut(self):
        one, other = self.files(b'a\n;\n', b'a\nb\n')
        self.assert_fails(1, 'line 2: column 1: `;` is outside the cut',
                          'diff', one, other)

    def test_pairs(self):
        one, other = self.files(b'a\nb\nc\n', b'a\nc\nd\n')
        self.assertEqual(list(pairs_of(one, other)),
                         [((2, 'b'), None), (None, (3, 'd'))])


class Colours(unittest.TestCase):
    """Text of the page stands out from its ground as WCAG asks, 4.5 to 1."""

    PAIRS = (('ink', 'ground'), ('ink', 'card'), ('quiet', 'ground'),
             ('quiet', 'card'), ('first', 'first-ground'), ('first', 'card'),
             ('second', 'second-ground'), ('second', 'card'),
             ('warn', 'warn-ground'), ('quiet', 'first-ground'),
             ('quiet', 'second-ground'))

    def test_contrast(self):
        light, dark = STYLE.split('@media (prefers-color-scheme: dark)')
        for scheme in light, dark.split('* {')[0]:
            colours = dict(
                pair.split(': #') for line in scheme.split('\n')
                for pair in line.replace('--', '').strip().rstrip(';')
                .split('; ') if ': #' in pair)
            for text, ground in self.PAIRS:
                with self.subTest(text=text, ground=ground):
                    self.assertGreaterEqual(
                        contrast(colours[text], colours[ground]), 4.5)


def contrast(one, other):
    bright, dim = sorted((luminance(one), luminance(other)), reverse=True)
    return (bright + .05) / (dim + .05)


def luminance(colour):
    def linear(value):
        value /= 255
        return (value / 12.92 if value <= .03928
                else ((value + .055) / 1.055) ** 2.4)
    red, green, blue = (linear(int(colour[i:i + 2], 16)) for i in (0, 2, 4))
    return .2126 * red + .7152 * green + .0722 * blue


if __name__ == '__main__':
    unittest.main()
