"""Tests of `formula.py guard`: with a stand-in for the program, which checks
the record that it is fed, and with the proved program where it is built."""

import unittest

import testing
from formula.faults import FormulaError
from formula.guard import listed_values, number, record
from formula.source import Source


class Records(unittest.TestCase):
    def test_record(self):
        """A stored form, two bytes of count, eight bytes a value."""
        source = Source('a < -1')
        listed, missing = listed_values(source, {'a': -2})
        self.assertEqual((listed, missing), ([-2, 1], []))
        self.assertEqual(
            list(record(source, listed)),
            [1, 4, 0, 1, 27, 20, 2, 2, 4, 0, 0, 0, 1, 0,
             2, 0, 254, 255, 255, 255, 255, 255, 255, 255,
             1, 0, 0, 0, 0, 0, 0, 0])

    def test_a_value_for_each_occurrence(self):
        source = Source('a + 0x10 * a - b % 1_000u64')
        self.assertEqual(listed_values(source, {'a': 7, 'b': 8})[0],
                         [7, 16, 7, 8, 1000])

    def test_numbers(self):
        for text, value in (('0', 0), ('-0', 0), ('007', 7), ('1_0', 10),
                            ('-0x10', -16), ('0b11', 3), ('0o17', 15),
                            ('9223372036854775807', 2 ** 63 - 1),
                            ('-9223372036854775808', -2 ** 63)):
            self.assertEqual(number(text, 'it'), value, text)
        for text in ('', '-', '+1', '1.5', '0x', '0b2', 'a', '१',
                     '9223372036854775808', '-9223372036854775809',
                     '9' * 5000, '0x' + 'f' * 5000):
            with self.assertRaises(FormulaError, msg=text):
                number(text, 'it')


class StandIn(testing.Case):
    def guard(self, line):
        return '--program', self.printer(line + '\n')

    def test_values(self):
        for line, words in (('value 1', 'value 1, which counts as true\n'),
                            ('value 0', 'value 0, which counts as false\n'),
                            ('value -3', 'value -3, which counts as true\n')):
            self.assert_prints(words, 'guard', *self.guard(line), 'a - 1',
                               'a=7')

    def test_refusals(self):
        for line, words in (
                ('refused 11 at 2',
                 'refused: not a guard formula: an error, an unread rest, or a'
                 ' form without a value (11), at token 2 `1` (column 5)\n'
                 '  a / 1\n      ^\n'),
                ('refused 12 at 2',
                 'refused: too few or too many values (12), values wanted:'
                 ' 2\n'),
                ('refused 14 at 1',
                 'refused: division by zero (14), at token 1 `/` (column 3)\n'
                 '  a / 1\n    ^\n'),
                ('refused 15 at 1',
                 'refused: a result outside the range of 64 bits (15), at'
                 ' token 1 `/` (column 3)\n  a / 1\n    ^\n')):
            self.assert_prints(words, 'guard', *self.guard(line), 'a / 1',
                               'a=7')

    def test_no_answer(self):
        for line in 'value', 'value 1\nvalue 2', 'value 01', '1', '':
            self.assert_fails(1, 'THE ANSWER DOES NOT FIT', 'guard',
                              *self.guard(line), 'a', 'a=7')
        self.assert_fails(1, 'there is no refusal 16', 'guard',
                          *self.guard('refused 16 at 0'), 'a', 'a=7')

    def test_names(self):
        fine = self.guard('value 1')
        self.assert_fails(1, 'no value for `b`: give it as b=NUMBER',
                          'guard', *fine, 'a < b', 'a=1')
        self.assert_fails(1, 'the formula has no name `c`',
                          'guard', *fine, 'a', 'a=1', 'c=1')
        self.assert_fails(1, '`a` is given twice',
                          'guard', *fine, 'a', 'a=1', 'a=1')
        self.assert_fails(1, 'the value of `a` is no whole number',
                          'guard', *fine, 'a', 'a=x')
        self.assert_fails(2, 'NAME=VALUE expected', 'guard', *fine, 'a', 'b')
        self.assert_fails(2, 'usage: formula.py guard', 'guard')

    def test_what_is_no_guard_comes_before_a_missing_value(self):
        self.assert_prints(
            'refused: not a guard formula: an error, an unread rest, or a form'
            ' without a value (11), at token 0 `f` (column 1)\n  f(x)\n  ^\n',
            'guard', *self.guard('refused 11 at 0'), 'f(x)', 'x=1')

    def test_a_number_that_does_not_fit(self):
        self.assert_fails(1, 'the number at column 5 is outside the range',
                          'guard', *self.guard('value 1'),
                          'a < 9223372036854775808', 'a=1')


@testing.needs('guard')
class Evaluated(testing.Case):
    """The proved program; the values worked out by hand from 02."""

    CASES = (
        ('lo < p && p < hi', 'lo=1 p=5 hi=9', 1),
        ('lo < p && p < hi', 'lo=1 p=9 hi=9', 0),
        ('(p - p0) * 3 / 2', 'p=-1 p0=2', -4),
        ('a % b', 'a=-7 b=2', -1),
        ('-7 / 2', '', -3),
        ('!a || !b', 'a=5 b=0', 1),
        ('a && b', 'a=-1 b=2', 1),
        ('1 + 2 * 3 == 7', '', 1),
        ('a', 'a=-9223372036854775808', -2 ** 63),
    )

    def test_values(self):
        for text, values, value in self.CASES:
            with self.subTest(text=text):
                counts = 'true' if value else 'false'
                self.assert_prints(
                    f'value {value}, which counts as {counts}\n',
                    'guard', text, *values.split())

    def test_refusals(self):
        for text, values, words in (
                ('a / b', 'a=1 b=0', '(14), at token 1 `/` (column 3)'),
                ('-a', 'a=-9223372036854775808', '(15), at token 0 `-`'),
                ('a * a', 'a=9223372036854775807', '(15), at token 1 `*`'),
                ('1 + true', '', '(11), at token 2 `true` (column 5)'),
                ('a < b ) && c', 'a=1 b=2 c=3', '(11), at token 3 `)`'),
                ('f(x)', 'x=1', '(11), at token 0 `f` (column 1)')):
            with self.subTest(text=text):
                done = testing.call('guard', text, *values.split())
                self.assertEqual(done.stderr, b'')
                self.assertIn(words, done.stdout.decode())


class NotBuilt(testing.Case):
    @unittest.skipIf(testing.unbuilt(['guard']) == [], 'guard is built')
    def test_a_sentence(self):
        self.assert_fails(1, 'the program `guard` is not', 'guard', 'a', 'a=1')


if __name__ == '__main__':
    unittest.main()
