#!/usr/bin/env python3
"""Tests compare.py's reading of answers and its verdicts, with no program."""

import unittest

import compare

LIST = b'\x01', b'\x00'
FREE = '1: 65617 131330 196608'
FAULTY = '1: 65616 327681 131330 196608'


def verdict(mine, errs, theirs):
    figures = compare.Figures(show=3)
    figures.take(*LIST, mine, errs, theirs)
    (name, count), = figures.counts.items()
    assert count == figures.lists == 1
    return name


class Answers(unittest.TestCase):
    def test_ours(self):
        lines = iter([b'consumed 1 steps 3\n', b'65617\n', b'131330\n',
                      b'196608\n', b'refused 7 at 1\n',
                      b'consumed 0 steps 1\n', b'327681\n',
                      b'consumed 0 steps 0\n'])
        self.assertEqual(list(compare.ours(lines)), [
            (FREE, False), ('refused 7 at 1', None), ('0: 327681', True),
            ('0:', False)])

    def test_other_text(self):
        with self.assertRaises(compare.Failed):
            list(compare.ours(iter([b'hello\n'])))

    def test_text_of(self):
        self.assertEqual(compare.text_of(b'\x19\x02', b'\x01\x00'), '!1')
        self.assertEqual(compare.text_of(b'\x01\x10\x03', b'\x01\x01\x01'),
                         'a.0.1')
        self.assertEqual(compare.text_of(b'\x01\x07\x01', b'\x00\x01\x00'),
                         'a as~a')


class Verdicts(unittest.TestCase):
    def test_equal(self):
        self.assertEqual(verdict(FREE, False, FREE), 'equal')

    def test_refused(self):
        for theirs in FREE, 'errors expected expression at 0', 'panic':
            self.assertEqual(verdict('refused 7 at 1', None, theirs),
                             'refused')

    def test_both_err(self):
        for theirs in 'errors', 'outside', 'panic':
            self.assertEqual(verdict(FAULTY, True, theirs + ' x at 0'),
                             'errs, crate ' + theirs)

    def test_different(self):
        """Other steps; an error in one of the two alone."""
        self.assertEqual(verdict(FREE, False, FREE + ' 196608'), 'different')
        for theirs in 'errors', 'outside', 'panic':
            self.assertEqual(verdict(FREE, False, theirs), 'different')
        self.assertEqual(verdict(FAULTY, True, FREE), 'different')


if __name__ == '__main__':
    unittest.main()
