#!/usr/bin/env python3
"""Runs `read`, `batch` and `compare` as a user does, on standard input.

usage: test_programs.py [READ BATCH COMPARE]

READ, BATCH and COMPARE are command lines; by default the programs that
`rt ci` built, by tools/run. The inputs and answers are those of
cases.py; what `compare` must print is worked out from what `read` prints.
"""

import os
import select
import shlex
import subprocess
import sys
import unittest

import cases
import compare
import formula
import testing

RUN = os.path.join(compare.ROOT, 'tools', 'run')
READ, BATCH, COMPARE = [RUN, 'read'], [RUN, 'batch'], [RUN, 'compare']
SECONDS = 60
GIVEN = len(sys.argv) == 4 and __name__ == '__main__'


def missing(*names):
    """Whether to skip, and why: programs not built, and none given."""
    unbuilt = [] if GIVEN else testing.unbuilt(names)
    return bool(unbuilt), testing.NOT_BUILT + ', '.join(unbuilt)


def run(program, data):
    return subprocess.run(program, input=data, stdout=subprocess.PIPE,
                          timeout=SECONDS, check=True).stdout.decode()


@unittest.skipIf(*missing('read'))
class Read(unittest.TestCase):
    def test_cases(self):
        """One run for each case that is not one of a great many alike."""
        seen = {}
        for letter, data, text in cases.cases():
            if letter == 'r':
                seen.setdefault((text, len(data)), data)
        for (text, _), data in seen.items():
            with self.subTest(data=data):
                self.assertEqual(run(READ, data), text)

    def test_reads_no_further(self):
        """Ends by itself after a length above 256, the input still open."""
        for data in b'\x01\x01\x01', b'\x01\x00\x00\x02\x01\x01', b'\x02\0\0':
            with self.subTest(data=data), subprocess.Popen(
                    READ, stdin=subprocess.PIPE,
                    stdout=subprocess.PIPE) as process:
                process.stdin.write(data)
                process.stdin.flush()
                process.wait(SECONDS)
                wanted = (cases.refusal(10, 0) if data[0] == 2
                          else cases.refusal(3, 0))
                self.assertEqual(process.stdout.read().decode(), wanted)

    def test_byte_by_byte(self):
        """A form that comes in pieces is read whole."""
        with subprocess.Popen(READ, stdin=subprocess.PIPE,
                              stdout=subprocess.PIPE) as process:
            for byte in cases.BANG_ONE:
                process.stdin.write(bytes([byte]))
                process.stdin.flush()
            process.stdin.close()
            self.assertEqual(process.stdout.read().decode(),
                             cases.BANG_ONE_ANSWER)


@unittest.skipIf(*missing('read', 'compare'))
class Compare(unittest.TestCase):
    FORMULAS = ('', '1', '-1', '!1', 'a + b', 'a + b * c', '(a + b) * c',
                'a.0.1', 'a.0. b', 'f(1, x)', 'f(1, x, y)', 'a[', ')',
                'a as T', '()', 'a!', '-' * 127 + '1', '-' * 128 + '1')

    def wanted(self, first, second):
        """What 02 asks to be printed, from two answers of `read`."""
        for answer in first, second:
            if answer.startswith('refused'):
                return answer
        lists = [answer.split('\n')[1:-1] for answer in (first, second)]
        lines = ['%d %s %s' % (i, x, y)
                 for i, (x, y) in enumerate(zip(*lists)) if x != y]
        for name, steps, other in (('first', lists[0], lists[1]),
                                   ('second', lists[1], lists[0])):
            lines += ['%s %d %s' % (name, i, steps[i])
                      for i in range(len(other), len(steps))]
        return ''.join(line + '\n' for line in lines or ['equal'])

    def test_pairs(self):
        forms = [formula.encode(formula.lex(text)) for text in self.FORMULAS]
        answers = [run(READ, form) for form in forms]
        for first, one in zip(forms, answers):
            for second, other in zip(forms, answers):
                with self.subTest(first=first, second=second):
                    self.assertEqual(run(COMPARE, first + second),
                                     self.wanted(one, other))

    def test_example(self):
        """02: `!1` against `-1` prints, whole, one line."""
        minus_one = formula.encode(formula.lex('-1'))
        self.assertEqual(run(COMPARE, cases.BANG_ONE + minus_one),
                         '1 131353 131348\n')

    def test_forms(self):
        """Forms that are missing, broken, too long or followed by more."""
        good, long = cases.BANG_ONE, b'\x01\x01\x01'
        for data, text in (
                (b'', cases.refusal(10, 0)),
                (good, cases.refusal(10, 0)),
                (good + good[:-1], cases.refusal(10, len(good) - 1)),
                (good + good + b'\0', cases.refusal(10, len(good))),
                (good + good + good * 200, cases.refusal(10, len(good))),
                (b'\x02' + good, cases.refusal(10, 0)),
                (long, cases.refusal(3, 0)),
                (good + long, cases.refusal(3, 0)),
                (long + b'\x02', cases.refusal(3, 0))):
            with self.subTest(data=data):
                self.assertEqual(run(COMPARE, data), text)


@unittest.skipIf(*missing('read', 'batch', 'compare'))
class LengthsAboveTheLimit(unittest.TestCase):
    """docs/DECISIONS.md, 8: who waits for the end of the input, who not."""

    def answers_while_open(self, program, data, seconds=SECONDS):
        with subprocess.Popen(program, stdin=subprocess.PIPE,
                              stdout=subprocess.PIPE) as process:
            process.stdin.write(data)
            process.stdin.flush()
            ready, _, _ = select.select([process.stdout], [], [],
                                        seconds)
            process.stdin.close()
            self.assertEqual(process.stdout.read().decode(),
                             cases.refusal(3, 0))
            return bool(ready)

    def test_an_input_that_stays_open(self):
        self.assertTrue(self.answers_while_open(READ, b'\x01\x01\x01'))
        self.assertFalse(
            self.answers_while_open(COMPARE, b'\x01\x01\x01', 1))
        self.assertFalse(
            self.answers_while_open(BATCH, b'\x01\x01\x10', 1))

    def test_a_buffer_that_is_full(self):
        full = b'\x01\x01\x01' + bytes(4 * (3 + 256) + 1 - 3)
        self.assertTrue(self.answers_while_open(COMPARE, full))


@unittest.skipIf(*missing('batch'))
class Batch(unittest.TestCase):
    def test_nothing(self):
        self.assertEqual(run(BATCH, b''), '')

    def test_one_after_the_other(self):
        """Forms of many lengths over several fillings of the buffer."""
        closing = [11]
        data, text = b'', ''
        for n in list(range(0, 400)) + [4096, 1, 4096, 0, 4095] * 8:
            data += cases.form(closing * n, [0] * n)
            text += (cases.answer(0, [cases.error(1)]) if n
                     else cases.answer(0, cases.MISSING))
            data += cases.BANG_ONE
            text += cases.BANG_ONE_ANSWER
        self.assertEqual(run(BATCH, data), text)

    def test_refusal_goes_on(self):
        data = cases.form([30], [0]) + cases.BANG_ONE
        self.assertEqual(run(BATCH, data),
                         cases.refusal(1, 0) + cases.BANG_ONE_ANSWER)

    def test_broken_ends(self):
        """The place counts from the broken form's first byte."""
        for end in range(1, len(cases.BANG_ONE)):
            data = cases.BANG_ONE * 3 + cases.BANG_ONE[:end]
            self.assertEqual(run(BATCH, data), cases.BANG_ONE_ANSWER * 3
                             + cases.refusal(10, end))
        data = cases.BANG_ONE + b'\x07' + cases.BANG_ONE
        self.assertEqual(run(BATCH, data),
                         cases.BANG_ONE_ANSWER + cases.refusal(10, 0))

    def test_long_ends(self):
        data = (cases.BANG_ONE + cases.form([11] * 4097, [0] * 4097)
                + cases.BANG_ONE)
        self.assertEqual(run(BATCH, data),
                         cases.BANG_ONE_ANSWER + cases.refusal(3, 0))


if __name__ == '__main__':
    if GIVEN:
        READ, BATCH, COMPARE = map(shlex.split, sys.argv[1:])
        del sys.argv[1:]
    unittest.main()
