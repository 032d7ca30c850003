"""formula.py on closed, full and endless files, long numbers, other locales:
a sentence and an exit status each, never a traceback, never all memory."""

import os
import resource
import subprocess
import sys
import unittest

import testing

P2_ANSWER = b'consumed 2 steps 6\n65624\n131353\n65617\n131330\n196608\n196608\n'


def shell(command, **more):
    """Runs a line of shell in which $TOOL is formula.py."""
    return subprocess.run(
        ['bash', '-c', command], cwd=testing.ROOT, capture_output=True,
        env=testing.environment(TOOL=testing.TOOL, **more), timeout=120)


class Sturdy(testing.Case):
    def assert_said(self, status, words, done):
        said = done.stderr.decode('utf-8')
        self.assertIn(words, said)
        self.assertNotIn('Traceback', said)
        self.assertNotIn('Exception ignored', said)
        self.assertEqual(said.count('\n'), 1, said)
        self.assertEqual(done.returncode, status)

    def test_closed_output(self):
        for command in ("tokens a", "encode '!1'", 'help', 'help show'):
            with self.subTest(command=command):
                self.assert_said(1, 'standard output is closed',
                                 shell(f'"$TOOL" {command} >&-'))

    def test_full_output(self):
        if not os.path.exists('/dev/full'):
            self.skipTest('no /dev/full here')
        for command in ("tokens a", "encode '!1'", 'help'):
            with self.subTest(command=command):
                self.assert_said(1, 'No space left on device',
                                 shell(f'"$TOOL" {command} > /dev/full'))

    def test_a_reader_that_goes_away(self):
        text = '+'.join('a' * 30000)
        done = shell(f'"$TOOL" tokens {text} | head -1;'
                     ' exit ${PIPESTATUS[0]}')
        self.assertTrue(done.stdout.startswith(b'index  kind'))
        self.assert_said(1, 'was closed before all of it was written', done)

    def test_one_line_is_enough_for_head(self):
        done = shell('"$TOOL" tokens a | head -1; exit ${PIPESTATUS[0]}')
        self.assertEqual((done.stderr, done.returncode), (b'', 0))

    def test_closed_output_and_error(self):
        self.assertEqual(shell('"$TOOL" tokens a >&- 2>&-').returncode, 1)
        self.assertEqual(shell('"$TOOL" tokens ";" 2>&-').returncode, 1)
        self.assertEqual(shell('"$TOOL" tokens ";" 2> /dev/full').returncode,
                         1)

    def test_closed_input(self):
        self.assert_said(1, 'standard input is closed',
                         shell('"$TOOL" draw a <&-'))

    def test_input_that_can_not_be_read(self):
        self.assert_said(1, "can't read standard input",
                         shell('"$TOOL" draw a 0> /dev/null'))

    def test_endless_input(self):
        self.assert_said(1, 'which no answer to this formula has',
                         shell('yes | "$TOOL" draw a'))

    def test_closed_input_of_the_others(self):
        done = shell('"$TOOL" tokens a <&-')
        self.assertEqual((done.stderr, done.returncode), (b'', 0))

    def test_a_number_of_many_digits(self):
        digits = '7' * 5000
        for answer in (f'consumed 1 steps {digits}\n',
                       f'consumed 1 steps 1\n{digits}\n',
                       f'refused {digits} at 0\n', f'refused 7 at {digits}\n'):
            done = testing.call('draw', ' a' * 400, given=answer.encode())
            self.assert_said(1, 'THE ANSWER DOES NOT FIT', done)
            self.assertLess(len(done.stderr), 300)

    def test_an_answer_of_other_bytes(self):
        done = testing.call('draw', 'a', given=b'\xff\xfe\0')
        self.assert_said(1, 'no answer begins with', done)

    def test_an_endless_program(self):
        def little_memory():
            resource.setrlimit(resource.RLIMIT_AS, (2 ** 29, 2 ** 29))
        done = subprocess.run(
            [sys.executable, testing.TOOL, 'show', 'yes', 'a'],
            capture_output=True, env=testing.environment(),
            preexec_fn=little_memory, timeout=60)
        self.assert_said(1, "'yes' printed more than", done)

    def test_a_program_that_complains_without_end(self):
        program = self.program(
            'import sys\n'
            'sys.stderr.write("no luck" * 10 ** 6)\n'
            'print("refused 7 at 0")\n')
        done = testing.call('show', program, 'a')
        self.assertIn(b'refused: a form outside the cut (7)', done.stdout)
        self.assertLess(len(done.stderr), 10000)

    def test_a_program_that_reads_nothing(self):
        done = testing.call('show', self.printer('refused 7 at 0\n'),
                            '+'.join('a' * 30000))
        self.assertEqual((done.stderr, done.returncode), (b'', 0))

    def test_a_program_whose_child_keeps_the_pipe(self):
        program = self.program(
            'import subprocess, sys\n'
            'subprocess.Popen(["yes"])\n')
        done = testing.call('show', program, 'a')
        self.assert_said(1, 'printed more than', done)

    def test_no_header_before_an_error(self):
        self.assert_fails(1, 'column 1: `;` is outside the cut',
                          'tokens', ';')

    def test_a_name_with_an_accent_in_any_locale(self):
        for locale in ({'LC_ALL': 'C'}, {'LC_ALL': 'POSIX'},
                       {'LC_ALL': 'C', 'PYTHONUTF8': '0',
                        'PYTHONCOERCECLOCALE': '0'}):
            with self.subTest(locale=locale):
                done = testing.call('tokens', 'é', **locale)
                self.assertEqual(done.stdout.decode('utf-8').split('\n')[1],
                                 '    0   1 IDENT             0       1  é')
                self.assertEqual(done.returncode, 0)

    def test_lines_where_the_terminal_has_none(self):
        done = testing.call('draw', '!1', given=P2_ANSWER,
                            PYTHONIOENCODING='latin-1')
        self.assertIn(b'`- LITERAL 1', done.stdout)

    def test_an_argument_that_is_no_text(self):
        done = subprocess.run([sys.executable, testing.TOOL, 'tokens',
                               b'a + \xff'], capture_output=True,
                              env=testing.environment())
        self.assert_said(1, 'an argument is no UTF-8, at byte 4', done)

    def test_control_characters_stay_out_of_the_terminal(self):
        done = testing.call('tokens', '"\x1b[31m"')
        self.assertNotIn(b'\x1b', done.stdout)


if __name__ == '__main__':
    unittest.main()
