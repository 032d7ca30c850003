"""What the tests of formula.py share: how it is called, what may be missing."""

import os
import shlex
import subprocess
import sys
import tempfile
import unittest

from formula import programs

ROOT = programs.ROOT
TOOL = os.path.join(ROOT, 'tools', 'formula.py')
NOT_BUILT = 'not built, `rt ci` builds it: '


def unbuilt(names):
    return [name for name in names if not programs.built(name)]


def needs(*names):
    """Skips a test, with a word, where programs are not built."""
    missing = unbuilt(names)
    return unittest.skipIf(missing, NOT_BUILT + ', '.join(missing))


def environment(**more):
    clean = {name: value for name, value in os.environ.items()
             if name not in ('NO_COLOR', 'PYTHONIOENCODING')}
    return {**clean, 'PYTHONDONTWRITEBYTECODE': '1', 'LC_ALL': 'C.UTF-8',
            **more}


def call(*arguments, given=b'', **more):
    """Runs formula.py as a user does."""
    return subprocess.run([sys.executable, TOOL, *arguments], input=given,
                          capture_output=True, env=environment(**more),
                          cwd=ROOT, timeout=120)


class Case(unittest.TestCase):
    maxDiff = None

    def assert_prints(self, expected, *arguments, **more):
        done = call(*arguments, **more)
        self.assertEqual(done.stderr.decode('utf-8'), '')
        self.assertEqual(done.stdout.decode('utf-8'), expected)
        self.assertEqual(done.returncode, 0)

    def assert_fails(self, status, words, *arguments, **more):
        done = call(*arguments, **more)
        said = done.stderr.decode('utf-8')
        self.assertIn(words, said)
        self.assertNotIn('Traceback', said)
        self.assertEqual(done.stdout, b'')
        self.assertEqual(done.returncode, status)

    def program(self, source):
        """The command line of a program that stands in for another."""
        script = tempfile.NamedTemporaryFile('w', suffix='.py', delete=False,
                                             encoding='utf-8')
        self.addCleanup(os.remove, script.name)
        with script:
            script.write(source)
        return shlex.join([sys.executable, script.name])

    def printer(self, text):
        """A program that prints a text, whatever it is fed."""
        return self.program(f'print({text!r}, end="")\n')
