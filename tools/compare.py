#!/usr/bin/env python3
"""Holds the program `batch` against the crate's oracle, list by list.

usage:
  compare.py [--batch COMMAND] [--oracle PROGRAM] [--show N] SOURCE..

A SOURCE is a file of stored forms, or a family of the oracle's generator with
its seed, count and longest list, each of which may be left out:

  compare.py forms.bin short random:7:300000 grammar:7:300000 long:7:2000

For each list one of these holds:

  equal       ours is free of errors, and the crate gives the same consumed
              count and the same steps
  refused     ours is refused: the list leaves the comparison
  errs        ours has an error step, and the crate is not free of errors
              either: it gives an error, a step outside of 01, or a panic
  listed      ours has an error step, the crate is free of errors, and the
              list is of a class that docs/DIFFERENCES.md lists
  different   anything else: ours is free of errors and the crate is not, or
              has other steps; or ours has an error and the crate has none

The figures are printed for each source and for all, with the smallest lists
that differ. The exit status is 0 where no list is different, 1 where one is,
2 where a program could not be run to its end.

COMMAND is one argument: by default `tools/run batch`. PROGRAM is by default
oracle/target/release/oracle.
"""

import argparse
import os
import re
import shlex
import subprocess
import sys
import tempfile
from collections import Counter

import formula

ROOT = os.path.dirname(os.path.dirname(os.path.abspath(__file__)))
ERROR_STEPS = range(0x50000, 0x60000)
FAMILIES = 'short', 'random', 'grammar', 'damaged', 'long', 'deep'

SPELLING = {kind: char for char, kind in formula.PUNCTUATION.items()}
SPELLING.update((kind, word) for word, kind in formula.KEYWORDS.items())
SPELLING.update({formula.IDENT: 'a', formula.INT_NUMBER: '1',
                 formula.FLOAT_NUMBER: '0.', formula.STRING: '"s"'})


class Failed(Exception):
    """A program that did not do its part."""


# -------------------------------------------------------------------- lists


def forms(path):
    """Yields the kinds and joint bytes of each stored form of a file."""
    with open(path, 'rb') as file:
        while True:
            kinds = _section(file, formula.KINDS_TAG)
            if kinds is None:
                return
            joints = _section(file, formula.JOINTS_TAG)
            if joints is None:
                raise Failed(f'{path}: a form breaks off')
            yield kinds, joints


def _section(file, tag):
    head = file.read(3)
    if not head:
        return None
    length = int.from_bytes(head[1:], 'little')
    payload = file.read(length)
    if head[0] != tag or len(head) < 3 or len(payload) < length:
        raise Failed('no stored form')
    return payload


def text_of(kinds, joints):
    """A list as text: a blank where two tokens do not touch, and `~` where
    two words do."""
    text = ''
    for kind, joint in zip(kinds, joints):
        word = SPELLING.get(kind, f'<{kind}>')
        if text[-1:].isalnum() and word[0].isalnum():
            text += '~'
        text += word
        if kind == formula.FLOAT_NUMBER:
            text += '1 ' if joint == 1 else ' '
        elif joint != 1:
            text += ' '
    return text.strip()


# ------------------------------------------------------------------ answers


def ours(lines):
    """Yields what `batch` printed, one answer a list: (line, errs)."""
    for line in lines:
        words = line.split()
        if words[:1] == [b'refused']:
            yield line.strip().decode(), None
            continue
        if len(words) != 4 or words[0] != b'consumed' or words[2] != b'steps':
            raise Failed(f'batch printed {line!r}')
        steps = [next(lines).strip() for _ in range(int(words[3]))]
        errs = any(int(step) in ERROR_STEPS for step in steps if step[:2] in
                   (b'32', b'33', b'34', b'35', b'36', b'37', b'38', b'39'))
        yield (words[1] + b': ' + b' '.join(steps)).strip().decode(), errs


def is_answer(line):
    """Whether the oracle gave steps, so found no error."""
    return line[:1].isdigit()


# Lists that ours reads with an error and the crate without one, as
# docs/DIFFERENCES.md has them: a name, and a test of the list.
LISTED = ()


def class_of(kinds, joints):
    for name, holds in LISTED:
        if holds(kinds, joints):
            return name
    return None


class Figures:
    def __init__(self, show):
        self.lists = 0
        self.counts = Counter()
        self.refusals = Counter()
        self.theirs = Counter()
        self.show = show
        self.worst = []

    def take(self, kinds, joints, mine, errs, theirs):
        self.lists += 1
        free = is_answer(theirs)
        self.theirs['free of errors' if free else theirs.split()[0]] += 1
        if errs is None:
            self.counts['refused'] += 1
            self.refusals[int(mine.split()[1])] += 1
        elif not errs:
            if mine == theirs:
                self.counts['equal'] += 1
            else:
                self.differs(kinds, joints, mine, theirs)
        elif not free:
            self.counts['errs, crate ' + theirs.split()[0]] += 1
        elif class_of(kinds, joints):
            self.counts['listed: ' + class_of(kinds, joints)] += 1
        else:
            self.differs(kinds, joints, mine, theirs)

    def differs(self, kinds, joints, mine, theirs):
        self.counts['different'] += 1
        self.worst.append((len(kinds), kinds, joints, mine, theirs))
        self.worst.sort(key=lambda row: row[0])
        del self.worst[self.show:]

    def add(self, other):
        self.lists += other.lists
        self.counts += other.counts
        self.refusals += other.refusals
        self.theirs += other.theirs
        self.worst = sorted(self.worst + other.worst, key=lambda row: row[0])
        del self.worst[self.show:]

    def print(self, name):
        print(f'{name}: {self.lists} lists')
        for key, count in sorted(self.counts.items()):
            print(f'  {key:<20} {count}')
        for number, count in sorted(self.refusals.items()):
            print(f'    refusal {number:<10} {count}')
        for key, count in sorted(self.theirs.items()):
            print(f'  crate: {key:<13} {count}')
        for length, kinds, joints, mine, theirs in self.worst:
            print(f'  differs: {text_of(kinds, joints)}')
            print(f'    list  {" ".join(map(str, kinds))}'
                  f' joints {" ".join(map(str, joints))}')
            print(f'    ours  {mine}')
            print(f'    crate {theirs}')
        sys.stdout.flush()


# ---------------------------------------------------------------- comparing


def compare(path, options):
    figures = Figures(options.show)
    with open(path, 'rb') as one, open(path, 'rb') as other, \
            subprocess.Popen(shlex.split(options.batch), stdin=one,
                             stdout=subprocess.PIPE) as batch, \
            subprocess.Popen([options.oracle, 'run', '--compact'],
                             stdin=other, stdout=subprocess.PIPE) as oracle:
        answers = ours(batch.stdout)
        for kinds, joints in forms(path):
            answer = next(answers, None)
            theirs = oracle.stdout.readline().decode().strip()
            if answer is None or not theirs:
                raise Failed(f'list {figures.lists}: no answer of '
                             + ('batch' if answer is None else 'the oracle'))
            figures.take(kinds, joints, *answer, theirs)
        if next(answers, None) is not None or oracle.stdout.readline():
            raise Failed('an answer without a list')
    for program, process in ('batch', batch), ('oracle', oracle):
        if process.returncode:
            raise Failed(f'{program} ended with {process.returncode}')
    return figures


def generate(source, path, options):
    family, *numbers = source.split(':')
    words = [options.oracle, 'gen', family]
    for option, number in zip(('--seed', '--count', '--max-len'), numbers):
        if number:
            words += [option, number]
    with open(path, 'wb') as file:
        subprocess.run(words, stdout=file, check=True)


def main():
    parser = argparse.ArgumentParser(
        description=__doc__, formatter_class=argparse.RawTextHelpFormatter)
    parser.add_argument('--batch', default=shlex.quote(
        os.path.join(ROOT, 'tools', 'run')) + ' batch')
    parser.add_argument('--oracle', default=os.path.join(
        ROOT, 'oracle', 'target', 'release', 'oracle'))
    parser.add_argument('--show', type=int, default=10)
    parser.add_argument('source', nargs='+')
    options = parser.parse_args()
    total = Figures(options.show)
    try:
        for source in options.source:
            if re.split(':', source)[0] in FAMILIES:
                with tempfile.TemporaryDirectory() as folder:
                    path = os.path.join(folder, 'lists')
                    generate(source, path, options)
                    figures = compare(path, options)
            else:
                figures = compare(source, options)
            figures.print(source)
            total.add(figures)
    except (Failed, OSError, subprocess.CalledProcessError) as error:
        print(f'compare.py: {error}', file=sys.stderr)
        return 2
    if len(options.source) > 1:
        total.print('all')
    return 1 if total.counts['different'] else 0


if __name__ == '__main__':
    sys.exit(main())
