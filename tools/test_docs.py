#!/usr/bin/env python3
"""Holds the pages to the tree: a name that a line gives with a file or crate
stands there, every other name stands in some crate, and every file stands."""

import functools
import glob
import os
import re
import unittest

ROOT = os.path.dirname(os.path.dirname(os.path.abspath(__file__)))
STATEMENTS, ANSWERS = 'docs/STATEMENTS.md', 'docs/ANSWERS.md'
PAGES = (STATEMENTS, ANSWERS, 'README.md', 'docs/DECISIONS.md',
         'docs/DIFFERENCES.md', 'docs/LANDINGS.md', 'tools/README.md')

# Names of the pages that no crate declares.
FOREIGN = set(
    # the source's, the oracle's, Rust's and those of Rattle and its library
    'PARSER_STEP_LIMIT FLOAT_RECOVERY DropBomb Cell PrefixEntryPoint::Expr'
    ' delimited panic as raw requires ensures replicate take set get_or'
    # the tools' and their commands'
    ' LISTED more-edits rt random damaged'.split())
# Of the table in ANSWERS: words that go with another crate's definitions.
BESIDE = {'run', 'Put'}

# Where a name is declared: it, or `pub` and the like and it, begins a line.
BEFORE = (r'(?:(?:pub|abbrev|unfoldable|data|record|ghost|const|static|fn'
          r'|struct|enum|mod|type) +)*')
HEAD = re.compile(rf'^\s*{BEFORE}([A-Za-z_]\w*)', re.MULTILINE)
COMMENT = re.compile(r'(?:^|(?<=\s))(?:--|//) .*')
NAME = re.compile(r'[A-Za-z][\w-]*(?:::[A-Za-z][\w-]*)*')
PATH = re.compile(r'[\w*.-]*\w(?:/[\w*.-]+)+/?|\w+\.(?:antt|rt|py|md|txt)')
BUILT = re.compile(r'/(?:out|target)/')
SHORT = re.compile(r'((?:[A-Z]\w*, )*[A-Z]\w*) = `([^`]+)`')
PART = re.compile(r'`([^`]+)`|\b([A-Z]\w*|there(?=[;,.]| \|)|same(?= \|)'
                  r'|crate \w+)\b|([;|]|[.:](?= ))')


# ------------------------------------------------------------------- the tree

CRATES = sorted(os.listdir(os.path.join(ROOT, 'crates')))


def text_of(path):
    with open(os.path.join(ROOT, path), encoding='utf-8') as file:
        return file.read()


@functools.lru_cache(None)
def in_tree(path):
    """The files that a page's path means, from the root, a crate or in one."""
    found = []
    for top in '', 'tools', 'crates', 'crates/*', 'crates/*/*':
        found = found or glob.glob(os.path.join(ROOT, top, path))
    return [os.path.relpath(at, ROOT) for at in found]


@functools.lru_cache(None)
def names_of(place):
    """What a file declares; what a crate declares, with its folders, files
    and must-fail edits."""
    if place not in CRATES:
        return set(HEAD.findall(COMMENT.sub('', text_of(place))))
    names = {place}
    for folder, _, files in os.walk(os.path.join(ROOT, 'crates', place)):
        if '/out' in folder:
            continue
        names.add(os.path.basename(folder))
        for name in files:
            names.add(name.split('.')[0])
            if name.endswith(('.rt', '.antt')):
                names |= names_of(os.path.relpath(
                    os.path.join(folder, name), ROOT))
    edits = glob.glob(os.path.join(ROOT, 'more-edits', place, '*.edit'))
    return names | {os.path.basename(path)[:-5] for path in edits}


def stands(name, places):
    """Whether one of these files or crates has every part of a name."""
    parts = name.split('::')
    if parts[0] in CRATES:
        places = [parts[0]]
    return name in FOREIGN or any(names_of(place).issuperset(parts)
                                  for place in places)


# ------------------------------------------------------------------ the pages

class Page:
    """The lines of a page, and the names and files that they lack."""

    def __init__(self, text):
        self.files, self.last, self.cited, self.faults = {}, None, [], []
        for names, path in SHORT.findall(text):
            for name in names.split(', '):
                self.files[name] = path.replace('*', name)

    def read(self, line):
        """Looks at the names of a line: those right before a file or a crate
        stand there, the others in some crate."""
        self.loose, self.waiting = [], []
        for span, word, mark in PART.findall(line):
            if mark:
                self._let_go()
            elif word in ('there', 'same'):
                self._place(self.last)
            elif word.startswith('crate '):
                self._settle([word[6:]] if word[6:] in CRATES else CRATES)
            elif word in self.files:
                self._place(self.files[word])
            elif PATH.fullmatch(span):
                self._place(span)
            elif NAME.fullmatch(span):
                self.waiting.append(span)
        self._let_go()
        self._report(self.loose, CRATES, 'a crate')

    def read_row(self, row):
        """Looks at a row of ANSWERS: calls, what fixes them, and its files."""
        calls, fixes, cited = (
            [it for it in re.findall('`([^`(]+)', cell) if wanted.fullmatch(it)]
            for cell, wanted in zip(row.strip('| ').split(' | '),
                                    (NAME, NAME, PATH)))
        crate = calls[0].split('::')[0] if calls else ''
        self._report(calls, [crate] if crate in CRATES else CRATES, crate)
        self.cited = [at for path in cited for at in in_tree(path)
                      ] or self.cited
        self._report(set(fixes) - set(calls) - BESIDE, self.cited, ', '.join(self.cited))

    def _let_go(self):
        self.loose, self.waiting = self.loose + self.waiting, []

    def _settle(self, places):
        self._report(self.waiting, places, ', '.join(places))
        self.waiting = []

    def _place(self, path):
        found = in_tree(path) if path else []
        if path and not found and not BUILT.search(path):
            self.faults.append(f'no file {path}')
        elif path and path.endswith(('.antt', '.rt')):
            self.last = path
            self._settle(found)
        else:
            self._let_go()

    def _report(self, names, places, where):
        self.faults += [f'{name} is not in {where}' for name in names
                        if not stands(name, places)]


def faults_of(text, table=None):
    """What a page names and the tree lacks. The first cell of a row of
    STATEMENTS is quoted."""
    page, faults = Page(text), []
    for number, line in enumerate(text.split('\n'), 1):
        if line.startswith('| ') and table == ANSWERS:
            page.read_row(line)
        elif line.startswith('| ') and table == STATEMENTS:
            page.read(line.split(' | ', 1)[1])
        else:
            page.read(line)
        faults += [f'line {number}: {fault}' for fault in page.faults]
        page.faults = []
    return faults


class Docs(unittest.TestCase):
    maxDiff = None

    def test_pages(self):
        for page in PAGES:
            with self.subTest(page):
                self.assertEqual(faults_of(text_of(page), page), [])


class Checks(unittest.TestCase):
    """The check finds what it is for."""

    SHORT = 'Short names: Theorem, Instances = `tree/proofs/*.antt`.\n'

    def lacks(self, line, *faults):
        self.assertEqual(faults_of(self.SHORT + line, STATEMENTS),
                         [f'line 2: {fault}' for fault in faults])

    def test_what_stands(self):
        self.lacks('| "`no_name`" | `groups_as_the_table`, Theorem |')
        self.lacks('| - | `parse`, `parse_of`; `reader::parse` |')

    def test_a_name_that_is_not_in_its_file(self):
        self.lacks('| - | `groups-as-the-table`, Theorem |',
                   'groups-as-the-table is not in crates/tree/proofs/Theorem.antt')
        self.lacks('| - | `parse_of`, Theorem |',
                   'parse_of is not in crates/tree/proofs/Theorem.antt')

    def test_a_name_that_is_nowhere(self):
        self.lacks('| - | proved: `startOf` |', 'startOf is not in a crate')
        self.lacks('| - | `reader::start` |', 'reader::start is not in a crate')

    def test_a_file_that_is_not(self):
        self.lacks('| - | `tree/specs/Trees.antt` |',
                   'no file tree/specs/Trees.antt')


if __name__ == '__main__':
    unittest.main()
