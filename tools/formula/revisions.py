"""Two revisions of a formula: what the proved program `compare` found, and
the smallest parts that differ, which the tool finds in the two trees."""

import re
from collections import namedtuple

from .answer import NUMBER, most_bytes, parse_refusal
from .faults import AnswerFault
from .grouping import grouped
from .lines import amount, columns, flat, shortened
from .matching import differences
from .programs import command_of
from .reading import answer_lines, read
from .stored import encode

COMPARE = 'compare'
COMPARE_LIMIT = 256

DIFFERING_LINE = re.compile(f'{NUMBER} {NUMBER} {NUMBER}')
EXTRA_LINE = re.compile(f'(first|second) {NUMBER} {NUMBER}')

# A step at one index in both, or, with None on one side, in one alone.
Step = namedtuple('Step', 'index first second')


class Revisions:
    """Two formulas, read and compared."""

    def __init__(self, first, second, title=''):
        self.title = title
        self.first, self.second = read(first), read(second)
        self.said = self._compare()
        self.refused = parse_refusal(self.said)
        self.steps = [] if self.refused else step_lines(self.said)
        self.differences = []
        if not self.refused:
            self._check()
            self.differences = differences(self.first.tree.root,
                                           self.second.tree.root)

    @property
    def both(self):
        return (('first', self.first), ('second', self.second))

    @property
    def equal(self):
        """Whether neither `compare` nor the tool found any difference."""
        return not (self.refused or self.steps or self.differences
                    or self.unread_words(0) != self.unread_words(1))

    @property
    def same_grouping(self):
        return grouped(self.first.tree) == grouped(self.second.tree)

    def unread_words(self, side):
        tree = self.both[side][1].tree
        if not tree or not tree.unread:
            return []
        return [t.text for t in tree.source.tokens[tree.consumed:]]

    def _compare(self):
        sources = [reading.source for _, reading in self.both]
        forms = [encode(source.tokens) for source in sources]
        limit = 4 * sum(most_bytes(len(s.tokens)) for s in sources)
        return answer_lines(command_of(COMPARE), b''.join(forms), limit)

    def _check(self):
        """`compare` and the reader are two programs: they must agree."""
        for _, reading in self.both:
            if not reading.tree:
                raise AnswerFault('compare gave no refusal,'
                                  f' the reader {reading.refusal}')
        lists = self.first.tree.steps, self.second.tree.steps
        for step in self.steps:
            for steps, value in zip(lists, step[1:]):
                if value is not None and steps[step.index:
                                               step.index + 1] != [value]:
                    raise AnswerFault('compare and the reader differ at step'
                                      f' {step.index}')


def step_lines(lines):
    """The steps that `compare` found to differ."""
    if lines == ['equal']:
        return []
    return [_step_line(line) for line in lines]


def _step_line(line):
    both = DIFFERING_LINE.fullmatch(line)
    if both:
        return Step(*map(int, both.groups()))
    extra = EXTRA_LINE.fullmatch(line)
    if not extra:
        raise AnswerFault(f'not a line of compare: {shortened(line)}')
    index, value = int(extra.group(2)), int(extra.group(3))
    return (Step(index, value, None) if extra.group(1) == 'first'
            else Step(index, None, value))


# -------------------------------------------------------------------- in words

def steps_words(steps):
    """What `compare` found, in words."""
    if not steps:
        return 'equal, the steps are the same'
    differing = sum(None not in step for step in steps)
    said = [f'{amount(differing, "step")} at the same place'
            f' differ{"s" if differing == 1 else ""}'] if differing else []
    for name, index in (('first', 2), ('second', 1)):
        extra = sum(step[index] is None for step in steps)
        if extra:
            said.append(f'the {name} has {extra:,} more')
    return ', '.join(said)


def difference_words(difference, revisions):
    """One difference in words."""
    one, other = (node_words(difference.nodes[side], reading)
                  for side, (_, reading) in enumerate(revisions.both))
    ours, theirs = (f'`{marked_text(difference, side, reading)}`'
                    for side, (_, reading) in enumerate(revisions.both))
    if difference.sort == 'put around':
        return f'{theirs} was put around {one}'
    if difference.sort == 'taken away':
        return f'{ours} was taken away from around {other}'
    if difference.sort == 'changed':
        return f'in {one}, ' + _change(difference, ours, theirs)
    if difference.sort == 'renamed':
        return (f'{one} became {other}: a name or a number, found by this'
                ' tool; steps hold none')
    return f'{one} became {other}'


def _change(difference, ours, theirs):
    if not difference.spans(0):
        return f'{theirs} was added'
    if not difference.spans(1):
        return f'{ours} was taken out'
    return f'{ours} became {theirs}'


def node_words(part, reading):
    several = 's' if part.end > part.start + 1 else ''
    return (f'`{part_text(part, reading)}` (column{several}'
            f' {columns(part.start, part.end)})')


def part_text(part, reading):
    """A part of the tree as it was written."""
    return flat(reading.source.text[part.start:part.end]) or 'nothing'


def marked_text(difference, side, reading):
    """What is marked of a difference, as it was written."""
    spans = difference.spans(side)
    return ' .. '.join(flat(reading.source.text[start:end])
                       for start, end in spans) or 'nothing'


def warnings(revisions):
    """What a person must know besides: a rest unread, errors."""
    for name, reading in revisions.both:
        tree = reading.tree
        if tree.unread:
            start, end = tree.unread
            yield (f'the {name} formula was not read to its end:'
                   f' `{flat(tree.source.text[start:end])}` (from column'
                   f' {start + 1} on) is no part of the comparison')
        if tree.marks:
            yield (f'the {name} formula has {amount(len(tree.marks), "error")}'
                   f', the first at column {tree.marks[0].start + 1}:'
                   f' {tree.marks[0].words}')


def refused_words(revisions):
    """The formula that is refused, its name, and whether it is too long."""
    for name, reading in revisions.both:
        if reading.refusal:
            return name, reading
    for name, reading in revisions.both:
        if len(reading.source.tokens) > COMPARE_LIMIT:
            return name, reading
    raise AnswerFault(f'compare refuses what the reader reads:'
                      f' {revisions.said[0]}')
