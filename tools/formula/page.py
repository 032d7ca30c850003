"""Revisions as one page: HTML alone, no network, no script, no library."""

import re
from html import escape

from .drawing import error_words, is_folded, folded_text
from .grouping import grouped
from .lines import amount, columns, flat
from .numbers import NODE_NAMES, step_words
from .page_style import STYLE
from .revisions import (difference_words, marked_text, refused_words,
                        steps_words, warnings)
from .tree import Leaf, Mark

SIDES = 'first', 'second'
NAMES = 'First', 'Second'
UNREAD = ('<span class="unread"><span class="label">unread</span>',
          '</span>')


def page_of(compared, alone=()):
    """One page for all pairs, and for formulas that one file alone has."""
    pairs = ''.join(_Pair(revisions, number).html()
                    for number, revisions in enumerate(compared, 1))
    return f'''<!DOCTYPE html>
<html lang="en">
<head>
<meta charset="utf-8">
<meta name="viewport" content="width=device-width, initial-scale=1">
<meta name="color-scheme" content="light dark">
<title>Formula revisions</title>
<style>{STYLE}</style>
</head>
<body>
<header>
<h1>Formula revisions</h1>
<p>{_summary(compared, alone)}</p>
{_legend()}
</header>
<main>
{pairs}{_alone(alone)}</main>
<footer>{FOOTER}</footer>
</body>
</html>
'''


FOOTER = '''
<p>The steps and their differences are the answers of the proved programs
<code>batch</code> and <code>compare</code>. Columns, parentheses, the
smallest differing parts and differences of names and numbers are found by
<code>tools/formula.py</code>, which is tested and not proved.</p>
'''


def _summary(compared, alone):
    differing = sum(not revisions.equal for revisions in compared)
    said = f'{amount(len(compared), "pair")} compared, {differing:,} differ'
    said += 's' if differing == 1 else ''
    return said + (f', {len(alone):,} without a partner.' if alone else '.')


def _legend():
    return '''<ul class="legend" aria-label="Marks">
<li><span class="badge first">≠ 1</span> differs, first revision</li>
<li><span class="badge second">≠ 1</span> differs, second revision</li>
<li><span class="moved">same part</span>, other step number</li>
<li><span class="same">same part</span>, same step</li>
</ul>'''


def _alone(alone):
    if not alone:
        return ''
    items = ''.join(f'<li>{escape(words)}</li>' for words in alone)
    return (f'<section class="pair"><h2>Without a partner</h2>'
            f'<ul>{items}</ul></section>\n')


TREE_HEAD = ('<p class="tree-head" aria-hidden="true"><span>columns</span>'
             '<span>step</span></p>')


class _Pair:
    """The section of one pair. Ids: p1-first-d2 is difference 2 of pair 1."""

    def __init__(self, revisions, number):
        self.revisions, self.number = revisions, number
        self.differing = {step.index for step in revisions.steps}

    def html(self):
        title = (self.revisions.title or 'two revisions').capitalize()
        body = (self.refused() if self.revisions.refused
                else self.compared())
        return (f'<section class="pair" id="p{self.number}">'
                f'<h2>{escape(title)}</h2>\n{body}</section>\n')

    def refused(self):
        name, reading = refused_words(self.revisions)
        words = (reading.drawn() if reading.refusal
                 else 'more tokens than compare takes\n')
        return (f'<p class="warning"><strong>Not compared.</strong> The {name}'
                f' formula is refused.</p><pre>{escape(words)}</pre>')

    def compared(self):
        sides = ''.join(self.side(side) for side in (0, 1))
        return (self.verdict() + f'<div class="sides">{sides}</div>'
                + self.steps())

    # ------------------------------------------------------------- the verdict

    def verdict(self):
        revisions = self.revisions
        lines = [f'<p><strong>compare:</strong>'
                 f' {escape(steps_words(revisions.steps))}.</p>']
        if revisions.steps and revisions.same_grouping:
            lines.append('<p>The grouping is the same: only parentheses'
                         ' differ.</p>')
        lines += [f'<p class="warning"><strong>Warning:</strong>'
                  f' {_prose(words)}.</p>' for words in warnings(revisions)]
        if revisions.differences:
            items = ''.join(self.finding(*one) for one in self.numbered())
            lines.append(f'<ol class="findings">{items}</ol>')
        return f'<div class="verdict">{"".join(lines)}</div>'

    def finding(self, number, difference):
        one, other = (self.finding_side(number, difference, side)
                      for side in (0, 1))
        words = _prose(difference_words(difference, self.revisions))
        return (f'<li>{one} <span class="became">→</span> {other}'
                f'<div class="note">{words}</div></li>')

    def finding_side(self, number, difference, side):
        reading = self.revisions.both[side][1]
        text = marked_text(difference, side, reading)
        return (f'<a class="badge {SIDES[side]}"'
                f' href="#{self.tree_id(side, number)}">{escape(text)}</a>')

    def tree_id(self, side, number):
        return f'p{self.number}-{SIDES[side]}-d{number}'

    # -------------------------------------------------------------- one side

    def side(self, side):
        reading = self.revisions.both[side][1]
        return (f'<section class="side {SIDES[side]}"'
                f' aria-label="{NAMES[side]} revision">'
                f'<h3>{NAMES[side]}</h3>'
                f'<p class="text"><code>{self.text(side, reading)}</code></p>'
                f'<h4>Groups as</h4>'
                f'<p class="grouped"><code>{escape(grouped(reading.tree))}'
                f'</code></p><h4>Tree</h4>{self.tree(side, reading.tree)}'
                '</section>')

    def text(self, side, reading):
        """The text, the differing parts marked, the unread rest too."""
        text = reading.source.text
        spans = [(start, end, self.mark(side, number))
                 for number, difference in self.numbered()
                 for start, end in difference.spans(side)]
        if reading.tree.unread:
            spans.append((*reading.tree.unread, UNREAD))
        pieces, at = [], 0
        for start, end, (before, behind) in sorted(spans):
            pieces += [escape(flat(text[at:start])), before,
                       escape(flat(text[start:end])) or '∅', behind]
            at = max(at, end)
        return ''.join(pieces) + escape(flat(text[at:]))

    def numbered(self):
        return enumerate(self.revisions.differences, 1)

    def mark(self, side, number):
        return (f'<mark class="{SIDES[side]}"><a href="#'
                f'{self.tree_id(1 - side, number)}">',
                f'<sup class="number">≠{number}</sup></a></mark>')

    # --------------------------------------------------------------- the tree

    def tree(self, side, tree):
        anchors, marked = {}, set()
        for number, difference in self.numbered():
            anchors.setdefault(difference.nodes[side], []).append(number)
            marked |= difference.covered(side)
        lines = ''.join(
            self.line(side, part, place, anchors.get(part, ()),
                      part in marked)
            for root in tree.roots for part, *place in _lines(root))
        return TREE_HEAD + f'<ol class="tree">{lines}</ol>'

    def line(self, side, part, place, numbers, marked):
        depth, lead = place
        sort = ('differs' if marked
                else 'moved' if part.step in self.differing else 'same')
        badges = ''.join(self.badge(side, number) for number in numbers)
        return (f'<li class="{sort}">'
                f'<span class="lead" aria-hidden="true">{lead}</span>'
                f'<span class="hidden">level {depth}: </span>'
                f'<span class="words">{_words(part)}</span>{badges}'
                f'<span class="columns">{columns(part.start, part.end)}</span>'
                f'{self.step_link(side, part)}</li>')

    def badge(self, side, number):
        return (f'<a class="badge {SIDES[side]}"'
                f' id="{self.tree_id(side, number)}"'
                f' href="#{self.tree_id(1 - side, number)}">≠ {number}'
                f'<span class="hidden"> differs, see the {SIDES[1 - side]}'
                '</span></a>')

    def step_link(self, side, part):
        if part.step not in self.differing:
            return f'<span class="step">{part.step}</span>'
        return (f'<a class="step" href="#p{self.number}-s{part.step}"'
                f' title="step {part.step}: what compare found">'
                f'≠ {part.step}</a>')

    # -------------------------------------------------------- compare's lines

    def steps(self):
        steps = self.revisions.steps
        if not steps:
            return ''
        rows = ''.join(self.step_row(step) for step in steps)
        return (f'<details><summary>The {amount(len(steps), "step")} that'
                ' compare found, in words</summary>'
                '<table><thead><tr><th scope="col">Step</th>'
                '<th scope="col">First</th><th scope="col">Second</th></tr>'
                f'</thead><tbody>{rows}</tbody></table></details>')

    def step_row(self, step):
        cells = ''.join(
            f'<td class="{name}">{_step(value)}</td>'
            for name, value in zip(SIDES, step[1:]))
        return (f'<tr id="p{self.number}-s{step.index}">'
                f'<th scope="row">{step.index}</th>{cells}</tr>')


def _prose(words):
    """A sentence with its `formulas` set as such."""
    return re.sub('`([^`]*)`', r'<code>\1</code>', escape(words))


def _step(value):
    if value is None:
        return '<span class="note">none, ended</span>'
    return f'{escape(step_words(value))} <span class="note">{value}</span>'


def _words(part):
    if isinstance(part, Mark):
        return f'<em class="error">{escape(error_words(part))}</em>'
    if isinstance(part, Leaf):
        return f'<b>{escape(flat(part.text))}</b>'
    name = f'<span class="node">{NODE_NAMES[part.kind]}</span>'
    if is_folded(part):
        return f'{name} <b>{escape(flat(folded_text(part)))}</b>'
    return name


def _lines(root):
    """Each part of a tree that has a line, its depth and its lead."""
    stack = [(root, 1, '', '')]
    while stack:
        part, depth, lead, below = stack.pop()
        yield part, depth, lead
        parts = [] if is_folded(part) else getattr(part, 'parts', [])
        for index in range(len(parts) - 1, -1, -1):
            is_last = index == len(parts) - 1
            stack.append((parts[index], depth + 1,
                          below + ('└─ ' if is_last else '├─ '),
                          below + ('   ' if is_last else '│  ')))
