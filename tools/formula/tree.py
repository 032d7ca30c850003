"""An answer's steps as a tree over the text.

Positions are counted here, from the raw tokens that the steps before cover;
everything else is the program's answer, and it is checked that it fits the
tokens.
"""

from .faults import AnswerFault
from .lines import flat
from .numbers import (BARE_ERROR, ENTER_STEP, ERROR_NODE, ERROR_STEP,
                      ERROR_WORDS, FIELD_EXPR, FLOAT_NUMBER, INT_NUMBER,
                      KIND_NAMES, LEAVE_STEP, NAME_REF, NODE_NAMES,
                      PUNCTUATION, SPLIT_STEP, TOKEN_STEP)
from .source import is_kind

ILLEGAL_FLOAT = 'illegal float literal, says this tool'


class Node:
    """A node of the tree; `step` is the index of its enter step."""

    def __init__(self, kind, start, step):
        self.kind, self.start, self.end, self.step = kind, start, start, step
        self.parts = []

    @property
    def name(self):
        return NODE_NAMES[self.kind]

    def add(self, part):
        if not self.parts:
            self.start = part.start
        self.parts.append(part)
        self.end = part.end


class Leaf:
    """A token; `step` is the index of the step that gave it."""

    def __init__(self, kind, text, start, step):
        self.kind, self.text, self.step = kind, text, step
        self.start, self.end = start, start + len(text)

    @property
    def name(self):
        return KIND_NAMES[self.kind]


class Mark:
    """An error; `code` is 01's, or None where the tool itself found it."""

    def __init__(self, code, words, start, step):
        self.code, self.words, self.step = code, words, step
        self.start = self.end = start


class Tree:
    """A whole answer: its roots (one node, or one mark), errors and rest."""

    def __init__(self, source, answer):
        builder = _Builder(source)
        builder.build(answer)
        self.source = source
        self.steps = answer.steps
        self.roots = builder.roots
        self.marks = builder.marks
        self.consumed = answer.consumed

    @property
    def root(self):
        return self.roots[0]

    @property
    def unread(self):
        """Start and end of the unread rest in the text, or None."""
        tokens = self.source.tokens
        if self.consumed == len(tokens):
            return None
        return self.source.start(self.consumed), self.source.end(
            self.consumed, len(tokens))


class _Builder:
    def __init__(self, source):
        self.source = source
        self.roots, self.marks, self.open = [], [], []
        self.position = self.index = 0
        self.place = ''
        self.may_be_bare = False

    def build(self, answer):
        self.may_be_bare = answer.steps == [BARE_ERROR]
        for self.index, step in enumerate(answer.steps):
            self.place = f'step {self.index} ({step}): '
            self.step(step)
        self.place = 'at the end: '
        self.check_end(answer)

    def step(self, step):
        tag, value = divmod(step, 0x10000)
        if tag == ENTER_STEP and value in NODE_NAMES:
            self.enter(value)
        elif tag == TOKEN_STEP and value % 0x100 in KIND_NAMES:
            self.token(width=value // 0x100, kind=value % 0x100)
        elif tag == LEAVE_STEP and value == 0:
            self.leave()
        elif tag == SPLIT_STEP and value in (0, 1):
            self.split(ends_in_dot=value == 1)
        elif tag == ERROR_STEP and value in ERROR_WORDS:
            self.error(value, ERROR_WORDS[value])
        else:
            self.complain('this is no step')

    def check_end(self, answer):
        if self.open:
            names = ' '.join(node.name for node in self.open)
            self.complain(f'nodes never left: {names}')
        if not answer.steps:
            self.complain('there are no steps')
        if self.position != answer.consumed:
            self.complain(f'the steps take {self.position} tokens,'
                          f' the answer says {answer.consumed}')

    def enter(self, kind):
        node = Node(kind, self.source.start(self.position), self.index)
        if not self.open:
            if self.roots:
                self.complain('a second root')
            self.roots.append(node)
        self.open.append(node)

    def leave(self):
        if not self.open:
            self.complain('a leave without an enter')
        node = self.open.pop()
        if self.open:
            self.open[-1].add(node)
        return node

    def token(self, width, kind):
        taken = self.source.tokens[self.position:self.position + width]
        if len(taken) != width:
            self.complain(f'{KIND_NAMES[kind]} of width {width} runs past'
                          ' the last token')
        if not is_kind(taken, kind):
            found = ' '.join(_named(token) for token in taken)
            self.complain(f'{KIND_NAMES[kind]} of width {width} taken,'
                          f' {found or "nothing"} found')
        self.leaf(kind, ''.join(token.text for token in taken),
                  self.source.start(self.position))
        self.position += width

    def split(self, ends_in_dot):
        taken = self.source.tokens[self.position:self.position + 1]
        if not taken or taken[0].kind != FLOAT_NUMBER:
            self.complain('a split of no FLOAT_NUMBER')
        if (taken[0].joint == 0) != ends_in_dot:
            self.complain(f'the joint byte of `{taken[0].text}` is'
                          f' {taken[0].joint}')
        self.split_parts(taken[0], ends_in_dot)
        self.position += 1

    def split_parts(self, token, ends_in_dot):
        # Text, order and leaves as the crate's do_float_split gives them.
        left, dot, right = token.text.partition('.')
        dot_at = token.start + len(left)
        if dot:
            self.node_of_one(NAME_REF, INT_NUMBER, left, token.start)
        else:
            self.error(None, ILLEGAL_FLOAT)
            self.node_of_one(ERROR_NODE, FLOAT_NUMBER, left, token.start)
        self.leave_field()
        if dot:
            self.leaf(PUNCTUATION['.'], '.', dot_at)
        if not ends_in_dot:
            if dot:
                self.node_of_one(NAME_REF, INT_NUMBER, right, dot_at + 1)
            self.leave_field()

    def leave_field(self):
        if self.leave().kind != FIELD_EXPR:
            self.complain('a split closes a node that is no FIELD_EXPR')

    def node_of_one(self, node, kind, text, start):
        self.enter(node)
        self.leaf(kind, text, start)
        self.leave()

    def leaf(self, kind, text, start):
        if not self.open:
            self.complain('a token outside every node')
        self.open[-1].add(Leaf(kind, text, start, self.index))

    def error(self, code, words):
        mark = Mark(code, words, self.source.start(self.position), self.index)
        if self.open:
            self.open[-1].add(mark)
        elif self.may_be_bare:
            self.roots.append(mark)
        else:
            self.complain('an error outside every node')
        self.marks.append(mark)

    def complain(self, words):
        while len(self.open) > 1:
            self.leave()
        raise AnswerFault(self.place + words, self.roots)


def _named(token):
    return f'{KIND_NAMES.get(token.kind, token.kind)} {flat(token.text)}'


def fold(root, combine):
    """combine(part, values of its parts), from the leaves up; no recursion,
    since a sum of 4,096 tokens is a tree 2,048 deep."""
    values = {}
    stack = [(root, False)]
    while stack:
        part, ready = stack.pop()
        parts = getattr(part, 'parts', ())
        if ready or not parts:
            values[part] = combine(part, [values.pop(p) for p in parts])
        else:
            stack.append((part, True))
            stack.extend((p, False) for p in parts)
    return values[root]


def walk(root):
    """Every part of a tree, a node before its parts, in order."""
    stack = [root]
    while stack:
        part = stack.pop()
        yield part
        stack.extend(reversed(getattr(part, 'parts', ())))
