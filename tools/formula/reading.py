"""A formula read by a proved program: its tree, or a refusal."""

from .answer import Refusal, most_bytes, parse_answer
from .drawing import draw, refusal_lines
from .grouping import grouped
from .programs import command_of, run, words_of
from .source import Source
from .stored import encode
from .terminal import PLAIN, complain
from .tree import Tree

# Of the programs that read one formula, the one that takes the longest.
READER = 'batch'


class Reading:
    """A source with the tree or the refusal that a program answered."""

    def __init__(self, source, answer):
        self.source = source
        self.refusal = answer if isinstance(answer, Refusal) else None
        self.tree = None if self.refusal else Tree(source, answer)

    def drawn(self, full=False, style=PLAIN):
        if self.refusal:
            return self._refused(style)
        return draw(self.tree, full, style)

    def grouped(self, style=PLAIN):
        if self.refusal:
            return self._refused(style)
        return grouped(self.tree, style) + '\n'

    def _refused(self, style):
        lines = refusal_lines(self.source, self.refusal, style)
        return '\n'.join(lines) + '\n'


def reader_words(program):
    """The command line of the reader: the given one, else the project's."""
    return words_of(program) if program is not None else command_of(READER)


def read(text, program=None):
    """A formula as a program reads it."""
    source = Source(text)
    lines = answer_lines(reader_words(program), encode(source.tokens),
                         most_bytes(len(source.tokens)))
    return Reading(source, parse_answer(lines))


def answer_lines(words, given, limit):
    """The lines that a program printed; what it complained of is passed on."""
    done = run(words, given, limit)
    if done.complained:
        complain(done.complained.rstrip('\n'))
    if done.status:
        complain(f'{" ".join(words)}: exit status {done.status}')
    return done.lines
