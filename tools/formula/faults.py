"""What can go wrong, each as a sentence for a person at the terminal."""

from .lines import under


class UsageError(Exception):
    """A command line that is not one of ours."""


class FormulaError(Exception):
    """Something a person at the terminal should read."""


class LexError(FormulaError):
    """Text that has no token list; `column` counts from 1."""

    def __init__(self, text, start, words):
        self.column = start + 1
        super().__init__(
            f'column {self.column}: {words}\n' + under(text, start, start + 1))


class BrokenForm(FormulaError):
    """Bytes that are no stored form; `place` is where refusal 10 has it."""

    def __init__(self, place):
        self.place = place
        super().__init__(f'no stored form, at byte {place}')


class AnswerFault(FormulaError):
    """An answer that can't be right; `roots` is the tree up to the fault."""

    def __init__(self, words, roots=()):
        self.roots = list(roots)
        super().__init__(words)
