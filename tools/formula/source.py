"""A formula as it was written, and its raw tokens: places in words."""

from .lexer import end_of, lex
from .lines import flat, under
from .numbers import GLUED


class Source:
    def __init__(self, text, tokens=None):
        self.text = text
        self.tokens = lex(text) if tokens is None else tokens

    def start(self, position):
        """Where a raw token begins in the text; past the last, its end."""
        if position < len(self.tokens):
            return self.tokens[position].start
        return end_of(self.tokens[-1]) if self.tokens else 0

    def end(self, position, width=1):
        """Where `width` raw tokens from a position on end in the text."""
        past = self.tokens[position:position + width]
        return end_of(past[-1]) if past else self.start(position) + 1

    def place(self, position, width=1):
        """A raw position in words."""
        if position >= len(self.tokens):
            return 'at the end'
        text = self.text[self.start(position):self.end(position, width)]
        return (f'at token {position} `{flat(text)}`'
                f' (column {self.start(position) + 1})')

    def under(self, position, width=1):
        """The text with carets under raw tokens."""
        return under(self.text, self.start(position),
                     self.end(position, width))

    def longest_glued(self, position):
        """The width of the longest glued token at a position, else 1."""
        return max((len(parts) for kind, parts in GLUED.items()
                    if is_kind(self.tokens[position:position + len(parts)],
                               kind)),
                   default=1)


def is_kind(taken, kind):
    """Whether raw tokens are one token of a kind, glued or raw."""
    parts = GLUED.get(kind, (kind,))
    return (tuple(token.kind for token in taken) == parts
            and all(token.joint for token in taken[:-1]))
