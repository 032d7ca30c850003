"""Standard output and error of the tool: colours, faults, closed ends."""

import os
import sys

FULL_WIDTH = 80


class Style:
    """How marks look: words in colour and lines drawn, where these can be."""

    PAINTS = {'dim': '2', 'strong': '1', 'bad': '31', 'good': '32',
              'note': '33'}

    def __init__(self, colour=False, drawn=True):
        self.colour = colour
        self.branch, self.last, self.down, self.none = (
            ('├─ ', '└─ ', '│  ', '   ') if drawn
            else ('|- ', '`- ', '|  ', '   '))

    def paint(self, paint, text):
        if not self.colour or not paint or not text:
            return text
        return f'\x1b[{self.PAINTS[paint]}m{text}\x1b[0m'


PLAIN = Style()


def style_of(stream, environment):
    """Colour on a terminal alone, and none where NO_COLOR says so."""
    colour = (stream is not None and stream.isatty()
              and not environment.get('NO_COLOR')
              and environment.get('TERM') != 'dumb')
    return Style(colour, _can_draw(stream))


def _can_draw(stream):
    try:
        '├─└│'.encode(encoding_of(stream))
    except UnicodeEncodeError:
        return False
    return True


def encoding_of(stream):
    """UTF-8 in the C locale too: what is drawn is no word of a language."""
    encoding = getattr(stream, 'encoding', None) or 'utf-8'
    return 'utf-8' if encoding.lower() in ('ascii', 'us-ascii',
                                           'ansi_x3.4-1968') else encoding


class OutputFault(Exception):
    """Standard output that does not take what is written."""


def write(output):
    """Writes text or bytes to standard output, whole, or raises OutputFault.

    Past Python's buffers, so that nothing is left to fail when it ends.
    """
    if sys.stdout is None:
        raise OutputFault('standard output is closed')
    if isinstance(output, str):
        output = output.encode(encoding_of(sys.stdout), 'backslashreplace')
    try:
        _write_all(sys.stdout.fileno(), output)
    except BrokenPipeError:
        raise OutputFault('standard output was closed before all of it'
                          ' was written') from None
    except OSError as fault:
        raise OutputFault("can't write to standard output:"
                          f' {fault.strerror}') from None


def _write_all(file, data):
    view = memoryview(data)
    while view:
        view = view[os.write(file, view):]


def complain(words):
    """A sentence to standard error, where there is one."""
    if sys.stderr is None:
        return
    try:
        sys.stderr.write(words + '\n')
        sys.stderr.flush()
    except (OSError, ValueError):
        pass
