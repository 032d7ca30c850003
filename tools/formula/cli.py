"""The command line of formula.py: one table of commands, one help."""

import os
import sys
from collections import namedtuple

from . import texts
from .answer import most_bytes, parse_answer
from .diff import diff_command
from .drawing import tree_lines
from .faults import AnswerFault, FormulaError, UsageError
from .guard import guard_command
from .lexer import lex
from .lines import flat
from .numbers import KIND_NAMES
from .reading import Reading, read
from .source import Source
from .stored import encode
from .terminal import OutputFault, complain, style_of, write

DONE, FAULT, USAGE = 0, 1, 2

Command = namedtuple('Command', 'run flags options')


# ------------------------------------------------------------------ commands

def encode_command(given, style):
    text, = given.others(1)
    if {'--hex', '--decimal'} <= given.flags:
        raise UsageError('one of --hex and --decimal at most')
    stored = encode(lex(text), packed='--packed' in given.flags)
    if '--hex' in given.flags:
        return stored.hex(' ') + '\n'
    if '--decimal' in given.flags:
        return ' '.join(map(str, stored)) + '\n'
    return stored


def tokens_command(given, style):
    text, = given.others(1)
    rows = [f'{index:5}  {token.kind:2} {KIND_NAMES[token.kind]:13}'
            f'  {token.joint:4}  {token.start + 1:6}  {flat(token.text)}\n'
            for index, token in enumerate(lex(text))]
    return ''.join(['index  kind             joint  column  text\n'] + rows)


def draw_command(given, style):
    text, = given.others(1)
    source = Source(text)
    answer = parse_answer(_given_lines(most_bytes(len(source.tokens))))
    return Reading(source, answer).drawn('--full' in given.flags, style)


def _given_lines(limit):
    """The lines of standard input, if these can be an answer's."""
    if sys.stdin is None:
        raise FormulaError('standard input is closed: draw reads the'
                           " program's answer from it")
    try:
        data = sys.stdin.buffer.read(limit + 1)
    except OSError as fault:
        raise FormulaError("can't read standard input:"
                           f' {fault.strerror}') from None
    if len(data) > limit:
        raise FormulaError(f'standard input has more than {limit:,} bytes,'
                           ' which no answer to this formula has')
    return data.decode('utf-8', 'replace').removesuffix('\n').split('\n')


def show_command(given, style):
    program, text = given.program_and_text()
    return read(text, program).drawn('--full' in given.flags, style)


def group_command(given, style):
    program, text = given.program_and_text()
    return read(text, program).grouped(style)


COMMANDS = {
    'group': Command(group_command, (), ('--program',)),
    'show': Command(show_command, ('--full',), ('--program',)),
    'diff': Command(diff_command, ('--text',), ('--html',)),
    'guard': Command(guard_command, (), ('--program',)),
    'tokens': Command(tokens_command, (), ()),
    'encode': Command(encode_command, ('--hex', '--decimal', '--packed'), ()),
    'draw': Command(draw_command, ('--full',), ()),
}


# ----------------------------------------------------------------- arguments

class Given:
    """The arguments of a command: flags, options with a value, and others.

    Only whole known flags are flags: every other text is a formula, `-h` too.
    """

    def __init__(self, arguments, command):
        self.flags, self.options, self._others = set(), {}, []
        rest = iter(arguments)
        for argument in rest:
            if argument in command.flags:
                self.flags.add(argument)
            elif argument in command.options:
                self.options[argument] = next(rest, None)
                if self.options[argument] is None:
                    raise UsageError(f'{argument} wants a value')
            else:
                self._others.append(argument)

    def others(self, wanted=None):
        if wanted is not None and len(self._others) != wanted:
            raise UsageError(f'{wanted} expected besides options,'
                             f' {len(self._others)} given')
        return self._others

    def program_and_text(self):
        """`[PROGRAM] TEXT`, or --program and TEXT."""
        program = self.options.get('--program')
        if program is None and len(self._others) == 2:
            return self._others
        text, = self.others(1)
        return program, text


def as_text(argument):
    """An argument as UTF-8, whatever the locale took it for."""
    try:
        return os.fsencode(argument).decode('utf-8')
    except UnicodeDecodeError as fault:
        raise FormulaError('an argument is no UTF-8, at byte'
                           f' {fault.start}') from None


# ----------------------------------------------------------------------- main

def help_text(arguments):
    """The help that is asked for, or None."""
    if arguments[:1] in (['help'], ['-h'], ['--help']):
        return texts.help_of(arguments[1:2])
    if '--help' in arguments:
        return texts.help_of(arguments[:1])
    return None


def answer(arguments):
    """What a command line gives, as text or bytes."""
    arguments = [as_text(argument) for argument in arguments]
    helped = help_text(arguments)
    if helped is not None:
        return helped
    if not arguments or arguments[0] not in COMMANDS:
        raise UsageError('expected one of ' + ', '.join(COMMANDS) + ', help')
    command = COMMANDS[arguments[0]]
    return command.run(Given(arguments[1:], command),
                       style_of(sys.stdout, os.environ))


def main(arguments):
    try:
        write(answer(arguments))
    except UsageError as fault:
        complain(f'formula.py: {fault}\n\n' + texts.usage_of(arguments[:1]))
        return USAGE
    except AnswerFault as fault:
        complain('\n'.join(tree_lines(fault.roots, full=True)
                           + [f'THE ANSWER DOES NOT FIT: {fault}']))
        return FAULT
    except (FormulaError, OutputFault) as fault:
        complain(f'formula.py: {fault}')
        return FAULT
    except KeyboardInterrupt:
        complain('formula.py: stopped')
        return FAULT
    return DONE
