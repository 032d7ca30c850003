"""The lines that a program printed, as an answer."""

import re
from collections import namedtuple

from .faults import AnswerFault
from .lines import shortened

Answer = namedtuple('Answer', 'consumed steps')
Refusal = namedtuple('Refusal', 'number place')

# No number of an answer has more digits than 2^64.
NUMBER = '(0|[1-9][0-9]{0,19})'
ANSWER_LINE = re.compile(f'consumed {NUMBER} steps {NUMBER}')
REFUSAL_LINE = re.compile(f'refused {NUMBER} at {NUMBER}')
STEP_LINE = re.compile(NUMBER)

# Room of 16n + 16 steps is never refused, so no answer has more.
LINE_BYTES = 24


def most_bytes(tokens):
    """More bytes than an answer to so many tokens can have."""
    return LINE_BYTES * (16 * tokens + 16 + 2)


def parse_answer(lines):
    """An Answer or a Refusal from the lines that the program printed."""
    lines = [line.rstrip('\n') for line in lines]
    if not lines:
        raise AnswerFault('the answer is empty')
    refusal = parse_refusal(lines)
    return refusal or _parse_steps(lines)


def parse_refusal(lines):
    """The Refusal that lines are, or None."""
    refusal = REFUSAL_LINE.fullmatch(lines[0])
    if not refusal:
        return None
    if len(lines) > 1:
        raise AnswerFault(
            f'a line after the refusal: {shortened(lines[1])}')
    return Refusal(int(refusal.group(1)), int(refusal.group(2)))


def _parse_steps(lines):
    answer = ANSWER_LINE.fullmatch(lines[0])
    if not answer:
        raise AnswerFault(f'no answer begins with {shortened(lines[0])}')
    for line in lines[1:]:
        if not STEP_LINE.fullmatch(line):
            raise AnswerFault(f'not a step: {shortened(line)}')
    steps = [int(line) for line in lines[1:]]
    if len(steps) != int(answer.group(2)):
        raise AnswerFault(
            f'{answer.group(2)} steps announced, {len(steps)} printed')
    return Answer(int(answer.group(1)), steps)
