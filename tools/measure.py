#!/usr/bin/env python3
"""Measures what no proof speaks of: the stack that a deep reading takes, and the work that a long one takes.

usage:
  measure.py stack     bytes of stack that a deep reading takes, by kind of nesting, as a run needs them
  measure.py work      instructions a token, for lists of growing length (needs valgrind)

Both run the program `batch`, which `rt ci` built, on an x86-64 Linux machine.
"""

import ctypes
import os
import re
import resource
import subprocess
import sys
import tempfile

import formula
from formula import programs

BATCH = programs.file_of('batch')
PAGE = 4096
DEPTH = 128

# the kernel begins the stack at a random place, up to two pages apart from
# run to run, unless the process asks for none
NO_RANDOM_START = 0x0040000

# the bytes of the lists that `main` of `batch` holds: what is read, events,
# steps, text
LISTS = 65536 + 65552 * 8 + 65552 * 4 + 2097152

# what is written before and behind the innermost `1`; each opens one reading
NESTS = {
    'prefix': ('-', ''),
    'reference': ('&', ''),
    'parenthesis': ('(', ')'),
    'index': ('a[', ']'),
    'right operand': ('a = ', ''),
    'call': ('f(', ')'),
    'method call': ('a.f(', ')'),
    'leading range': ('.. ', ''),
}

# lists that repeat, and what stands once in front
LONG = {
    'sums': ('1', ' + 1'),
    'assignments in arguments': ('f(a = b', ', a = b'),
    'arguments without commas': ('f(a', ' a'),
    'postfix forms': ('a', '.b'),
    'paths': ('a', '::a'),
    'casts': ('a', ' as T'),
    'ranges': ('a', ' .. a'),
}


def form(text):
    return formula.encode(formula.lex(text))


def nested(nest, depth):
    before, behind = NESTS[nest]
    return form(before * (depth - 1) + '1' + behind * (depth - 1))


def runs(data, pages):
    limit = pages * PAGE

    def prepare():
        ctypes.CDLL(None).personality(NO_RANDOM_START)
        resource.setrlimit(resource.RLIMIT_STACK, (limit, limit))

    done = subprocess.run([BATCH], input=data, stdout=subprocess.PIPE, env={},
                          preexec_fn=prepare)
    if done.returncode == 0 and not done.stdout.startswith(b'consumed'):
        sys.exit('measure: not read: %r' % done.stdout[:40])
    return done.returncode == 0


def pages_needed(data):
    low, high = 0, 1024
    while not runs(data, high):
        high *= 2
    while high - low > 1:
        middle = (low + high) // 2
        if runs(data, middle):
            high = middle
        else:
            low = middle
    return high


def stack():
    for nest in NESTS:
        shallow, deep = pages_needed(nested(nest, 1)), pages_needed(nested(nest, DEPTH))
        taken = (deep - shallow) * PAGE
        print('%-14s %7d bytes for %d levels, %5d a level (to a page: +-%d); with all but the lists %7d'
              % (nest, taken, DEPTH, taken // (DEPTH - 1), PAGE // (DEPTH - 1), deep * PAGE - LISTS))


def instructions(data):
    with tempfile.TemporaryDirectory() as room:
        out = os.path.join(room, 'out')
        done = subprocess.run(['valgrind', '--tool=callgrind', '--callgrind-out-file=' + out, BATCH],
                              input=data, stdout=subprocess.PIPE, stderr=subprocess.PIPE)
        if not done.stdout.startswith(b'consumed'):
            sys.exit('measure: not read: %r' % done.stdout[:40])
        return int(re.search(rb'Collected : (\d+)', done.stderr).group(1))


def work():
    lengths = 512, 1024, 2048, 4096
    for name, (front, again) in LONG.items():
        first, more = len(formula.lex(front)), len(formula.lex(again))
        line = []
        for length in lengths:
            data = form(front + again * ((length - first) // more))
            # the list once more, so that what the program does once is left out
            line.append((instructions(data + data) - instructions(data)) / length)
        print('%-26s' % name + ' '.join('%8.1f' % x for x in line) + '   instructions a token at %s tokens' % (lengths,))


if __name__ == '__main__':
    if sys.argv[1:] == ['stack']:
        stack()
    elif sys.argv[1:] == ['work']:
        work()
    else:
        sys.exit(__doc__)
