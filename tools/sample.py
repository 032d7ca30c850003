#!/usr/bin/env python3
"""Makes the fixed sample of the oracle's answers, chosen by what it covers.

usage:
  sample.py [--oracle PROGRAM] FORMS ANSWERS

Writes stored forms to FORMS and the oracle's answers to ANSWERS, in the print
format of 01's program, so that `batch` must print ANSWERS when it reads FORMS.
The same oracle gives the same two files.

Every list of the sample is free of errors in the crate and stays inside the
port's cut. Candidates are, in this order:

  1  a hand of formulas that each rule of 01 is seen in (RULES)
  2  every pair of operators, `a OP1 b OP2 c`
  3  every operator with every prefix and every postfix form, on either side
  4  all short lists, and lists of the families grammar, damaged, random and
     long of the oracle's generator, with the seeds below

Behind the sample stand a few forms that `batch` refuses, worked out from 01
(REFUSED); the last of them is broken and ends the run.

Those of 1 to 3 are all taken. Of the rest one is taken, shortest first, where
it shows what the lists before it have not shown: three steps in a row (with
the end of the answer as a step of its own), or a token at which the reading
stops after a token.
"""

import argparse
import os
import subprocess
import sys
import tempfile

import compare
import formula

SEED = 20260101
GENERATED = (('short', None), ('grammar', 60000), ('damaged', 60000),
             ('random', 60000))
LONG = ('long', 40)
LONG_TAKEN = 2

OPERATORS = ('= += -= *= /= %= ^= |= &= <<= >>= .. ..= || && == != < > <= >='
             ' | ^ & << >> + - * / % as').split()
PREFIXES = '& &mut * ! - .. ..='.split()
POSTFIXES = '?', '(b)', '[b]', '.b', '.0', '.b(c)', '.await', '.0.1'

RULES = (
    # atoms, paths, parentheses, literals
    'a', '1', '0.5', '"s"', 'true', 'false', '(a)', 'a::b', 'a::b::c',
    '((1))', '1::b',
    # prefixes and references
    '-a', '!a', '*a', '&a', '&mut a', '&&a', '- -a', '!-*&a',
    # postfix forms, fields by number and by float, await
    'a?', 'a()', 'a(b)', 'a(b, c)', 'a(b,)', 'a[b]', 'a.b', 'a.0', 'a.0.1',
    'a.0. b', 'a.0. b.c', 'a.0. b(c)', 'a.0. await', 'a.0.1.b', 'a.b()',
    'a.b(c, d)', 'a.await', 'a.await?', 'a??', 'a.0(b)', 'a.0. ..b',
    'a.0. ..=b', 'f(a)(b)[c].d?',
    # casts
    'a as T', 'a as T::U', '-a as T', 'a as T as U', 'a as T <= b',
    'a as T != b', '&a as T', 'a as T + b', 'a + b as T',
    # ranges
    '..', '..a', '..=a', 'a..', 'a..b', 'a..=b', 'a.. + b', '.. + a',
    'x = 1.. + 2', 'a..b..c', '(a..)', 'f(a..)', 'a[..]', 'a[b..]',
    'a[..b]', 'a.. .b', 'a..-b', 'a..&b', '..a + b', '-..a', 'a...b',
    'a..=..b', 'a + ..b', 'a = ..',
    # where a reading stops
    'a b', 'a,', 'a)', 'a]', 'a:b', 'a => b', 'a != b', 'a -> b', 'a!=b',
    'a&&&b', 'a&&b', 'a<b', 'a<<b', 'a<<=b', 'a>>=b', 'a>=b', 'a>>b',
    'a|=b', 'a||b', 'a= =b', 'a=b', 'a==b', 'a< <b', 'a- -b', 'a-=b',
    # nesting
    '1 + 2 * 3', '1 * 2 + 3', '1 = 2 = 3', '1 < 2 < 3', '(a + b) * c',
    'f(a + b, c * d)', 'a[b + c]', '-(a + b)', 'a.b(c)[d]?.e as T * f',
)


# Bytes, and what is printed for them. Behind the broken form stands a whole
# one that is not read.
REFUSED = (
    (b'\x01\x01\x00\x1e\x02\x01\x00\x00', 'refused 1 at 0'),
    (b'\x01\x02\x00\x02\x02\x02\x02\x00\x00\x02', 'refused 2 at 1'),
    (b'\x01\x01\x00\x05\x02\x00\x00', 'refused 3 at 0'),
    (b'\x01\x02\x00\x0a\x0b\x02\x02\x00\x00\x00', 'refused 7 at 1'),
    (b'\x01\x01\x00\x02\x03\x01\x00\x00'
     b'\x01\x01\x00\x02\x02\x01\x00\x00', 'refused 10 at 4'),
)


def hand_made():
    yield from RULES
    for one in OPERATORS:
        for other in OPERATORS:
            second = 'T' if one == 'as' else 'b'
            third = 'T' if other == 'as' else 'c'
            yield f'a {one} {second} {other} {third}'
    for op in OPERATORS:
        right = 'T' if op == 'as' else 'b'
        for prefix in PREFIXES:
            yield f'{prefix} a {op} {right}'
            yield f'a {op} {prefix} {right}'
        for postfix in POSTFIXES:
            yield f'a{postfix} {op} {right}'
            yield f'a {op} {right}{postfix}'
    yield '-' * 127 + '1'
    yield '(' * 127 + '1' + ')' * 127
    yield 'a' + '[b' * 127 + ']' * 127
    yield 'f(' * 126 + 'a' + ')' * 126
    yield ' = '.join('a' * 128)


def form(kinds, joints):
    def section(tag, payload):
        return bytes([tag]) + len(payload).to_bytes(2, 'little') + payload
    return (section(formula.KINDS_TAG, kinds)
            + section(formula.JOINTS_TAG, joints))


def from_text(text):
    tokens = formula.lex(text)
    return (bytes(token.kind for token in tokens),
            bytes(token.joint for token in tokens))


def answers(lists, oracle):
    """The oracle's compact answer to each list."""
    with tempfile.TemporaryFile() as file:
        for kinds, joints in lists:
            file.write(form(kinds, joints))
        file.seek(0)
        run = subprocess.run([oracle, 'run', '--compact'], stdin=file,
                             stdout=subprocess.PIPE, check=True)
    lines = run.stdout.decode().splitlines()
    assert len(lines) == len(lists)
    return lines


PATH_SEGMENT = 65536 + 84
COLON2 = 131072 + 256 * 2 + 42


def steps_of(line):
    return [int(word) for word in line.split(':')[1].split()]


def is_inside(line):
    """Free of errors, and without a leading `::`, which the port refuses."""
    if not compare.is_answer(line):
        return False
    steps = steps_of(line)
    return (PATH_SEGMENT, COLON2) not in zip(steps, steps[1:])


def shown(kinds, joints, line):
    """What a list shows."""
    steps = [0, 0] + steps_of(line) + [0]
    features = set(zip(steps, steps[1:], steps[2:]))
    consumed = int(line.split(':')[0])
    if 0 < consumed < len(kinds):
        features.add(('stops', kinds[consumed - 1], kinds[consumed],
                      joints[consumed - 1]))
    return features


def generated(family, count, oracle):
    words = [oracle, 'gen', family]
    if count:
        words += ['--seed', str(SEED), '--count', str(count)]
    with tempfile.NamedTemporaryFile() as file:
        subprocess.run(words, stdout=file, check=True)
        return list(compare.forms(file.name))


def choose(oracle):
    lists = [from_text(text) for text in hand_made()]
    lists = list(dict.fromkeys(lists))
    chosen, seen = [], set()
    for one, line in zip(lists, answers(lists, oracle)):
        if is_inside(line):
            chosen.append((one, line))
            seen |= shown(*one, line)
    by_hand = len(chosen)
    taken = {one for one, _ in chosen}
    for family, count in GENERATED:
        lists = generated(family, count, oracle)
        lines = answers(lists, oracle)
        rows = sorted(zip(lists, lines),
                      key=lambda row: (len(row[0][0]), row[0]))
        for one, line in rows:
            if one in taken or not is_inside(line):
                continue
            features = shown(*one, line)
            if features <= seen:
                continue
            seen |= features
            taken.add(one)
            chosen.append((one, line))
    lists = generated(*LONG, oracle)
    long = [(one, line) for one, line in zip(lists, answers(lists, oracle))
            if is_inside(line) and one not in taken]
    long.sort(key=lambda row: -len(row[0][0]))
    chosen += long[:LONG_TAKEN]
    return chosen, by_hand, seen


def main():
    parser = argparse.ArgumentParser(
        description=__doc__, formatter_class=argparse.RawTextHelpFormatter)
    parser.add_argument('--oracle', default=os.path.join(
        compare.ROOT, 'oracle', 'target', 'release', 'oracle'))
    parser.add_argument('forms')
    parser.add_argument('answers')
    options = parser.parse_args()
    chosen, by_hand, seen = choose(options.oracle)
    with open(options.forms, 'wb') as file:
        for (kinds, joints), _ in chosen:
            file.write(form(kinds, joints))
        file.writelines(data for data, _ in REFUSED)
    with open(options.answers, 'w') as file:
        for _, line in chosen:
            steps = steps_of(line)
            consumed = line.split(':')[0]
            file.write(f'consumed {consumed} steps {len(steps)}\n')
            file.writelines(f'{step}\n' for step in steps)
        file.writelines(f'{line}\n' for _, line in REFUSED)
    print(f'{len(chosen)} lists, {by_hand} of them by hand;'
          f' {len(seen)} things shown;'
          f' longest {max(len(kinds) for (kinds, _), _ in chosen)} tokens')


if __name__ == '__main__':
    sys.exit(main())
