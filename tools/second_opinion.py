#!/usr/bin/env python3
"""A second opinion on grouping: rustc's trees beside ours.

usage:
  second_opinion.py [--seed S] [--count N] [--batch PROGRAM] [--rustc PROGRAM]
                    [--per-file N] [--show N] [--list FILE]

Makes N formulas without ranges as text, has our program (tools/run batch) and
rustc's own parser (rustc -Zunpretty=ast-tree) group them, writes both trees in
the same fully parenthesised form and compares. The formulas follow from the
seed alone. `--list FILE` writes every formula that was compared, and its
grouping, to FILE.

Left out, since one side or both refuse them:

  chains of comparisons               a < b == c            rustc
  `<` and `<<` behind a cast          a as T < b            both
  `<<=` behind a cast                 a as T <<= b          ours, with 7
  a postfix form behind a cast        a as T.b, a as T?     rustc
  arguments behind a cast             a as T(b)             ours, with 7
  arguments behind await              a.await()             rustc
  `<` and `-` that touch              a <-b                 rustc
  a leading `::`                      ::a                   ours, with 7

What one side refuses all the same is counted and not compared; what rustc
refuses may take the formula behind it in the same file along. Exit status: 0
where all that was compared is equal, 1 where something differs or nothing was
compared, 2 where a program could not be run.

No part of the gate: it needs rustc, and a rustc whose ast-tree is printed as
that of 1.95 is. Nothing but the parser of rustc is run.
"""

import argparse
import collections
import os
import random
import re
import shlex
import subprocess
import sys
import tempfile
import time

import formula

HERE = os.path.dirname(os.path.abspath(__file__))

COMPARISONS = '== != < > <= >='.split()
ASSIGNMENTS = '= += -= *= /= %= ^= |= &= <<= >>='.split()
LOOSER = ['||', '&&'] + ASSIGNMENTS
TIGHTER = '| ^ & << >> + - * / %'.split()
OPERATORS = ASSIGNMENTS + ['||', '&&'] + COMPARISONS + TIGHTER
BEHIND_CAST_OUT = ('<', '<<', '<<=')
PAIRS = ((len(OPERATORS) + 1) ** 2 - len(COMPARISONS) ** 2
         - len(BEHIND_CAST_OUT))
DEEPEST = 4


class Trouble(Exception):
    """What ends the run, in words."""


# ------------------------------------------------------------------- formulas

class Generator:
    """Pieces of text that make a formula, all choices from one seed."""

    def __init__(self, seed):
        self.random = random.Random(seed)
        self.names = 0
        self.pairs = set()

    def text(self):
        self.names = 0
        pieces = []
        self.formula(pieces, 0)
        return self.spaced(pieces)

    def one_in(self, n):
        return self.random.randrange(n) == 0

    def name(self):
        # Each name of a formula is another one, so that no two places of a
        # tree can be mistaken for each other.
        self.names += 1
        return f'n{self.names}'

    def number(self):
        self.names += 1
        return str(self.names)

    def formula(self, out, depth):
        operators = self.random.choice(
            (1, 2, 2, 3, 3, 4, 5, 6, 8, 12) if depth == 0 else (0, 0, 1, 2))
        self.operand(out, depth)
        compared = False
        before = None
        for _ in range(operators):
            if self.one_in(9):
                operator = 'as'
                out += ['as', self.name()]
                while self.one_in(4):
                    out += ['::', self.name()]
            else:
                operator = self.operator(compared, before == 'as')
                out.append(operator)
                self.operand(out, depth)
            if operator in COMPARISONS:
                compared = True
            elif operator in LOOSER:
                compared = False
            if before:
                self.pairs.add((before, operator))
            before = operator

    def operator(self, compared, behind_cast):
        while True:
            operator = self.random.choice(OPERATORS + TIGHTER + TIGHTER)
            if compared and operator in COMPARISONS:
                continue
            if behind_cast and operator in BEHIND_CAST_OUT:
                continue
            return operator

    def operand(self, out, depth):
        while self.one_in(4):
            prefix = self.random.choice(('-', '!', '*', '&', '&mut'))
            out += ['&', 'mut'] if prefix == '&mut' else [prefix]
        self.atom(out, depth)
        while self.one_in(4):
            self.postfix(out, depth)

    def atom(self, out, depth):
        choice = self.random.randrange(16)
        if choice < 2 and depth < DEEPEST:
            out.append('(')
            self.formula(out, depth + 1)
            out.append(')')
        elif choice == 4:
            out.append(self.number())
        elif choice == 5:
            out.append(self.random.choice(('{}.5', '{}e2', '{}.')).format(
                self.number()))
        elif choice == 6:
            out.append(f'"s{self.number()}"')
        elif choice == 7:
            out.append(self.random.choice(('true', 'false')))
        else:
            out.append(self.name())
            while self.one_in(8):
                out += ['::', self.name()]

    def postfix(self, out, depth):
        choice = self.random.randrange(8)
        if choice == 7 and out[-1] == 'await':
            choice = 0
        if choice == 0:
            out.append('?')
        elif choice == 1:
            out += ['.', 'await']
        elif choice == 2:
            out += ['.', self.name()]
        elif choice == 3:
            out += ['.', self.number()]
        elif choice == 4:
            out += ['.', self.number(), '.', self.number()]
        elif choice == 5:
            out.append('[')
            self.formula(out, min(depth + 1, DEEPEST))
            out.append(']')
        else:
            if choice == 6:
                out += ['.', self.name()]
            self.arguments(out, min(depth + 1, DEEPEST))

    def arguments(self, out, depth):
        out.append('(')
        for place in range(0 if depth == DEEPEST
                           else self.random.choice((0, 1, 1, 2))):
            if place:
                out.append(',')
            self.formula(out, depth)
        if out[-1] != '(' and self.one_in(8):
            out.append(',')
        out.append(')')

    def spaced(self, pieces):
        # Some formulas all apart, some as close as can be, some at random.
        closeness = self.random.choice((0, 2, 9, 10))
        text = ''
        for before, piece, after in zip([''] + pieces, pieces,
                                        pieces[1:] + ['']):
            apart = self.random.randrange(10) >= closeness
            if before and (apart or must_part(text, before, piece, after)):
                text += ' '
            text += piece
        return text


def must_part(text, before, piece, after):
    if wordlike(before[-1]) and wordlike(piece[0]):
        return True
    if before[-1] == '.' and (before != '.' or piece == '.'):
        return True
    if piece == '.' and before.isdigit():
        # Behind a dot the digits are a field and may become a float.
        return not text.removesuffix(before).rstrip().endswith('.')
    if piece == '&' and after == 'mut':
        # Other references may touch: `a & &b` is then a list with `&&`.
        return before == '&'
    return (before, piece) in (('/', '*'), ('<', '-'))


def wordlike(char):
    return char.isalnum() or char in '_"'


# ------------------------------------------------------- our steps, as a form

def our_answers(command, forms):
    """What our program says of each list: an Answer or a Refusal."""
    lines = run(command, b''.join(forms)).decode().splitlines()
    answers = []
    place = 0
    while place < len(lines):
        head = formula.ANSWER_LINE.fullmatch(lines[place])
        end = place + 1 + (int(head.group(2)) if head else 0)
        answers.append(formula.parse_answer(lines[place:end]))
        place = end
    if len(answers) != len(forms):
        raise Trouble(f'{len(forms)} lists, but {len(answers)} answers')
    return answers


def our_form(tokens, answer):
    """Our tree in the common form, or None where it is not one formula."""
    if isinstance(answer, formula.Refusal) or answer.consumed != len(tokens):
        return None
    root = []
    stack = [root]
    place = 0
    for step in answer.steps:
        tag, value = divmod(step, 0x10000)
        if tag == formula.ENTER_STEP:
            node = [formula.NODE_NAMES[value]]
            stack[-1].append(node)
            stack.append(node)
        elif tag == formula.LEAVE_STEP:
            stack.pop()
        elif tag == formula.TOKEN_STEP:
            width = value // 0x100
            stack[-1].append(''.join(
                token.text for token in tokens[place:place + width]))
            place += width
        elif tag == formula.SPLIT_STEP:
            left, _, right = tokens[place].text.partition('.')
            place += 1
            stack.pop().append(['NAME_REF', left])
            stack[-1].append('.')
            if value == 0:
                stack.pop().append(['NAME_REF', right])
        else:
            return None
    (tree,) = root
    return our_node(tree)


def our_node(node):
    name, *parts = node
    inner = [our_node(part) for part in parts
             if isinstance(part, list) and part[0] != 'ARG_LIST']
    if name in ('LITERAL', 'PATH_EXPR', 'PATH_TYPE', 'NAME_REF', 'PATH',
                'PATH_SEGMENT'):
        return ''.join(inner if name == 'PATH_EXPR' else
                       [part if isinstance(part, str) else our_node(part)
                        for part in parts])
    if name == 'BIN_EXPR':
        return form(parts[1], *inner)
    if name == 'PREFIX_EXPR':
        return form('prefix' + parts[0], *inner)
    if name == 'REF_EXPR':
        return form('&mut' if parts[1] == 'mut' else 'ref', *inner)
    if name in ('CALL_EXPR', 'METHOD_CALL_EXPR'):
        arguments = [our_node(part) for part in parts[-1][1:]
                     if isinstance(part, list)]
        return form(FORM_NAMES[name], *inner, *arguments)
    return form(FORM_NAMES[name], *inner)


FORM_NAMES = {
    'PAREN_EXPR': 'paren', 'CALL_EXPR': 'call', 'METHOD_CALL_EXPR': 'method',
    'FIELD_EXPR': 'field', 'INDEX_EXPR': 'index', 'TRY_EXPR': 'try',
    'AWAIT_EXPR': 'await', 'CAST_EXPR': 'cast',
}


def form(*parts):
    return '(' + ' '.join(parts) + ')'


# ---------------------------------------------------- rustc's tree, as a form

Node = collections.namedtuple('Node', 'field head parts')

FIELD = re.compile(r'([a-z_]+): ')
UNINTERESTING = ('id: ', 'span: ', 'attrs: []', 'tokens: None')
ERROR_PLACE = re.compile(
    r'formulas\.rs:([0-9]+):[0-9]+:(?: [0-9:]+:)? error(.*)')

BINARY = dict(zip(
    'Add Sub Mul Div Rem And Or BitXor BitAnd BitOr Shl Shr Eq Lt Le Ne Ge Gt'
    .split(), '+ - * / % && || ^ & | << >> == < <= != >= >'.split()))
ASSIGN = {f'{name}Assign': f'{sign}=' for name, sign in BINARY.items()}
UNARY = {'Deref': 'prefix*', 'Not': 'prefix!', 'Neg': 'prefix-'}


def rustc_forms(rustc, texts, refused):
    """The common form of each text by number; refused ones go to `refused`."""
    left = dict(texts)
    while left:
        numbers = list(left)
        with tempfile.TemporaryDirectory() as folder:
            path = os.path.join(folder, 'formulas.rs')
            with open(path, 'w', encoding='utf-8') as file:
                for number in numbers:
                    file.write(f'const C{number}: T = {left[number]};\n')
            try:
                done = subprocess.run(
                    [*shlex.split(rustc), '--edition', '2021', '--crate-type',
                     'lib', '--error-format', 'short', '-Zunpretty=ast-tree',
                     'formulas.rs'], cwd=folder, capture_output=True,
                    env=dict(os.environ, RUSTC_BOOTSTRAP='1'))
            except OSError as fault:
                raise Trouble(f"can't run {rustc}: {fault}") from fault
        said = done.stderr.decode('utf-8', 'replace')
        if done.returncode == 0:
            return read_tree(done.stdout.decode('utf-8'))
        found = [(numbers[int(line) - 1], words.strip(': '))
                 for line, words in ERROR_PLACE.findall(said)]
        if not found:
            raise Trouble(f'{rustc} failed:\n{said}')
        for number, words in found:
            if left.pop(number, None) is not None:
                refused[number] = words
    return {}


def read_tree(printed):
    root = Node(None, None, [])
    stack = [root]
    for line in printed.splitlines():
        line = line.strip().removesuffix(',')
        if line.startswith(UNINTERESTING):
            continue
        if line in ('}', ')', ']', '})', '])'):
            stack.pop()
            continue
        field = FIELD.match(line)
        rest = line[field.end():] if field else line
        node = Node(field.group(1) if field else None, rest.rstrip('{(['), [])
        stack[-1].parts.append(node._replace(head=node.head.strip()))
        if rest[-1:] in ('{', '(', '['):
            stack.append(node)
    if len(stack) != 1:
        raise Trouble('the ast-tree of this rustc is printed in another way')
    forms = {}
    (crate,) = root.parts
    for item in field_of(crate, 'items').parts:
        name = first(item, lambda node: node.field == 'ident')
        value = first(item, lambda node: node.head == 'Expr')
        forms[int(ident(name).removeprefix('C'))] = rustc_expr(value)
    return forms


def first(node, wanted):
    for part in node.parts:
        found = part if wanted(part) else first(part, wanted)
        if found:
            return found
    return None


def field_of(node, name):
    for part in node.parts:
        if part.field == name:
            return part
    raise Trouble(f'no field {name} in {node.head}: another ast-tree')


def ident(node):
    return node.head.partition('#')[0]


def path(node):
    return '::'.join(ident(field_of(segment, 'ident'))
                     for segment in field_of(node, 'segments').parts)


def rustc_expr(node):
    if node.head != 'Expr':
        raise Trouble(f'{node.head} in the place of an expression')
    kind = field_of(node, 'kind')
    parts = kind.parts
    inner = [part for part in parts if part.head == 'Expr']
    if kind.head == 'Path':
        return path(parts[1])
    if kind.head == 'Lit':
        symbol = field_of(parts[0], 'symbol').head
        if field_of(parts[0], 'kind').head == 'Str':
            return symbol
        return symbol.strip('"')
    if kind.head == 'Binary':
        name = BINARY[field_of(parts[0], 'node').head]
    elif kind.head == 'AssignOp':
        name = ASSIGN[field_of(parts[0], 'node').head]
    elif kind.head == 'Assign':
        name = '='
    elif kind.head == 'Unary':
        name = UNARY[parts[0].head]
    elif kind.head == 'AddrOf':
        name = {'Mut': '&mut', 'Not': 'ref'}[parts[1].head]
    elif kind.head == 'Cast':
        target = field_of(parts[1], 'kind')
        return form('cast', rustc_expr(inner[0]), path(target.parts[1]))
    elif kind.head == 'Call':
        return form('call', *map(rustc_expr, inner),
                    *map(rustc_expr, parts[1].parts))
    elif kind.head == 'MethodCall':
        (call,) = parts
        return form('method', rustc_expr(field_of(call, 'receiver')),
                    ident(field_of(field_of(call, 'seg'), 'ident')),
                    *map(rustc_expr, field_of(call, 'args').parts))
    elif kind.head == 'Field':
        return form('field', rustc_expr(inner[0]), ident(parts[1]))
    elif kind.head in ('Paren', 'Index', 'Try', 'Await'):
        name = kind.head.lower()
    else:
        return form('other', kind.head)
    return form(name, *map(rustc_expr, inner))


# ------------------------------------------------------------------- the run

def run(command, given):
    try:
        done = subprocess.run(command, input=given, capture_output=True)
    except OSError as fault:
        raise Trouble(f"can't run {command[0]}: {fault}") from fault
    if done.returncode:
        raise Trouble(f'{" ".join(command)}: exit status {done.returncode}\n'
                      + done.stderr.decode('utf-8', 'replace'))
    return done.stdout


def second_opinion(options):
    began = time.monotonic()
    generator = Generator(options.seed)
    texts = [generator.text() for _ in range(options.count)]
    tokens = [formula.lex(text) for text in texts]
    answers = our_answers(options.batch,
                          [formula.encode(listed) for listed in tokens])
    ours = {number: our_form(*pair)
            for number, pair in enumerate(zip(tokens, answers))}
    unread = [number for number, our in ours.items() if our is None]
    asked = [number for number, our in ours.items() if our is not None]
    refused = {}
    theirs = {}
    for start in range(0, len(asked), options.per_file):
        theirs.update(rustc_forms(
            options.rustc, {number: texts[number] for number
                            in asked[start:start + options.per_file]},
            refused))
    compared = [number for number in asked if number not in refused]
    different = [number for number in compared
                 if theirs.get(number) != ours[number]]
    if options.list:
        with open(options.list, 'w', encoding='utf-8') as file:
            for number in compared:
                file.write(f'{texts[number]}\t{ours[number]}\n')

    version = run([*shlex.split(options.rustc), '--version'], b'')
    print(f'{version.decode().strip()}, seed {options.seed}')
    print(f'formulas {len(texts)}, of them different texts'
          f' {len(set(texts))}, tokens {sum(map(len, tokens))}')
    print(f'operators side by side: {len(generator.pairs)} pairs'
          f' of {PAIRS}')
    print(f'not read whole by ours {len(unread)}')
    for number in unread[:options.show]:
        print(f'  {texts[number]}')
    print(f'refused by rustc {len(refused)}')
    for words, many in collections.Counter(refused.values()).most_common():
        print(f'  {many} {words}')
    for number in list(refused)[:options.show]:
        print(f'  {texts[number]}')
    print(f'compared {len(compared)},'
          f' equal {len(compared) - len(different)},'
          f' different {len(different)}')
    for number in different[:options.show]:
        print(f'  {texts[number]}\n    ours  {ours[number]}'
              f'\n    rustc {theirs.get(number)}')
    print(f'{time.monotonic() - began:.0f} s')
    return 1 if different or not compared else 0


def main():
    parser = argparse.ArgumentParser(
        usage=__doc__.partition('usage:\n')[2].partition('\n\n')[0].strip())
    parser.add_argument('--seed', type=int, default=1)
    parser.add_argument('--count', type=int, default=10000)
    parser.add_argument('--batch', type=shlex.split,
                        default=[os.path.join(HERE, 'run'), 'batch'])
    parser.add_argument('--rustc', default='rustc')
    parser.add_argument('--per-file', type=int, default=200)
    parser.add_argument('--show', type=int, default=5)
    parser.add_argument('--list')
    sys.setrecursionlimit(20000)
    try:
        return second_opinion(parser.parse_args())
    except (Trouble, formula.FormulaError) as fault:
        print(f'second_opinion.py: {fault}', file=sys.stderr)
        return 2


if __name__ == '__main__':
    sys.exit(main())
