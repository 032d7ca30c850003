"""The help of each command, with an example that works when pasted at the
root of the project. The first line of a help is its usage."""

SUMMARY = '''\
formula.py: a pair of eyes for formulas

usage:
  formula.py group TEXT                  print the grouping as parentheses
  formula.py show TEXT                   draw the tree, with errors and rest
  formula.py diff TEXT TEXT              show how two revisions differ
  formula.py guard TEXT NAME=VALUE ..    evaluate a guard
  formula.py tokens TEXT                 list the raw tokens
  formula.py encode TEXT                 write the stored form
  formula.py draw TEXT < ANSWER          draw an answer that was kept
  formula.py help COMMAND                say more about one of these

TEXT is one argument in UTF-8 and may begin with a minus sign. A formula that
is spelled like an option gets a blank in front: ' --full'.

What is shown comes from the proved programs that `rt ci` builds, and the tool
says where it adds something of its own. Text becomes tokens here: the
product does no lexing.

The exit status is 0 when the work was done (a refusal is an answer like
another), 1 when TEXT can't be read, a program can't be run, its answer doesn't
fit TEXT or nothing can be written, and 2 when the command line is wrong.
'''

HELP = {
    'group': '''\
formula.py group [--program COMMAND] TEXT

Prints TEXT with every grouping made visible by parentheses, as the proved
reader grouped it; names and numbers as written. Braces, which no formula has,
mark errors and the unread rest. A refusal is told in words, with its number.

COMMAND is another program that reads a stored form and prints the answer, as
one argument.

example:
  tools/formula.py group 'a == b && c + 1 < d'
''',
    'show': '''\
formula.py show [--full] [--program COMMAND] TEXT
formula.py show [--full] COMMAND TEXT

Draws the tree that the proved reader gives for TEXT: carets under errors and
under an unread rest, then a line for each node with its columns. A name or a
number is one line; --full draws every node and names every token's kind.
Columns are counted by the tool. Colour on a terminal alone, and not where
NO_COLOR is set.

COMMAND is another program that reads a stored form and prints the answer, as
one argument, so that an emulator can stand in front of it.

example:
  tools/formula.py show '-a as T * (b[0].x + 1)'
''',
    'diff': '''\
formula.py diff [--html FILE] [--text] TEXT TEXT
formula.py diff [--html FILE] FILE FILE

Runs the proved program `compare` on two revisions of a formula and shows what
it found: both groupings and the smallest parts that differ. It warns where a
formula was not read to its end, since steps end there too: `a < b` and
`a < b ) && c` have equal steps. Steps hold no names and no numbers, so the
tool looks at those itself.

Two files that exist hold a formula a line (--text: these are formulas). Lines
that are the same in both are left out, and so are empty ones and comments.

--html FILE writes one page that needs no network: both texts with the parts
that differ marked, both trees side by side.

example:
  tools/formula.py diff 'lo < p && p < hi' 'lo < p && p < hi + 1'
''',
    'guard': '''\
formula.py guard [--program COMMAND] TEXT NAME=VALUE ..

Evaluates a guard formula by the proved program `guard`, on whole numbers of 64
bits. Each name needs a value; numbers in TEXT are their own. Prints the value,
or the refusal in words with a caret under the token: a form that is no guard
(11), a stack too deep (13), a zero divisor (14), a result out of range (15).
Any value but 0 counts as true.

example:
  tools/formula.py guard 'lo < p && p < hi' lo=1 p=5 hi=9
''',
    'tokens': '''\
formula.py tokens TEXT

Lists the raw tokens of TEXT, as the tool finds them: index, kind, joint byte
(1: the next token touches this one; on a float: digits follow the dot),
column and text.

example:
  tools/formula.py tokens 'a.0.1 <= b'
''',
    'encode': '''\
formula.py encode [--hex | --decimal] [--packed] TEXT

Writes the stored form of TEXT, as bytes or as numbers: tag 1, the kinds, tag
2, the joint bytes. --packed writes the newer form: tag 3, eight joints to a
byte, the first token in the lowest bit.

example:
  tools/formula.py encode --decimal '!1'
''',
    'draw': '''\
formula.py draw [--full] TEXT < ANSWER

Draws the answer that a program printed for TEXT, as show does, and says where
the answer can't be one to TEXT.

example:
  printf 'refused 7 at 3\\n' | tools/formula.py draw 'a.b::c'
''',
}


def help_of(names):
    """The help of a command; without one, or of none, the summary."""
    return HELP.get(names[0], SUMMARY) if names else SUMMARY


def usage_of(names):
    """The usage of a command, for somebody who slipped."""
    if names and names[0] in HELP:
        usage, _, _ = HELP[names[0]].partition('\n\n')
        return 'usage: ' + usage.replace('\nformula', '\n       formula')
    return SUMMARY


def example_of(name):
    """The command line of a command's example."""
    _, _, example = HELP[name].partition('\nexample:\n')
    return example.strip()
