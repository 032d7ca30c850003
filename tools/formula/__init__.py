"""A pair of eyes for formulas: text to a stored form, answers for people.

The script `tools/formula.py` is the command line. What other scripts use:
"""

from .answer import (ANSWER_LINE, REFUSAL_LINE, STEP_LINE, Answer, Refusal,
                     parse_answer)
from .faults import (AnswerFault, BrokenForm, FormulaError, LexError,
                     UsageError)
from .lexer import Token, lex
from .numbers import *  # the tables, by their names
from .stored import decode, encode
