"""The numbers of documents 01 and 02, with their words. Each stands once."""

TRIVIA, IDENT, INT_NUMBER, FLOAT_NUMBER, STRING = range(5)

KEYWORDS = {'true': 5, 'false': 6, 'as': 7, 'mut': 8, 'await': 9}

PUNCTUATION = {char: 10 + i for i, char in enumerate('()[],:.&|+-*/%^!=<>?')}

KIND_NAMES = dict(enumerate((
    'IDENT INT_NUMBER FLOAT_NUMBER STRING'
    ' TRUE_KW FALSE_KW AS_KW MUT_KW AWAIT_KW'
    ' L_PAREN R_PAREN L_BRACK R_BRACK COMMA COLON DOT AMP PIPE PLUS MINUS STAR'
    ' SLASH PERCENT CARET BANG EQ L_ANGLE R_ANGLE QUESTION').split(), 1))

KIND_NAMES.update(enumerate((
    'MINUSEQ THIN_ARROW COLON2 NEQ DOT2 STAREQ SLASHEQ AMP2 AMPEQ PERCENTEQ'
    ' CARETEQ PLUSEQ SHL LTEQ EQ2 FAT_ARROW GTEQ SHR PIPEEQ PIPE2 DOT3 DOT2EQ'
    ' SHLEQ SHREQ').split(), 40))

GLUED = {
    kind: tuple(PUNCTUATION[char] for char in spelling)
    for kind, spelling in enumerate((
        '-= -> :: != .. *= /= && &= %= ^= += << <= == => >= >> |= ||'
        ' ... ..= <<= >>=').split(), 40)
}

NODE_NAMES = dict(enumerate((
    'ERROR LITERAL PATH_EXPR PATH PATH_SEGMENT NAME_REF PAREN_EXPR REF_EXPR'
    ' PREFIX_EXPR BIN_EXPR RANGE_EXPR CALL_EXPR ARG_LIST INDEX_EXPR'
    ' METHOD_CALL_EXPR FIELD_EXPR AWAIT_EXPR TRY_EXPR CAST_EXPR'
    ' PATH_TYPE').split(), 80))

(ERROR_NODE, LITERAL, PATH_EXPR, PATH, PATH_SEGMENT, NAME_REF, PAREN_EXPR,
 REF_EXPR, PREFIX_EXPR, BIN_EXPR, RANGE_EXPR, CALL_EXPR, ARG_LIST, INDEX_EXPR,
 METHOD_CALL_EXPR, FIELD_EXPR, AWAIT_EXPR, TRY_EXPR, CAST_EXPR,
 PATH_TYPE) = NODE_NAMES

ENTER_STEP, TOKEN_STEP, LEAVE_STEP, SPLIT_STEP, ERROR_STEP = range(1, 6)

# The whole answer to a list that begins with `)` or `]`: no node holds it.
BARE_ERROR = ERROR_STEP * 0x10000 + 1

ERROR_WORDS = {
    1: 'expected expression',
    2: 'expected method name',
    3: 'expected field name or number',
    4: 'expected type',
    5: 'expected `)`',
    6: 'expected `]`',
    7: 'expected `,`',
}

# Words, and what the place counts.
REFUSALS = {
    1: ('a kind is not 1 to 29', 'token'),
    2: ('a joint byte is above 1', 'token'),
    3: ('lists of unequal length, or too many tokens', 'nothing'),
    4: ('the event list is full', 'position'),
    5: ('more steps than step room', 'consumed'),
    6: ('too many expressions open at once', 'position'),
    7: ('a form outside the cut', 'token'),
    8: ('a machine call with an unfit marker, kind or code', 'marker'),
    9: ('the event list is not sound', 'nothing'),
    10: ('the stored form is broken', 'byte'),
}

# The refusals of a guard's evaluation, beside the reader's own.
GUARD_REFUSALS = {
    11: ('not a guard formula: an error, an unread rest, or a form without'
         ' a value', 'position'),
    12: ('too few or too many values', 'wanted'),
    13: ('the stack of 64 values would overflow', 'token'),
    14: ('division by zero', 'token'),
    15: ('a result outside the range of 64 bits', 'token'),
}

KINDS_TAG, JOINTS_TAG, PACKED_TAG = 1, 2, 3
LENGTH_LIMIT = 0xFFFF


def step_words(step):
    """A step in words: what it does, and to what."""
    tag, value = divmod(step, 0x10000)
    if tag == ENTER_STEP and value in NODE_NAMES:
        return f'enter {NODE_NAMES[value]}'
    if tag == TOKEN_STEP and value % 0x100 in KIND_NAMES:
        return f'token {KIND_NAMES[value % 0x100]}'
    if tag == LEAVE_STEP and value == 0:
        return 'leave'
    if tag == SPLIT_STEP and value in (0, 1):
        return 'float split' + (', ends in a dot' if value else '')
    if tag == ERROR_STEP and value in ERROR_WORDS:
        return f'error: {ERROR_WORDS[value]}'
    return f'no step ({step})'
