//! The numbers of document 01, and the crate's kinds for them.

use parser::SyntaxKind::{self, *};

const FIRST_RAW: u8 = 1;
const FIRST_GLUED: u8 = 40;
const FIRST_NODE: u8 = 80;

const ENTER: u32 = 65_536;
const TOKEN: u32 = 131_072;
pub const LEAVE: u32 = 196_608;
const FLOAT_SPLIT: u32 = 262_144;
const ERROR_STEP: u32 = 327_680;
const WIDTH: u32 = 256;

/// Raw kinds from 1 on.
const RAW: [SyntaxKind; 29] = [
    IDENT,
    INT_NUMBER,
    FLOAT_NUMBER,
    STRING,
    TRUE_KW,
    FALSE_KW,
    AS_KW,
    MUT_KW,
    AWAIT_KW,
    L_PAREN,
    R_PAREN,
    L_BRACK,
    R_BRACK,
    COMMA,
    COLON,
    DOT,
    AMP,
    PIPE,
    PLUS,
    MINUS,
    STAR,
    SLASH,
    PERCENT,
    CARET,
    BANG,
    EQ,
    L_ANGLE,
    R_ANGLE,
    QUESTION,
];

/// Glued kinds from 40 on.
const GLUED: [SyntaxKind; 24] = [
    MINUSEQ, THIN_ARROW, COLON2, NEQ, DOT2, STAREQ, SLASHEQ, AMP2, AMPEQ, PERCENTEQ, CARETEQ,
    PLUSEQ, SHL, LTEQ, EQ2, FAT_ARROW, GTEQ, SHR, PIPEEQ, PIPE2, DOT3, DOT2EQ, SHLEQ, SHREQ,
];

/// Nodes from 80 on.
const NODES: [SyntaxKind; 20] = [
    ERROR,
    LITERAL,
    PATH_EXPR,
    PATH,
    PATH_SEGMENT,
    NAME_REF,
    PAREN_EXPR,
    REF_EXPR,
    PREFIX_EXPR,
    BIN_EXPR,
    RANGE_EXPR,
    CALL_EXPR,
    ARG_LIST,
    INDEX_EXPR,
    METHOD_CALL_EXPR,
    FIELD_EXPR,
    AWAIT_EXPR,
    TRY_EXPR,
    CAST_EXPR,
    PATH_TYPE,
];

/// A kind's number, or 0, by the crate's own number of the kind.
type Numbers = [u8; SyntaxKind::__LAST as usize + 1];

const fn number_from(first: u8, kinds: &[SyntaxKind], mut numbers: Numbers) -> Numbers {
    let mut i = 0;
    while i < kinds.len() {
        numbers[kinds[i] as usize] = first + i as u8;
        i += 1;
    }
    numbers
}

const NO_NUMBERS: Numbers = [0; SyntaxKind::__LAST as usize + 1];
const TOKEN_NUMBERS: Numbers =
    number_from(FIRST_GLUED, &GLUED, number_from(FIRST_RAW, &RAW, NO_NUMBERS));
/// Apart from the tokens, because ERROR is a kind of both.
const NODE_NUMBERS: Numbers = number_from(FIRST_NODE, &NODES, NO_NUMBERS);

fn known(number: u8) -> Option<u32> {
    (number != 0).then_some(u32::from(number))
}

pub fn raw_kind(number: u8) -> Option<SyntaxKind> {
    RAW.get(usize::from(number).checked_sub(usize::from(FIRST_RAW))?).copied()
}

pub fn enter_step(node: SyntaxKind) -> Option<u32> {
    known(NODE_NUMBERS[node as usize]).map(|number| ENTER + number)
}

pub fn token_step(kind: SyntaxKind, width: u8) -> Option<u32> {
    known(TOKEN_NUMBERS[kind as usize]).map(|number| TOKEN + WIDTH * u32::from(width) + number)
}

pub fn split_step(ends_in_dot: bool) -> u32 {
    FLOAT_SPLIT + u32::from(ends_in_dot)
}

/// The error step for the crate's message, where 01 has a code of that meaning.
pub fn error_step(message: &str) -> Option<u32> {
    let code = match message {
        "expected expression" => 1,
        "expected method name, field name or number" => 2,
        "expected field name or number" => 3,
        "expected type" => 4,
        "expected R_PAREN" => 5,
        "expected R_BRACK" => 6,
        "expected COMMA" => 7,
        _ => return None,
    };
    Some(ERROR_STEP + code)
}
