//! The raw kinds of document 01, what may stand glued, and the limits.

pub const IDENT: u8 = 1;
pub const INT: u8 = 2;
pub const FLOAT: u8 = 3;
pub const STRING: u8 = 4;
pub const TRUE: u8 = 5;
pub const FALSE: u8 = 6;
pub const AS: u8 = 7;
pub const MUT: u8 = 8;
pub const AWAIT: u8 = 9;
pub const L_PAREN: u8 = 10;
pub const R_PAREN: u8 = 11;
pub const L_BRACK: u8 = 12;
pub const R_BRACK: u8 = 13;
pub const COMMA: u8 = 14;
pub const COLON: u8 = 15;
pub const DOT: u8 = 16;
pub const AMP: u8 = 17;
pub const PIPE: u8 = 18;
pub const PLUS: u8 = 19;
pub const MINUS: u8 = 20;
pub const STAR: u8 = 21;
pub const SLASH: u8 = 22;
pub const PERCENT: u8 = 23;
pub const CARET: u8 = 24;
pub const BANG: u8 = 25;
pub const EQ: u8 = 26;
pub const L_ANGLE: u8 = 27;
pub const R_ANGLE: u8 = 28;
pub const QUESTION: u8 = 29;

pub const FIRST: u8 = IDENT;
pub const LAST: u8 = QUESTION;

/// The longest list that 01 reads.
pub const MOST_TOKENS: usize = 4096;
/// The most readings that 01 lets be open at once.
pub const MOST_DEPTH: usize = 128;

/// The raw parts of the glued tokens, in the order of 40 to 63.
pub const GLUED_PARTS: [&[u8]; 24] = [
    &[MINUS, EQ],
    &[MINUS, R_ANGLE],
    &[COLON, COLON],
    &[BANG, EQ],
    &[DOT, DOT],
    &[STAR, EQ],
    &[SLASH, EQ],
    &[AMP, AMP],
    &[AMP, EQ],
    &[PERCENT, EQ],
    &[CARET, EQ],
    &[PLUS, EQ],
    &[L_ANGLE, L_ANGLE],
    &[L_ANGLE, EQ],
    &[EQ, EQ],
    &[EQ, R_ANGLE],
    &[R_ANGLE, EQ],
    &[R_ANGLE, R_ANGLE],
    &[PIPE, EQ],
    &[PIPE, PIPE],
    &[DOT, DOT, DOT],
    &[DOT, DOT, EQ],
    &[L_ANGLE, L_ANGLE, EQ],
    &[R_ANGLE, R_ANGLE, EQ],
];

/// Whether two touching tokens might be read as parts of one.
pub fn may_glue(left: u8, right: u8) -> bool {
    GLUED_PARTS.iter().any(|parts| parts.windows(2).any(|pair| *pair == [left, right]))
}
