//! Formulas up to the longest list that document 01 reads.

use super::{
    formula::{expression, is_assignment, operand, operator},
    writer::Writer,
};
use crate::{list::TokenList, random::Random, raw::*};

/// One more than the longest list that the program takes from a stored form.
const LEAST_TOKENS: usize = 257;
const PIECE_OPERANDS: usize = 12;
/// In one chain, so that the chain stays within 128 open readings.
const MOST_ASSIGNMENTS: usize = 64;

pub fn long(random: &mut Random) -> TokenList {
    let length = match random.below(4) {
        0 => MOST_TOKENS,
        1 => MOST_TOKENS - 1,
        _ => random.between(LEAST_TOKENS, MOST_TOKENS),
    };
    let writer = match random.below(6) {
        0 => chain(length, random, operand),
        1 => chain(length, random, |random| {
            let operands = random.between(1, PIECE_OPERANDS);
            parenthesised(expression(operands, random))
        }),
        2 => many_arguments(length, random),
        3 => long_path(length),
        4 => many_postfixes(length, random),
        _ => many_casts(length, random),
    };
    writer.finish(random)
}

fn parenthesised(inner: Writer) -> Writer {
    let mut writer = Writer::default();
    writer.token(L_PAREN);
    writer.append(inner);
    writer.token(R_PAREN);
    writer
}

/// `?` is a postfix form of one token, so it fills any list up to its length.
fn fill(mut writer: Writer, length: usize) -> Writer {
    while writer.len() < length {
        writer.token(QUESTION);
    }
    writer
}

/// Operands with operators between.
fn chain(length: usize, random: &mut Random, piece: impl Fn(&mut Random) -> Writer) -> Writer {
    let mut writer = Writer::default();
    writer.token(INT);
    let mut assignments = 0;
    loop {
        let parts = operator(&writer, random);
        if is_assignment(parts) {
            assignments += 1;
            if assignments > MOST_ASSIGNMENTS {
                continue;
            }
        }
        let mut more = Writer::default();
        more.glued(parts);
        more.append(piece(random));
        if writer.len() + more.len() > length {
            return fill(writer, length);
        }
        writer.append(more);
    }
}

/// `f(a, b + c, ..)`
fn many_arguments(length: usize, random: &mut Random) -> Writer {
    let mut writer = Writer::default();
    writer.tokens(&[IDENT, L_PAREN, INT]);
    loop {
        let mut more = Writer::default();
        more.token(COMMA);
        let operands = random.between(1, PIECE_OPERANDS);
        more.append(expression(operands, random));
        if writer.len() + more.len() + 1 > length {
            writer.token(R_PAREN);
            return fill(writer, length);
        }
        writer.append(more);
    }
}

/// `a::a::..`
fn long_path(length: usize) -> Writer {
    let mut writer = Writer::default();
    writer.token(IDENT);
    while writer.len() + 3 <= length {
        writer.glued(&[COLON, COLON]);
        writer.token(IDENT);
    }
    fill(writer, length)
}

/// `a.b[1].0.1(2)..`
fn many_postfixes(length: usize, random: &mut Random) -> Writer {
    let mut writer = Writer::default();
    writer.token(IDENT);
    loop {
        let more = postfix(random);
        if writer.len() + more.len() > length {
            return fill(writer, length);
        }
        writer.append(more);
    }
}

fn postfix(random: &mut Random) -> Writer {
    let mut writer = Writer::default();
    match random.below(8) {
        0 => writer.tokens(&[DOT, IDENT]),
        1 => writer.tokens(&[DOT, INT]),
        2 => writer.tokens(&[DOT, AWAIT]),
        3 => writer.tokens(&[DOT, IDENT, L_PAREN, R_PAREN]),
        4 => writer.tokens(&[L_BRACK, INT, R_BRACK]),
        5 => writer.tokens(&[L_PAREN, IDENT, COMMA, INT, R_PAREN]),
        6 => {
            writer.token(DOT);
            writer.float(true);
        }
        _ => {
            writer.token(DOT);
            writer.float(false);
            writer.token(IDENT);
        }
    }
    writer
}

/// `a as T as U ..`, filled in front, because `?` does not follow a type.
fn many_casts(length: usize, random: &mut Random) -> Writer {
    let mut casts = Writer::default();
    while casts.len() + 4 < length {
        casts.tokens(&[AS, IDENT]);
        if random.one_in(3) && casts.len() + 4 < length {
            casts.glued(&[COLON, COLON]);
            casts.token(IDENT);
        }
    }
    let mut writer = Writer::default();
    writer.token(IDENT);
    let mut writer = fill(writer, length - casts.len());
    writer.append(casts);
    writer
}
