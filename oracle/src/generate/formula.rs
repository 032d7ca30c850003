//! Formulas of an expression grammar: every form that document 01 reads, ranges everywhere.

use super::writer::Writer;
use crate::{list::TokenList, random::Random, raw::*};

const PREFIXES: [&[u8]; 5] = [&[AMP], &[AMP, MUT], &[STAR], &[BANG], &[MINUS]];
const RANGES: [&[u8]; 2] = [&[DOT, DOT], &[DOT, DOT, EQ]];

/// Every operator with a right operand but the ranges.
const OPERATORS: [&[u8]; 29] = [
    &[PIPE],
    &[PIPE, PIPE],
    &[PIPE, EQ],
    &[AMP],
    &[AMP, AMP],
    &[AMP, EQ],
    &[EQ],
    &[EQ, EQ],
    &[BANG, EQ],
    &[L_ANGLE],
    &[L_ANGLE, EQ],
    &[L_ANGLE, L_ANGLE],
    &[L_ANGLE, L_ANGLE, EQ],
    &[R_ANGLE],
    &[R_ANGLE, EQ],
    &[R_ANGLE, R_ANGLE],
    &[R_ANGLE, R_ANGLE, EQ],
    &[PLUS],
    &[PLUS, EQ],
    &[MINUS],
    &[MINUS, EQ],
    &[STAR],
    &[STAR, EQ],
    &[SLASH],
    &[SLASH, EQ],
    &[PERCENT],
    &[PERCENT, EQ],
    &[CARET],
    &[CARET, EQ],
];

/// The operators' first tokens that are first tokens of an expression too.
const BEGIN_OPERANDS: [u8; 6] = [PIPE, AMP, STAR, MINUS, L_ANGLE, BANG];

/// Most operands of one formula; far below what 128 open readings allow.
const MOST_OPERANDS: usize = 24;

pub fn formula(random: &mut Random) -> TokenList {
    // Small formulas are the ones that a person can read, so they come more often.
    let most = random.between(1, MOST_OPERANDS);
    let operands = random.between(1, most);
    let writer = expression(operands, random);
    writer.finish(random)
}

/// The tokens of an expression with about so many operands.
pub fn expression(operands: usize, random: &mut Random) -> Writer {
    let mut formula = Formula { writer: Writer::default(), random, operands };
    formula.expr();
    formula.writer
}

/// An operand without operators and brackets around it, to make long lists from.
pub fn operand(random: &mut Random) -> Writer {
    let mut formula = Formula { writer: Writer::default(), random, operands: 2 };
    formula.atom();
    formula.postfixes();
    formula.writer
}

/// Any operator that can follow: behind a range's sign one that begins no operand.
pub fn operator<'a>(behind: &Writer, random: &mut Random) -> &'a [u8] {
    loop {
        let parts = random.pick(&OPERATORS);
        if !behind.ends_in_range() || !BEGIN_OPERANDS.contains(&parts[0]) {
            return parts;
        }
    }
}

/// `=` and the compound ones. They nest to the right, so each leaves one more reading open.
pub fn is_assignment(parts: &[u8]) -> bool {
    match parts {
        [EQ] | [_, _, EQ] => true,
        [first, EQ] => ![EQ, BANG, L_ANGLE, R_ANGLE].contains(first),
        _ => false,
    }
}

struct Formula<'r> {
    writer: Writer,
    random: &'r mut Random,
    /// How many operands may still be begun.
    operands: usize,
}

impl Formula<'_> {
    fn expr(&mut self) {
        self.operand();
        let mut behind_cast = false;
        while self.operands > 0 && !self.random.one_in(4) {
            behind_cast = self.operation(behind_cast);
        }
        // A range without right operand ends the expression.
        if !self.writer.ends_in_range() && self.random.one_in(14) {
            self.range_sign();
        }
    }

    /// An operator and its right operand; yes if that was a cast.
    fn operation(&mut self, behind_cast: bool) -> bool {
        if self.random.one_in(8) {
            self.writer.token(AS);
            self.path();
            self.operands -= 1;
            return true;
        }
        if !self.writer.ends_in_range() && self.random.one_in(8) {
            self.range_sign();
        } else {
            self.operator(behind_cast);
        }
        self.operand();
        false
    }

    /// Behind a cast's type `<` begins generic arguments, which 01 refuses; `<=` does not.
    fn operator(&mut self, behind_cast: bool) {
        let parts = operator(&self.writer, self.random);
        let refused = behind_cast && parts[0] == L_ANGLE && parts != [L_ANGLE, EQ];
        if refused && !self.random.one_in(16) {
            self.writer.glued(&[L_ANGLE, EQ]);
        } else {
            self.writer.glued(parts);
        }
    }

    fn range_sign(&mut self) {
        let parts = self.random.pick(&RANGES);
        self.writer.glued(parts);
    }

    fn operand(&mut self) {
        self.operands = self.operands.saturating_sub(1);
        while self.random.one_in(5) {
            let parts = self.random.pick(&PREFIXES);
            self.writer.tokens(parts);
        }
        if self.random.one_in(16) {
            return self.leading_range();
        }
        self.atom();
        self.postfixes();
    }

    fn leading_range(&mut self) {
        self.range_sign();
        if self.operands > 0 && !self.random.one_in(3) {
            self.operand();
        }
    }

    fn atom(&mut self) {
        match self.random.below(12) {
            0..=4 => self.path(),
            5 | 6 => self.writer.token(INT),
            7 => self.float(),
            8 => self.writer.token(STRING),
            9 => self.writer.token(TRUE),
            10 => self.writer.token(FALSE),
            _ => self.parenthesis(),
        }
    }

    fn path(&mut self) {
        self.writer.token(IDENT);
        while self.random.one_in(4) {
            self.writer.glued(&[COLON, COLON]);
            self.writer.token(IDENT);
        }
    }

    fn float(&mut self) {
        let digits_follow = self.random.one_in(2);
        self.writer.float(digits_follow);
    }

    fn parenthesis(&mut self) {
        if self.operands == 0 {
            return self.writer.token(INT);
        }
        self.writer.token(L_PAREN);
        self.expr();
        self.writer.token(R_PAREN);
    }

    fn postfixes(&mut self) {
        while !self.writer.ends_in_range() && self.random.one_in(3) {
            self.postfix();
        }
    }

    fn postfix(&mut self) {
        match self.random.below(8) {
            0 => self.arguments(),
            1 => self.index(),
            2 => self.writer.token(QUESTION),
            _ => {
                self.writer.token(DOT);
                self.behind_dot();
            }
        }
    }

    fn behind_dot(&mut self) {
        match self.random.below(7) {
            0 | 1 => self.writer.token(IDENT),
            2 => self.writer.token(INT),
            3 => self.writer.token(AWAIT),
            4 => {
                self.writer.token(IDENT);
                self.arguments();
            }
            5 => self.writer.float(true),
            _ => {
                self.writer.float(false);
                self.behind_ending_dot();
            }
        }
    }

    /// `x.0.` goes on as if its dot had been read, or with a range.
    fn behind_ending_dot(&mut self) {
        if !self.random.one_in(6) {
            return self.behind_dot();
        }
        self.range_sign();
        self.operand();
    }

    fn arguments(&mut self) {
        self.writer.token(L_PAREN);
        while self.operands > 0 && !self.random.one_in(3) {
            self.expr();
            if self.random.one_in(4) {
                break;
            }
            self.writer.token(COMMA);
        }
        self.writer.token(R_PAREN);
    }

    fn index(&mut self) {
        self.writer.token(L_BRACK);
        self.expr();
        self.writer.token(R_BRACK);
    }
}
