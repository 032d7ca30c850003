//! Lists without a grammar: all short ones, and random ones.

use std::io;

use super::Sink;
use crate::{list::TokenList, random::Random, raw::*};

/// All lists of 0, 1, .. `most` tokens with all joint bytes: 58^n of length n.
pub fn short(most: usize, sink: &mut Sink<'_>) -> io::Result<()> {
    for length in 0..=most {
        let mut list = TokenList { kinds: vec![FIRST; length], joints: vec![0; length] };
        loop {
            sink(&list)?;
            if !advance(&mut list) {
                break;
            }
        }
    }
    Ok(())
}

/// Counts up like a number whose digits are (kind, joint); no when it was the last one.
fn advance(list: &mut TokenList) -> bool {
    for place in (0..list.len()).rev() {
        if list.joints[place] == 0 {
            list.joints[place] = 1;
            return true;
        }
        list.joints[place] = 0;
        if list.kinds[place] < LAST {
            list.kinds[place] += 1;
            return true;
        }
        list.kinds[place] = FIRST;
    }
    false
}

/// Half of the lists are drawn from tokens that often make an expression, so that the errors
/// do not all stand at the front.
const LIKELY: [u8; 24] = [
    IDENT, IDENT, IDENT, INT, INT, FLOAT, DOT, DOT, DOT, L_PAREN, R_PAREN, L_BRACK, R_BRACK, COMMA,
    AMP, MINUS, BANG, EQ, EQ, R_ANGLE, PLUS, QUESTION, AS, AWAIT,
];

pub fn random(most: usize, random: &mut Random) -> TokenList {
    let length = random.between(0, most);
    let likely = random.one_in(2);
    let mut list = TokenList::default();
    for _ in 0..length {
        let kind = if likely { random.pick(&LIKELY) } else { any_kind(random) };
        list.push(kind, random.bit());
    }
    list
}

pub fn any_kind(random: &mut Random) -> u8 {
    random.between(usize::from(FIRST), usize::from(LAST)) as u8
}
