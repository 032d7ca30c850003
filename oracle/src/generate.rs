//! Generated token lists: the same seed gives the same lists on every machine, and list i of
//! a family does not depend on how many are asked for.

mod damage;
mod deep;
mod formula;
mod long;
mod plain;
mod writer;

use std::io;

use crate::{list::TokenList, random::Random};

/// The order of the families goes into the random numbers: a new one goes to the end.
#[derive(Debug, Clone, Copy, PartialEq, Eq)]
pub enum Family {
    /// Every list up to a length, with all joint bytes.
    Short,
    /// Kinds and joint bytes at random.
    Random,
    /// Formulas of an expression grammar, nearly all of them free of errors.
    Grammar,
    /// Formulas with a few edits.
    Damaged,
    /// Formulas of 257 to 4,096 tokens.
    Long,
    /// Formulas with about 128 readings open at once.
    Deep,
}

pub const FAMILIES: [(&str, Family); 6] = [
    ("short", Family::Short),
    ("random", Family::Random),
    ("grammar", Family::Grammar),
    ("damaged", Family::Damaged),
    ("long", Family::Long),
    ("deep", Family::Deep),
];

const SHORT_LENGTH: usize = 3;
const RANDOM_LENGTH: usize = 12;

/// What to generate. `count` says nothing to `short`, `max_len` only to `short` and `random`.
#[derive(Debug, Clone, Copy)]
pub struct Order {
    pub family: Family,
    pub seed: u64,
    pub count: usize,
    pub max_len: Option<usize>,
}

pub type Sink<'a> = dyn FnMut(&TokenList) -> io::Result<()> + 'a;

pub fn generate(order: Order, sink: &mut Sink<'_>) -> io::Result<()> {
    if order.family == Family::Short {
        return plain::short(order.max_len.unwrap_or(SHORT_LENGTH), sink);
    }
    for index in 0..order.count {
        let mut random = Random::for_list(order.seed, order.family as u64, index as u64);
        sink(&one_list(order, index, &mut random))?;
    }
    Ok(())
}

fn one_list(order: Order, index: usize, random: &mut Random) -> TokenList {
    match order.family {
        Family::Short | Family::Random => {
            plain::random(order.max_len.unwrap_or(RANDOM_LENGTH), random)
        }
        Family::Grammar => formula::formula(random),
        Family::Damaged => {
            let good = formula::formula(random);
            damage::damaged(good, random)
        }
        Family::Long => long::long(random),
        Family::Deep => deep::deep(index, random),
    }
}
