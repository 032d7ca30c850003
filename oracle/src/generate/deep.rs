//! Formulas that have about as many readings open as document 01 allows.

use super::writer::Writer;
use crate::{list::TokenList, random::Random, raw::*};

/// One more reading around what follows.
#[derive(Clone, Copy, PartialEq, Eq)]
enum Layer {
    Minus,
    Not,
    Deref,
    Ref,
    RefMut,
    LeadingRange,
    Parenthesis,
    Call,
    SecondArgument,
    MethodCall,
    Index,
    Assignment,
}

use Layer::*;

const LAYERS: [Layer; 12] = [
    Minus,
    Not,
    Deref,
    Ref,
    RefMut,
    LeadingRange,
    Parenthesis,
    Call,
    SecondArgument,
    MethodCall,
    Index,
    Assignment,
];

const LEAST_DEPTH: usize = MOST_DEPTH - 3;
const DEEPEST: usize = MOST_DEPTH + 4;

/// List 2i is one sort of layer only, list 2i + 1 a mixture; all sorts and depths come in turn.
pub fn deep(index: usize, random: &mut Random) -> TokenList {
    let turn = index / 2;
    let sort = turn % LAYERS.len();
    let depth = LEAST_DEPTH + (turn / LAYERS.len()) % (DEEPEST - LEAST_DEPTH + 1);
    // The innermost reading is the atom's.
    let layers = if index.is_multiple_of(2) {
        vec![LAYERS[sort]; depth - 1]
    } else {
        mixture(depth - 1, random)
    };
    let mut writer = Writer::default();
    layers.iter().for_each(|&layer| open(layer, &mut writer));
    writer.token(random.pick(&[IDENT, INT, TRUE]));
    layers.iter().rev().for_each(|&layer| close(layer, &mut writer));
    writer.finish(random)
}

fn mixture(count: usize, random: &mut Random) -> Vec<Layer> {
    let mut layers: Vec<Layer> = Vec::new();
    while layers.len() < count {
        let layer = random.pick(&LAYERS);
        // `-a = b` assigns to `-a`: the assignment would not be inside the prefix.
        if layer != Assignment || !layers.last().is_some_and(|&last| binds_tighter(last)) {
            layers.push(layer);
        }
    }
    layers
}

fn binds_tighter(layer: Layer) -> bool {
    matches!(layer, Minus | Not | Deref | Ref | RefMut | LeadingRange)
}

fn open(layer: Layer, writer: &mut Writer) {
    match layer {
        Minus => writer.token(MINUS),
        Not => writer.token(BANG),
        Deref => writer.token(STAR),
        Ref => writer.token(AMP),
        RefMut => writer.tokens(&[AMP, MUT]),
        LeadingRange => writer.glued(&[DOT, DOT]),
        Parenthesis => writer.token(L_PAREN),
        Call => writer.tokens(&[IDENT, L_PAREN]),
        SecondArgument => writer.tokens(&[IDENT, L_PAREN, INT, COMMA]),
        MethodCall => writer.tokens(&[IDENT, DOT, IDENT, L_PAREN]),
        Index => writer.tokens(&[IDENT, L_BRACK]),
        Assignment => writer.tokens(&[IDENT, EQ]),
    }
}

fn close(layer: Layer, writer: &mut Writer) {
    match layer {
        Parenthesis | Call | SecondArgument | MethodCall => writer.token(R_PAREN),
        Index => writer.token(R_BRACK),
        Minus | Not | Deref | Ref | RefMut | LeadingRange | Assignment => {}
    }
}
