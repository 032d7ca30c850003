//! Writes a formula's tokens and leaves open, where nothing hangs on it, which ones touch.

use crate::{
    list::TokenList,
    random::Random,
    raw::{self, DOT, EQ, FLOAT},
};

/// A joint byte that `finish` decides.
const UNDECIDED: u8 = 2;

#[derive(Default)]
pub struct Writer {
    list: TokenList,
}

impl Writer {
    pub fn len(&self) -> usize {
        self.list.len()
    }

    pub fn token(&mut self, kind: u8) {
        self.list.push(kind, UNDECIDED);
    }

    pub fn tokens(&mut self, kinds: &[u8]) {
        kinds.iter().for_each(|&kind| self.token(kind));
    }

    /// One token of these raw parts: all but the last are joint.
    pub fn glued(&mut self, parts: &[u8]) {
        let (&last, touching) = parts.split_last().expect("a token has parts");
        touching.iter().for_each(|&kind| self.list.push(kind, 1));
        self.token(last);
    }

    /// A float's joint byte says whether digits follow its dot.
    pub fn float(&mut self, digits_follow: bool) {
        self.list.push(FLOAT, u8::from(digits_follow));
    }

    pub fn append(&mut self, other: Writer) {
        self.list.kinds.extend(other.list.kinds);
        self.list.joints.extend(other.list.joints);
    }

    /// Whether a range's sign was written last, so that its right operand may yet follow.
    pub fn ends_in_range(&self) -> bool {
        matches!(self.list.kinds.as_slice(), [.., DOT] | [.., DOT, EQ])
    }

    /// Lets neighbours touch at random. Those that would be read as one token touch in a few
    /// lists only, so that most formulas stay what they were written as.
    pub fn finish(self, random: &mut Random) -> TokenList {
        let TokenList { kinds, mut joints } = self.list;
        let careless = random.one_in(16);
        for (index, joint) in joints.iter_mut().enumerate() {
            if *joint != UNDECIDED {
                continue;
            }
            let apart = match kinds.get(index + 1) {
                Some(&next) => raw::may_glue(kinds[index], next) && !careless,
                None => !random.one_in(8),
            };
            *joint = if apart { 0 } else { random.bit() };
        }
        TokenList { kinds, joints }
    }
}
