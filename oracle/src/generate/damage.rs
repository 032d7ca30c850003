//! Damaged copies of good lists.

use super::plain::any_kind;
use crate::{list::TokenList, random::Random};

const MOST_EDITS: usize = 3;

pub fn damaged(good: TokenList, random: &mut Random) -> TokenList {
    let mut list = good;
    for _ in 0..random.between(1, MOST_EDITS) {
        edit(&mut list, random);
    }
    list
}

fn edit(list: &mut TokenList, random: &mut Random) {
    if list.is_empty() {
        return insert(list, random);
    }
    let place = random.below(list.len());
    match random.below(7) {
        0 => delete(list, place),
        1 => insert(list, random),
        2 => list.kinds[place] = any_kind(random),
        3 => swap(list, place),
        4 => list.joints[place] ^= 1,
        5 => cut(list, place),
        _ => repeat(list, place),
    }
}

fn delete(list: &mut TokenList, place: usize) {
    list.kinds.remove(place);
    list.joints.remove(place);
}

fn insert(list: &mut TokenList, random: &mut Random) {
    let place = random.below(list.len() + 1);
    list.kinds.insert(place, any_kind(random));
    list.joints.insert(place, random.bit());
}

/// A token and the one behind it, the last with the first.
fn swap(list: &mut TokenList, place: usize) {
    let next = (place + 1) % list.len();
    list.kinds.swap(place, next);
    list.joints.swap(place, next);
}

fn cut(list: &mut TokenList, place: usize) {
    list.kinds.truncate(place);
    list.joints.truncate(place);
}

/// One token twice.
fn repeat(list: &mut TokenList, place: usize) {
    list.kinds.insert(place, list.kinds[place]);
    list.joints.insert(place, list.joints[place]);
}
