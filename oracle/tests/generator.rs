//! The generator: complete where it says all, the same from the same seed, and wide enough.

use std::collections::HashSet;

use oracle::{
    answer::{Answer, answer},
    batch::with_room,
    generate::{FAMILIES, Family, Order, generate},
    list::TokenList,
    raw,
    text::{from_text, to_text},
};

fn lists(family: Family, seed: u64, count: usize) -> Vec<TokenList> {
    let mut lists = Vec::new();
    let order = Order { family, seed, count, max_len: None };
    generate(order, &mut |list| {
        lists.push(list.clone());
        Ok(())
    })
    .expect("a vector takes all");
    lists
}

#[test]
fn short_is_every_list_once() {
    let short = lists(Family::Short, 0, 0);
    assert_eq!(short.len(), 1 + 58 + 58 * 58 + 58 * 58 * 58);
    assert_eq!(short.len(), 198_535);
    let distinct: HashSet<(&[u8], &[u8])> =
        short.iter().map(|list| (list.kinds.as_slice(), list.joints.as_slice())).collect();
    assert_eq!(distinct.len(), short.len());
    assert!(short.iter().all(|list| list.len() <= 3));
}

#[test]
fn the_same_seed_gives_the_same_lists() {
    for (name, family) in FAMILIES {
        let some = lists(family, 5, 40);
        assert_eq!(some, lists(family, 5, 40), "{name}");
        if family != Family::Short {
            assert_eq!(some[..30], lists(family, 5, 30), "{name}: a shorter run");
            assert_ne!(some, lists(family, 6, 40), "{name}: another seed");
        }
    }
}

/// FNV-1a over the stored forms.
fn checksum(lists: &[TokenList]) -> u64 {
    let mut bytes = Vec::new();
    lists.iter().for_each(|list| list.store(&mut bytes));
    bytes.iter().fold(0xcbf2_9ce4_8422_2325, |sum, &byte| {
        (sum ^ u64::from(byte)).wrapping_mul(0x0000_0100_0000_01b3)
    })
}

/// Recorded comparisons name lists by family, seed and index. If these change, they are void.
#[test]
fn the_lists_of_seed_1_stay_what_they_are() {
    let expected = [
        ("random", 0x0e85_e714_c181_2f7eu64),
        ("grammar", 0x3fff_af20_ea58_effe),
        ("damaged", 0xa0db_e9f3_d24a_2549),
        ("long", 0x683e_688b_40fd_9f73),
        ("deep", 0xc0b7_d4f1_c3fc_a7e2),
    ];
    let found: Vec<(&str, u64)> = FAMILIES
        .iter()
        .filter(|(_, family)| *family != Family::Short)
        .map(|&(name, family)| (name, checksum(&lists(family, 1, 200))))
        .collect();
    assert_eq!(found, expected);
}

#[test]
fn every_list_is_one_that_01_takes() {
    for (name, family) in FAMILIES {
        for list in lists(family, 2, 300) {
            assert_eq!(list.kinds.len(), list.joints.len(), "{name}");
            assert!(list.len() <= raw::MOST_TOKENS, "{name}");
            assert!(list.kinds.iter().all(|kind| (raw::FIRST..=raw::LAST).contains(kind)));
            assert!(list.joints.iter().all(|&joint| joint <= 1), "{name}");
        }
    }
}

#[test]
fn long_lists_reach_the_limit() {
    let long = lists(Family::Long, 3, 100);
    assert!(long.iter().all(|list| list.len() > 256));
    assert!(long.iter().any(|list| list.len() == raw::MOST_TOKENS));
    assert!(long.iter().any(|list| list.len() < 1000));
}

fn steps_of(lists: &[TokenList]) -> Vec<Vec<u32>> {
    with_room(|| {
        lists
            .iter()
            .filter_map(|list| match answer(&list.kinds, &list.joints) {
                Answer::Read(steps) => Some(steps.steps),
                _ => None,
            })
            .collect()
    })
}

/// Of document 01's numbers the error-free formulas miss only the ERROR node and the three
/// glued tokens that no expression is made of.
#[test]
fn formulas_cover_every_form_and_are_free_of_errors() {
    let formulas = lists(Family::Grammar, 4, 20_000);
    let answers = steps_of(&formulas);
    assert!(answers.len() * 100 > formulas.len() * 99, "{} are read", answers.len());
    let seen: HashSet<u32> = answers.into_iter().flatten().collect();
    for node in 81..=99 {
        assert!(seen.contains(&(65_536 + node)), "node {node}");
    }
    for raw in 1..=29 {
        // A lone `:` is part of no expression.
        assert_eq!(seen.contains(&(131_072 + 256 + raw)), raw != 15, "raw {raw}");
    }
    for glued in 40..=63 {
        let width = if glued < 60 { 2 } else { 3 };
        // `->`, `=>` and `...`
        let never = [41, 55, 60].contains(&glued);
        assert_eq!(seen.contains(&(131_072 + 256 * width + glued)), !never, "glued {glued}");
    }
    assert!(seen.contains(&262_144) && seen.contains(&262_145), "both splits");
}

#[test]
fn damaged_lists_are_of_both_sorts() {
    let damaged = lists(Family::Damaged, 4, 2000);
    let read = steps_of(&damaged).len();
    assert!(read > 200 && read < 1800, "{read} are read");
}

/// The most readings open at once: one for the formula, and one for each layer.
#[test]
fn deep_lists_stand_on_both_sides_of_the_limit() {
    let deep = lists(Family::Deep, 1, 2 * 12 * 8);
    assert_eq!(steps_of(&deep).len(), deep.len());
    let minuses: Vec<usize> = deep
        .iter()
        .filter(|list| list.kinds[..list.len() - 1].iter().all(|&kind| kind == raw::MINUS))
        .map(|list| list.len())
        .collect();
    assert_eq!(minuses, [125, 126, 127, 128, 129, 130, 131, 132]);
}

#[test]
fn lists_from_and_to_text() {
    let list = |text| from_text(text).expect("the list is well written");
    let same = |text, kinds: &[u8], joints: &[u8]| {
        assert_eq!(list(text), TokenList { kinds: kinds.to_vec(), joints: joints.to_vec() });
    };
    same("a.0. b", &[1, 16, 3, 1], &[1, 1, 0, 0]);
    same("a.0.1", &[1, 16, 3], &[1, 1, 1]);
    same("1..=2", &[2, 16, 16, 26, 2], &[1, 1, 1, 1, 0]);
    same("1.a", &[2, 16, 1], &[1, 1, 0]);
    same("\"s\" as mut await true false", &[4, 7, 8, 9, 5, 6], &[0; 6]);
    assert_eq!(to_text(&[1, 16, 3, 1], &[1, 1, 0, 0]), "a~ .~ 0. a");
    assert_eq!(to_text(&[10, 3, 29], &[0, 1, 0]), "( 0.1 ?");
    assert!(from_text("a # b").is_err());
}
