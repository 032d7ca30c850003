//! The printed answers: the program's format, and the marks.

use oracle::{
    batch::{self, Layout, with_room},
    list::{BrokenForm, Forms, TokenList},
    text::from_text,
};

fn stored(texts: &[&str]) -> Vec<u8> {
    let mut bytes = Vec::new();
    for text in texts {
        from_text(text).expect("the list is well written").store(&mut bytes);
    }
    bytes
}

fn printed_bytes(bytes: &[u8], layout: Layout) -> String {
    with_room(|| {
        let mut out = Vec::new();
        batch::run(bytes, layout, &mut out).expect("the forms are whole");
        String::from_utf8(out).expect("answers are text")
    })
}

fn printed(texts: &[&str], layout: Layout) -> String {
    printed_bytes(&stored(texts), layout)
}

/// Document 01's own example, byte by byte and line by line.
#[test]
fn the_stored_form_and_the_print_format_of_01() {
    let form = [1, 2, 0, 25, 2, 2, 2, 0, 1, 0];
    assert_eq!(stored(&["!1"]), form);
    let expected = "consumed 2 steps 6\n65624\n131353\n65617\n131330\n196608\n196608\n";
    assert_eq!(printed_bytes(&form, Layout::default()), expected);
}

#[test]
fn one_block_a_list_in_order() {
    let expected = "consumed 1 steps 3\n65617\n131330\n196608\n\
        errors expected expression at 1\n\
        consumed 1 steps 3\n65617\n131330\n196608\n";
    assert_eq!(printed(&["1", "-", "2"], Layout::default()), expected);
    assert_eq!(printed(&[], Layout::default()), "");
}

#[test]
fn compact_answers_take_a_line() {
    let layout = Layout { compact: true, ..Layout::default() };
    assert_eq!(
        printed(&["1", "a["], layout),
        "1: 65617 131330 196608\nerrors expected expression at 2\n"
    );
}

#[test]
fn error_steps_follow_the_mark() {
    let layout = Layout { compact: true, error_steps: true };
    assert_eq!(printed(&[")"], layout), "errors expected expression at 0\n0: 327681\n");
    // A message that 01 has no code for.
    assert_eq!(
        printed(&["a::1"], layout),
        "errors expected identifier, `self`, `super`, `crate`, or `Self` at 3\n",
    );
}

/// The place of an error is that of the first, in raw tokens.
#[test]
fn errors_name_the_first_message() {
    let cases = [
        ("f(", "errors expected R_PAREN at 2\n"),
        ("f(+", "errors expected expression at 2\n"),
        ("f(,1)", "errors expected expression at 2\n"),
        ("f(a b)", "errors expected COMMA at 3\n"),
        ("a[1", "errors expected R_BRACK at 3\n"),
        ("1 as", "errors expected type at 2\n"),
        ("a.+", "errors expected field name or number at 2\n"),
        ("a && ", "errors expected expression at 3\n"),
    ];
    for (text, expected) in cases {
        assert_eq!(printed(&[text], Layout::default()), expected, "{text}");
    }
}

#[test]
fn nodes_without_a_number_are_outside() {
    let cases = [
        ("()", "outside TUPLE_EXPR\n"),
        ("(1,)", "outside TUPLE_EXPR\n"),
        ("[1]", "outside ARRAY_EXPR\n"),
        ("1 as &T", "outside REF_TYPE\n"),
        ("1 as !", "outside NEVER_TYPE\n"),
        ("1 as T<T>", "outside GENERIC_ARG_LIST\n"),
    ];
    for (text, expected) in cases {
        assert_eq!(printed(&[text], Layout::default()), expected, "{text}");
    }
}

/// An error wins over a node outside the numbers, wherever either stands.
#[test]
fn errors_win_over_outside() {
    assert_eq!(printed(&["() + "], Layout::default()), "errors expected expression at 3\n");
}

/// What 01 refuses before reading cannot be asked of the crate.
#[test]
fn lists_that_cannot_be_asked_are_outside() {
    let list =
        |kinds: &[u8], joints: &[u8]| TokenList { kinds: kinds.to_vec(), joints: joints.to_vec() };
    let cases = [
        (list(&[1, 30], &[0, 0]), "outside input kind\n"),
        (list(&[0], &[0]), "outside input kind\n"),
        (list(&[1, 2], &[0, 2]), "outside input joint\n"),
        (list(&[1], &[]), "outside input length\n"),
    ];
    for (list, expected) in cases {
        let mut bytes = Vec::new();
        list.store(&mut bytes);
        assert_eq!(printed_bytes(&bytes, Layout::default()), expected, "{list:?}");
    }
}

#[test]
fn a_broken_form_is_told_by_its_place() {
    let place = |bytes: &[u8]| Forms::of(bytes).find_map(Result::err).map(|BrokenForm { at }| at);
    assert_eq!(place(&[1, 1, 0, 5, 2, 1, 0, 0]), None);
    assert_eq!(place(&[2]), Some(0));
    assert_eq!(place(&[1, 1, 0]), Some(3));
    assert_eq!(place(&[1, 1, 0, 5, 1]), Some(4));
    assert_eq!(place(&[1, 0, 0, 2, 0, 0, 7]), Some(6));
    let mut out = Vec::new();
    assert!(batch::run(&[1, 0, 0, 2, 0, 0, 7], Layout::default(), &mut out).is_err());
}
