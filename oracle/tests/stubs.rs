//! What holds of the stubs only: with the published crate in their place these lists have
//! answers of its own, so leave this file out there.

use oracle::{
    answer::{Answer, answer},
    batch::{self, Layout},
    text::from_text,
};

fn panic_message(text: &str) -> String {
    let list = from_text(text).expect("the list is well written");
    match answer(&list.kinds, &list.joints) {
        Answer::Panic(message) => message,
        other => panic!("{text}: {other:?}"),
    }
}

/// The ways from the port's tokens into a module that is not supplied. The port refuses each
/// of these lists with 7.
#[test]
fn modules_that_are_not_supplied_panic() {
    let cases = [
        ("a!()", "not supplied: items::macro_call_after_excl"),
        ("1 as T!()", "not supplied: items::macro_call_after_excl"),
        ("|x| x", "not supplied: params::param_list_closure"),
        ("a::<T: U>", "not supplied: generic_params::bounds"),
        ("a::<T + U>", "not supplied: generic_params::bounds_without_colon_m"),
    ];
    for (text, message) in cases {
        assert_eq!(panic_message(text), message, "{text}");
    }
}

#[test]
fn a_panic_is_one_line_and_the_run_goes_on() {
    let mut bytes = Vec::new();
    for text in ["1", "a!", "", "()", "1"] {
        from_text(text).expect("the list is well written").store(&mut bytes);
    }
    let layout = Layout { compact: true, ..Layout::default() };
    let mut out = Vec::new();
    let tally = batch::run(&bytes, layout, &mut out).expect("the forms are whole");
    let expected = "1: 65617 131330 196608\npanic\nerrors expected expression at 0\n\
        outside TUPLE_EXPR\n1: 65617 131330 196608\n";
    assert_eq!(String::from_utf8(out).expect("answers are text"), expected);

    let mut summary = Vec::new();
    tally.write(&mut summary).expect("a vector takes all");
    let expected = "error-free 2\nerrors 1\noutside 1\n  1 TUPLE_EXPR\n\
        panic 1\n  1 not supplied: items::macro_call_after_excl\n";
    assert_eq!(String::from_utf8(summary).expect("text"), expected);
}
