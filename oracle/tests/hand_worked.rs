//! P1 to P12 and the other hand-worked lists, worked out from document 01 and not from the
//! oracle's own answers, where they are free of errors; P1 and P11 by the crate's messages.

use oracle::{
    answer::{Answer, Steps, answer},
    batch::with_room,
    list::TokenList,
    raw,
    text::from_text,
};

/// An integer: enter LITERAL, INT_NUMBER, leave.
const INT: &[u32] = &[65617, 131330, 196608];
/// A name: enter PATH_EXPR, PATH, PATH_SEGMENT, NAME_REF, IDENT, four leaves.
const NAME: &[u32] = &[65618, 65619, 65620, 65621, 131329, 196608, 196608, 196608, 196608];
const LEAVE: &[u32] = &[196608];

fn ask(list: &TokenList) -> Answer {
    answer(&list.kinds, &list.joints)
}

fn ask_text(text: &str) -> Answer {
    ask(&from_text(text).expect("the list is well written"))
}

/// The answer to `text` covers `consumed` tokens and has these parts as its steps.
#[track_caller]
fn reads(text: &str, consumed: usize, parts: &[&[u32]]) {
    let steps = Steps { consumed, steps: parts.concat() };
    assert_eq!(ask_text(text), Answer::Read(steps), "{text}");
}

#[track_caller]
fn has_error(text: &str, expected: &str, place: usize) {
    match ask_text(text) {
        Answer::Errors { message, at, .. } => {
            assert_eq!((message.as_str(), at), (expected, place), "{text}");
        }
        other => panic!("{text}: {other:?}"),
    }
}

#[track_caller]
fn error_steps(text: &str, consumed: usize, parts: &[&[u32]]) {
    match ask_text(text) {
        Answer::Errors { steps, .. } => {
            assert_eq!(steps, Some(Steps { consumed, steps: parts.concat() }), "{text}");
        }
        other => panic!("{text}: {other:?}"),
    }
}

#[test]
fn p1_the_empty_list_is_an_error_node() {
    has_error("", "expected expression", 0);
    error_steps("", 0, &[&[65616, 327681, 196608]]);
}

#[test]
fn p2_not_one() {
    reads("!1", 2, &[&[65624, 131353, 65617, 131330, 196608, 196608]]);
}

#[test]
fn p3_the_product_is_inside() {
    let expected: &[&[u32]] =
        &[&[65625], INT, &[131347], &[65625], INT, &[131349], INT, LEAVE, LEAVE];
    assert_eq!(expected.concat().len(), 15);
    reads("1 + 2 * 3", 5, expected);
}

#[test]
fn p4_assignments_nest_to_the_right() {
    reads("1 = 2 = 3", 5, &[&[65625], INT, &[131354, 65625], INT, &[131354], INT, LEAVE, LEAVE]);
}

#[test]
fn p5_comparisons_nest_to_the_left() {
    reads("1 < 2 < 3", 5, &[&[65625, 65625], INT, &[131355], INT, LEAVE, &[131355], INT, LEAVE]);
}

#[test]
fn p6_the_cast_is_of_the_prefix() {
    let expected: &[&[u32]] = &[
        &[65634, 65624, 131348],
        INT,
        LEAVE,
        &[131335, 65635, 65619, 65620, 65621, 131329],
        &[196608, 196608, 196608, 196608],
        LEAVE,
    ];
    assert_eq!(expected.concat().len(), 18);
    reads("-1 as T", 4, expected);
}

#[test]
fn p7_a_range_does_not_swallow_the_plus() {
    reads("1.. + 2", 3, &[&[65626], INT, &[131628], LEAVE]);
}

#[test]
fn p8_the_sum_of_an_assignment() {
    let expected: &[&[u32]] = &[
        &[65625, 65625],
        NAME,
        &[131354, 65626],
        INT,
        &[131628],
        LEAVE,
        LEAVE,
        &[131347],
        INT,
        LEAVE,
    ];
    reads("x = 1.. + 2", 7, expected);
}

#[test]
fn p9_a_float_is_two_fields() {
    let expected: &[&[u32]] = &[&[65631, 65631], NAME, &[131344, 262144]];
    assert_eq!(expected.concat().len(), 13);
    reads("a.0.1", 3, expected);
}

#[test]
fn p10_a_float_that_ends_in_a_dot_goes_on() {
    let expected: &[&[u32]] =
        &[&[65631, 65631], NAME, &[131344, 262145, 65621, 131329, 196608, 196608]];
    assert_eq!(expected.concat().len(), 17);
    reads("a.0. b", 4, expected);
}

#[test]
fn p11_an_open_index() {
    has_error("a[", "expected expression", 2);
    let expected: &[&[u32]] = &[&[65629], NAME, &[131340, 65616, 327681, 196608, 327686, 196608]];
    assert_eq!(expected.concat().len(), 16);
    error_steps("a[", 2, expected);
}

#[test]
fn p12_two_references() {
    let expected: &[&[u32]] = &[&[65623, 131345, 65623, 131345], NAME, LEAVE, LEAVE];
    assert_eq!(expected.concat().len(), 15);
    reads("&&x", 3, expected);
}

/// `count` minus signs and `1`.
fn minuses(count: usize) -> TokenList {
    let mut list = TokenList::default();
    (0..count).for_each(|_| list.push(raw::MINUS, 0));
    list.push(raw::INT, 0);
    list
}

fn minus_steps(count: usize) -> Answer {
    let steps = [[65624, 131348].repeat(count), INT.to_vec(), LEAVE.repeat(count)].concat();
    Answer::Read(Steps { consumed: count + 1, steps })
}

#[test]
fn prefixes_up_to_the_port_s_depth_and_beyond() {
    assert_eq!(ask(&minuses(127)), minus_steps(127));
    // The port refuses this one with 6; the crate knows no such limit.
    assert_eq!(ask(&minuses(128)), minus_steps(128));
}

#[test]
fn the_longest_lists() {
    with_room(|| {
        assert_eq!(ask(&minuses(4095)), minus_steps(4095));
        // The port refuses 4,097 tokens with 3; the crate knows no such limit.
        assert_eq!(ask(&minuses(4096)), minus_steps(4096));
    });
}

#[test]
fn a_sum_of_the_longest_length() {
    // `1? + 1 + ..`: 2,048 operands, 2,047 operators and one `?` make 4,096 tokens.
    let mut list = TokenList::default();
    list.push(raw::INT, 0);
    list.push(raw::QUESTION, 0);
    let mut steps = [[65625].repeat(2047), vec![65633], INT.to_vec(), vec![131357]].concat();
    steps.extend(LEAVE);
    for _ in 0..2047 {
        list.push(raw::PLUS, 0);
        list.push(raw::INT, 0);
        steps.extend([&[131347], INT, LEAVE].concat());
    }
    assert_eq!(list.len(), raw::MOST_TOKENS);
    assert_eq!(ask(&list), Answer::Read(Steps { consumed: 4096, steps }));
}

#[test]
fn three_dots_are_a_range_that_stops() {
    reads("a...b", 3, &[&[65626], NAME, &[131628], LEAVE]);
}

#[test]
fn a_call_of_a_field() {
    let expected: &[&[u32]] = &[
        &[65627, 65631],
        NAME,
        &[131344, 65621, 131330, 196608, 196608],
        &[65628, 131338],
        INT,
        &[131339, 196608, 196608],
    ];
    reads("x.0(1)", 6, expected);
}

#[test]
fn a_method_behind_an_ending_dot_has_no_dot_token() {
    let expected: &[&[u32]] = &[
        &[65630, 65631],
        NAME,
        &[131344, 262145, 65621, 131329, 196608],
        &[65628, 131338],
        INT,
        &[131342, 131339, 196608, 196608],
    ];
    reads("x.0. m(1,)", 8, expected);
}

#[test]
fn await_behind_an_ending_dot_has_no_dot_token() {
    reads("x.0. await", 4, &[&[65632, 65631], NAME, &[131344, 262145, 131337, 196608]]);
}

#[test]
fn a_range_behind_an_ending_dot() {
    reads("x.0. ..1", 6, &[&[65626, 65631], NAME, &[131344, 262145, 131628], INT, LEAVE]);
    reads("x.0. ..", 5, &[&[65626, 65631], NAME, &[131344, 262145, 131628], LEAVE]);
}

#[test]
fn a_parenthesis_behind_an_ending_dot_lacks_a_method_name() {
    has_error("x.0. (1)", "expected method name, field name or number", 3);
}

#[test]
fn a_literal_is_no_path() {
    reads("1::b", 1, &[INT]);
}

#[test]
fn paths_nest_to_the_left() {
    let segment: &[u32] = &[65620, 65621, 131329, 196608, 196608];
    let expected: &[&[u32]] = &[
        &[65618, 65619, 65619, 65619],
        segment,
        LEAVE,
        &[131626],
        segment,
        LEAVE,
        &[131626],
        segment,
        LEAVE,
        LEAVE,
    ];
    reads("a::b::c", 7, expected);
}

#[test]
fn a_thin_arrow_is_a_minus() {
    has_error("1->2", "expected expression", 2);
}

#[test]
fn a_fat_arrow_is_no_operator() {
    reads("a => b", 1, &[NAME]);
}

#[test]
fn and_of_a_reference() {
    reads("a&&&b", 5, &[&[65625], NAME, &[131631, 65623, 131345], NAME, LEAVE, LEAVE]);
}

#[test]
fn a_leading_range_goes_on_and_a_postfix_range_stops() {
    reads(".. + 1", 4, &[&[65625, 65626, 131628, 196608, 131347], INT, LEAVE]);
    reads("a.. + 1", 3, &[&[65626], NAME, &[131628], LEAVE]);
}

#[test]
fn range_signs_that_touch_an_equals() {
    has_error("a...=b", "expected expression", 3);
    reads("a..=b", 5, &[&[65626], NAME, &[131901], NAME, LEAVE]);
}
