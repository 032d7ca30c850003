//! Token lists from and to text, for hand-written lists and for reading generated ones.

use crate::{list::TokenList, raw::*};

/// The signs of the raw kinds from `(` on.
const SIGNS: &str = "()[],:.&|+-*/%^!=<>?";

/// Reads a formula as Rust's lexer would: touching tokens are joint, and a number followed by
/// one dot, and by no name, is a float. `1..2` and `1.a` begin with an integer.
pub fn from_text(text: &str) -> Result<TokenList, String> {
    let bytes = text.as_bytes();
    let mut list = TokenList::default();
    let mut at = 0;
    while at < bytes.len() {
        if bytes[at].is_ascii_whitespace() {
            at += 1;
            continue;
        }
        let (kind, end) = token_at(text, at)?;
        let joint = match kind {
            FLOAT => bytes[end - 1] != b'.',
            _ => bytes.get(end).is_some_and(|next| !next.is_ascii_whitespace()),
        };
        list.push(kind, u8::from(joint));
        at = end;
    }
    Ok(list)
}

fn token_at(text: &str, at: usize) -> Result<(u8, usize), String> {
    let bytes = text.as_bytes();
    match bytes[at] {
        b'0'..=b'9' => Ok(number_at(bytes, at)),
        b'"' => match text[at + 1..].find('"') {
            Some(length) => Ok((STRING, at + length + 2)),
            None => Err(format!("no end of the string at {at}")),
        },
        first if is_name(first) => {
            let end = end_of(bytes, at, is_name);
            Ok((word(&text[at..end]), end))
        }
        sign => match SIGNS.bytes().position(|known| known == sign) {
            Some(index) => Ok((L_PAREN + index as u8, at + 1)),
            None => Err(format!("no token at {at}")),
        },
    }
}

fn number_at(bytes: &[u8], at: usize) -> (u8, usize) {
    let whole = end_of(bytes, at, |byte| byte.is_ascii_digit());
    let behind_dot = bytes.get(whole + 1).copied().unwrap_or(b' ');
    if bytes.get(whole) != Some(&b'.') || behind_dot == b'.' || is_name_start(behind_dot) {
        return (INT, whole);
    }
    (FLOAT, end_of(bytes, whole + 1, |byte| byte.is_ascii_digit()))
}

fn end_of(bytes: &[u8], from: usize, belongs: impl Fn(u8) -> bool) -> usize {
    bytes[from..].iter().position(|&byte| !belongs(byte)).map_or(bytes.len(), |n| from + n)
}

fn is_name_start(byte: u8) -> bool {
    byte.is_ascii_alphabetic() || byte == b'_'
}

fn is_name(byte: u8) -> bool {
    is_name_start(byte) || byte.is_ascii_digit()
}

fn word(text: &str) -> u8 {
    match text {
        "true" => TRUE,
        "false" => FALSE,
        "as" => AS,
        "mut" => MUT,
        "await" => AWAIT,
        _ => IDENT,
    }
}

/// The tokens with a space between; a joint token other than a float is followed by `~`.
pub fn to_text(kinds: &[u8], joints: &[u8]) -> String {
    let mut text = String::new();
    for (index, &kind) in kinds.iter().enumerate() {
        if index > 0 {
            text.push(' ');
        }
        let joint = joints.get(index) == Some(&1);
        text.push_str(&token_text(kind, joint));
        if joint && kind != FLOAT {
            text.push('~');
        }
    }
    text
}

fn token_text(kind: u8, joint: bool) -> String {
    match kind {
        IDENT => "a".to_owned(),
        INT => "1".to_owned(),
        FLOAT => if joint { "0.1" } else { "0." }.to_owned(),
        STRING => "\"s\"".to_owned(),
        TRUE => "true".to_owned(),
        FALSE => "false".to_owned(),
        AS => "as".to_owned(),
        MUT => "mut".to_owned(),
        AWAIT => "await".to_owned(),
        L_PAREN..=LAST => {
            let index = usize::from(kind - L_PAREN);
            SIGNS[index..=index].to_owned()
        }
        _ => format!("<{kind}>"),
    }
}
