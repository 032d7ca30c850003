//! Token lists and their stored form.

use std::fmt;

const KINDS_TAG: u8 = 1;
const JOINTS_TAG: u8 = 2;

/// A token list as 01 lends it: kinds, and joint bytes.
#[derive(Debug, Clone, Default, PartialEq, Eq)]
pub struct TokenList {
    pub kinds: Vec<u8>,
    pub joints: Vec<u8>,
}

impl TokenList {
    pub fn len(&self) -> usize {
        self.kinds.len()
    }

    pub fn is_empty(&self) -> bool {
        self.kinds.is_empty()
    }

    pub fn push(&mut self, kind: u8, joint: u8) {
        self.kinds.push(kind);
        self.joints.push(joint);
    }

    /// Appends the stored form. A form has room for 65,535 tokens.
    pub fn store(&self, bytes: &mut Vec<u8>) {
        store_part(KINDS_TAG, &self.kinds, bytes);
        store_part(JOINTS_TAG, &self.joints, bytes);
    }
}

fn store_part(tag: u8, payload: &[u8], bytes: &mut Vec<u8>) {
    let length = u16::try_from(payload.len()).expect("a stored form holds 65,535 tokens at most");
    bytes.push(tag);
    bytes.extend(length.to_le_bytes());
    bytes.extend(payload);
}

/// The place of the first byte that fits no stored form, or the end of a file that stops
/// inside one.
#[derive(Debug, PartialEq, Eq)]
pub struct BrokenForm {
    pub at: usize,
}

impl fmt::Display for BrokenForm {
    fn fmt(&self, f: &mut fmt::Formatter<'_>) -> fmt::Result {
        write!(f, "no stored form at byte {}", self.at)
    }
}

/// The stored forms of a file one after the other, each as its two payloads.
pub struct Forms<'a> {
    bytes: &'a [u8],
    at: usize,
}

impl<'a> Forms<'a> {
    pub fn of(bytes: &'a [u8]) -> Forms<'a> {
        Forms { bytes, at: 0 }
    }

    fn part(&mut self, tag: u8) -> Result<&'a [u8], BrokenForm> {
        if self.bytes.get(self.at) != Some(&tag) {
            return Err(BrokenForm { at: self.at });
        }
        let cut_short = BrokenForm { at: self.bytes.len() };
        let Some(&[low, high]) = self.bytes.get(self.at + 1..self.at + 3) else {
            return Err(cut_short);
        };
        let start = self.at + 3;
        let end = start + usize::from(u16::from_le_bytes([low, high]));
        let payload = self.bytes.get(start..end).ok_or(cut_short)?;
        self.at = end;
        Ok(payload)
    }

    fn form(&mut self) -> Result<(&'a [u8], &'a [u8]), BrokenForm> {
        Ok((self.part(KINDS_TAG)?, self.part(JOINTS_TAG)?))
    }
}

impl<'a> Iterator for Forms<'a> {
    type Item = Result<(&'a [u8], &'a [u8]), BrokenForm>;

    fn next(&mut self) -> Option<Self::Item> {
        if self.at == self.bytes.len() {
            return None;
        }
        let form = self.form();
        if form.is_err() {
            // What follows a broken form cannot be told apart.
            self.at = self.bytes.len();
        }
        Some(form)
    }
}
