//! The crate ra_ap_parser as an oracle: token lists in the numbers of the port's document 01
//! go in, the crate's answer for `PrefixEntryPoint::Expr` comes out in the same numbers.

pub mod answer;
pub mod batch;
pub mod generate;
pub mod list;
pub mod numbers;
pub mod random;
pub mod raw;
pub mod text;
