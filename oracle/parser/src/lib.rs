//! The part of the supplied crate that the oracle uses, under the names of the
//! published crate. `build.rs` compiles that crate and says where it lies.

extern crate supplied_parser;

pub use supplied_parser::{Edition, Input, Output, PrefixEntryPoint, Step, SyntaxKind};
