//! The crate's answer to a token list, in the numbers of document 01.

use std::{any::Any, cell::Cell, panic, sync::Once};

use parser::{Edition, Input, Output, PrefixEntryPoint, Step};

use crate::numbers::{self, LEAVE};

/// Steps in 01's numbers, and the raw tokens that they cover.
#[derive(Debug, Clone, Default, PartialEq, Eq)]
pub struct Steps {
    pub consumed: usize,
    pub steps: Vec<u32>,
}

#[derive(Debug, Clone, PartialEq, Eq)]
pub enum Answer {
    /// No error, and every step has a number.
    Read(Steps),
    /// The crate gave an error. Its first message, the raw position where that stands, and the
    /// whole answer where every step and every message has a number in 01.
    Errors { message: String, at: usize, steps: Option<Steps> },
    /// No error, but a node or a token that 01 has no number for; or a list that 01 refuses
    /// before reading, so that there is nothing to ask the crate.
    Outside(String),
    /// The crate panicked, or reached a module that is not supplied.
    Panic(String),
}

/// Asks the crate. A panic wins over an error, an error over a step outside the numbers.
pub fn answer(kinds: &[u8], joints: &[u8]) -> Answer {
    let input = match input(kinds, joints) {
        Ok(input) => input,
        Err(name) => return Answer::Outside(name.to_owned()),
    };
    match ask(&input) {
        Ok(output) => numbered(&output),
        Err(message) => Answer::Panic(message),
    }
}

fn input(kinds: &[u8], joints: &[u8]) -> Result<Input, &'static str> {
    if kinds.len() != joints.len() {
        return Err("input length");
    }
    let mut input = Input::with_capacity(kinds.len());
    for (&kind, &joint) in kinds.iter().zip(joints) {
        let kind = numbers::raw_kind(kind).ok_or("input kind")?;
        // `push` and not `push_ident`: no token is a contextual keyword.
        input.push(kind, Edition::CURRENT);
        match joint {
            0 => {}
            1 => input.was_joint(),
            _ => return Err("input joint"),
        }
    }
    Ok(input)
}

thread_local! {
    static ASKING: Cell<bool> = const { Cell::new(false) };
}

/// The crate's output, or the message of its panic.
fn ask(input: &Input) -> Result<Output, String> {
    keep_asking_silent();
    ASKING.set(true);
    let output = panic::catch_unwind(|| PrefixEntryPoint::Expr.parse(input));
    ASKING.set(false);
    output.map_err(message_of)
}

/// A panic of the crate is an answer like another, so nothing is printed about it; panics
/// elsewhere stay loud.
fn keep_asking_silent() {
    static ONCE: Once = Once::new();
    ONCE.call_once(|| {
        let loud = panic::take_hook();
        panic::set_hook(Box::new(move |panic| {
            if !ASKING.get() {
                loud(panic);
            }
        }));
    });
}

/// What one pass over the crate's steps gathers.
#[derive(Default)]
struct Gathered {
    steps: Steps,
    error: Option<(String, usize)>,
    outside: Option<String>,
    /// A message without a code in 01.
    nameless_error: bool,
}

fn numbered(output: &Output) -> Answer {
    let mut gathered = Gathered::default();
    for step in output.iter() {
        gathered.add(step);
    }
    let Gathered { steps, error, outside, nameless_error } = gathered;
    match (error, outside) {
        (Some((message, at)), outside) => {
            let whole = outside.is_none() && !nameless_error;
            Answer::Errors { message, at, steps: whole.then_some(steps) }
        }
        (None, Some(name)) => Answer::Outside(name),
        (None, None) => Answer::Read(steps),
    }
}

impl Gathered {
    fn add(&mut self, step: Step<'_>) {
        match step {
            Step::Enter { kind } => self.push(numbers::enter_step(kind), || format!("{kind:?}")),
            Step::Token { kind, n_input_tokens } => {
                let number = numbers::token_step(kind, n_input_tokens);
                self.push(number, || format!("{kind:?}"));
                self.steps.consumed += usize::from(n_input_tokens);
            }
            Step::Exit => self.steps.steps.push(LEAVE),
            Step::FloatSplit { ends_in_dot } => {
                self.steps.steps.push(numbers::split_step(ends_in_dot));
                self.steps.consumed += 1;
            }
            Step::Error { msg } => self.add_error(msg),
        }
    }

    fn push(&mut self, number: Option<u32>, name: impl FnOnce() -> String) {
        match number {
            Some(number) => self.steps.steps.push(number),
            None => {
                self.outside.get_or_insert_with(name);
            }
        }
    }

    fn add_error(&mut self, message: &str) {
        let at = self.steps.consumed;
        self.error.get_or_insert_with(|| (message.to_owned(), at));
        match numbers::error_step(message) {
            Some(number) => self.steps.steps.push(number),
            None => self.nameless_error = true,
        }
    }
}

fn message_of(payload: Box<dyn Any + Send>) -> String {
    match payload.downcast::<String>() {
        Ok(message) => *message,
        Err(payload) => match payload.downcast::<&str>() {
            Ok(message) => (*message).to_owned(),
            Err(_) => "a panic without a message".to_owned(),
        },
    }
}
