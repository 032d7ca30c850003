//! Batch mode: a file of stored forms in, a block of lines each out.

use std::{
    collections::BTreeMap,
    io::{self, Write},
    panic, thread,
};

use crate::{
    answer::{Answer, Steps, answer},
    list::Forms,
};

/// The crate recurses once for each open expression, and a stored form holds up to 65,535
/// prefixes. The pages are touched only as far as a list is deep.
const STACK_BYTES: usize = 512 << 20;

#[derive(Debug, Clone, Copy, Default)]
pub struct Layout {
    /// One line a list, `C: s1 s2 ..`, instead of a line a step.
    pub compact: bool,
    /// Behind `errors ..`, the whole answer where every message has a code in 01.
    pub error_steps: bool,
}

/// How many answers there were of each sort.
#[derive(Debug, Default)]
pub struct Tally {
    pub read: usize,
    pub errors: usize,
    pub outside: BTreeMap<String, usize>,
    pub panics: BTreeMap<String, usize>,
}

/// Runs `work` on a thread with room for the deepest lists.
pub fn with_room<T: Send>(work: impl FnOnce() -> T + Send) -> T {
    thread::scope(|scope| {
        let thread = thread::Builder::new().stack_size(STACK_BYTES);
        let result = thread.spawn_scoped(scope, work).expect("a thread starts").join();
        result.unwrap_or_else(|payload| panic::resume_unwind(payload))
    })
}

/// Answers every stored form of `bytes` in order. A broken form ends the run with an error.
pub fn run(bytes: &[u8], layout: Layout, out: &mut impl Write) -> io::Result<Tally> {
    let mut tally = Tally::default();
    for form in Forms::of(bytes) {
        let (kinds, joints) =
            form.map_err(|broken| io::Error::new(io::ErrorKind::InvalidData, broken.to_string()))?;
        let answer = answer(kinds, joints);
        write_answer(&answer, layout, out)?;
        tally.count(answer);
    }
    Ok(tally)
}

pub fn write_answer(answer: &Answer, layout: Layout, out: &mut impl Write) -> io::Result<()> {
    match answer {
        Answer::Read(steps) => write_steps(steps, layout, out),
        Answer::Errors { message, at, steps } => {
            writeln!(out, "errors {message} at {at}")?;
            match steps {
                Some(steps) if layout.error_steps => write_steps(steps, layout, out),
                _ => Ok(()),
            }
        }
        Answer::Outside(name) => writeln!(out, "outside {name}"),
        Answer::Panic(_) => writeln!(out, "panic"),
    }
}

fn write_steps(steps: &Steps, layout: Layout, out: &mut impl Write) -> io::Result<()> {
    let Steps { consumed, steps } = steps;
    if layout.compact {
        write!(out, "{consumed}:")?;
        for step in steps {
            write!(out, " {step}")?;
        }
        return writeln!(out);
    }
    writeln!(out, "consumed {consumed} steps {}", steps.len())?;
    for step in steps {
        writeln!(out, "{step}")?;
    }
    Ok(())
}

impl Tally {
    fn count(&mut self, answer: Answer) {
        match answer {
            Answer::Read(_) => self.read += 1,
            Answer::Errors { .. } => self.errors += 1,
            Answer::Outside(name) => *self.outside.entry(name).or_default() += 1,
            Answer::Panic(message) => *self.panics.entry(message).or_default() += 1,
        }
    }

    /// The counts, a line each; outside names and panic messages one by one.
    pub fn write(&self, out: &mut impl Write) -> io::Result<()> {
        writeln!(out, "error-free {}", self.read)?;
        writeln!(out, "errors {}", self.errors)?;
        writeln!(out, "outside {}", self.outside.values().sum::<usize>())?;
        for (name, count) in &self.outside {
            writeln!(out, "  {count} {name}")?;
        }
        writeln!(out, "panic {}", self.panics.values().sum::<usize>())?;
        for (message, count) in &self.panics {
            writeln!(out, "  {count} {message}")?;
        }
        Ok(())
    }
}
