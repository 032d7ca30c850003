//! The command line: `oracle run`, `oracle gen` and `oracle show`.

use std::{
    env, fs,
    io::{self, BufWriter, Read, Write},
    process::ExitCode,
};

use oracle::{
    batch::{self, Layout},
    generate::{self, FAMILIES, Family, Order},
    list::Forms,
    text,
};

const USAGE: &str = "\
oracle run [--compact] [--error-steps] [--summary] [FILE]
    answers every stored form of FILE or standard input
oracle gen short [--max-len L]
oracle gen random|grammar|damaged|long|deep --seed S --count N [--max-len L]
oracle gen text FORMULA..
    write stored forms, one after the other
oracle show [FILE]
    writes every list as text, a line each
";

const DEFAULT_SEED: u64 = 1;
const DEFAULT_COUNT: usize = 1000;

/// A wrong command line, or a run that failed.
enum Failure {
    Usage(String),
    Run(io::Error),
}

impl From<io::Error> for Failure {
    fn from(error: io::Error) -> Failure {
        Failure::Run(error)
    }
}

fn main() -> ExitCode {
    let arguments: Vec<String> = env::args().skip(1).collect();
    match command(&arguments) {
        Ok(()) => ExitCode::SUCCESS,
        // Whoever read the answers has read enough.
        Err(Failure::Run(error)) if error.kind() == io::ErrorKind::BrokenPipe => ExitCode::SUCCESS,
        Err(Failure::Run(error)) => {
            eprintln!("oracle: {error}");
            ExitCode::from(1)
        }
        Err(Failure::Usage(problem)) => {
            eprint!("oracle: {problem}\n{USAGE}");
            ExitCode::from(2)
        }
    }
}

fn command(arguments: &[String]) -> Result<(), Failure> {
    match arguments.split_first() {
        Some((name, rest)) if name == "run" => run(rest),
        Some((name, rest)) if name == "gen" => gen_lists(rest),
        Some((name, rest)) if name == "show" => show(rest),
        _ => Err(Failure::Usage("a command is missing".to_owned())),
    }
}

fn run(arguments: &[String]) -> Result<(), Failure> {
    let mut layout = Layout::default();
    let mut summary = false;
    let mut file = None;
    for argument in arguments {
        match argument.as_str() {
            "--compact" => layout.compact = true,
            "--error-steps" => layout.error_steps = true,
            "--summary" => summary = true,
            _ => set_file(&mut file, argument)?,
        }
    }
    let bytes = bytes_of(file)?;
    let tally = batch::with_room(|| {
        let mut out = BufWriter::with_capacity(1 << 16, io::stdout().lock());
        let tally = batch::run(&bytes, layout, &mut out)?;
        out.flush()?;
        Ok::<_, io::Error>(tally)
    })?;
    if summary {
        tally.write(&mut io::stderr().lock())?;
    }
    Ok(())
}

fn show(arguments: &[String]) -> Result<(), Failure> {
    let mut file = None;
    for argument in arguments {
        set_file(&mut file, argument)?;
    }
    let bytes = bytes_of(file)?;
    let mut out = BufWriter::new(io::stdout().lock());
    for form in Forms::of(&bytes) {
        let (kinds, joints) = form.map_err(|broken| io::Error::other(broken.to_string()))?;
        writeln!(out, "{}", text::to_text(kinds, joints))?;
    }
    Ok(out.flush()?)
}

fn set_file<'a>(file: &mut Option<&'a str>, argument: &'a str) -> Result<(), Failure> {
    if argument.starts_with("--") || file.is_some() {
        return Err(Failure::Usage(format!("what is {argument}?")));
    }
    *file = Some(argument);
    Ok(())
}

fn bytes_of(file: Option<&str>) -> io::Result<Vec<u8>> {
    if let Some(path) = file {
        return fs::read(path);
    }
    let mut bytes = Vec::new();
    io::stdin().lock().read_to_end(&mut bytes)?;
    Ok(bytes)
}

fn gen_lists(arguments: &[String]) -> Result<(), Failure> {
    let Some((name, rest)) = arguments.split_first() else {
        return Err(Failure::Usage("a family is missing".to_owned()));
    };
    let mut out = BufWriter::with_capacity(1 << 16, io::stdout().lock());
    let mut form = Vec::new();
    let mut store = |list: &oracle::list::TokenList| {
        form.clear();
        list.store(&mut form);
        out.write_all(&form)
    };
    if name == "text" {
        for formula in rest {
            store(&text::from_text(formula).map_err(Failure::Usage)?)?;
        }
    } else {
        generate::generate(order(name, rest)?, &mut store)?;
    }
    Ok(out.flush()?)
}

fn order(name: &str, options: &[String]) -> Result<Order, Failure> {
    let mut order =
        Order { family: family(name)?, seed: DEFAULT_SEED, count: DEFAULT_COUNT, max_len: None };
    for pair in options.chunks(2) {
        let [option, value] = pair else {
            return Err(Failure::Usage(format!("{} wants a number", pair[0])));
        };
        let number: u64 =
            value.parse().map_err(|_| Failure::Usage(format!("{value} is no number")))?;
        match option.as_str() {
            "--seed" => order.seed = number,
            "--count" => order.count = number as usize,
            "--max-len" => order.max_len = Some(number as usize),
            _ => return Err(Failure::Usage(format!("what is {option}?"))),
        }
    }
    Ok(order)
}

fn family(name: &str) -> Result<Family, Failure> {
    FAMILIES
        .iter()
        .find(|(known, _)| *known == name)
        .map(|(_, family)| *family)
        .ok_or_else(|| Failure::Usage(format!("{name} is no family")))
}
