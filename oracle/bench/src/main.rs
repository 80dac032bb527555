//! Time and stack of every exported call beside the published Rust, on the same tables and arguments, as Markdown.
//! `bench [--rounds N] [--svg FILE]`: rounds of each side, and where the picture goes.
mod calls;
mod cases;
mod lines;
mod ours;
mod plot;
mod report;
mod stack;
mod tables;
mod theirs;
mod time;

use report::Measured;
use std::process::ExitCode;

const ROUNDS: usize = 51;

struct Options {
    rounds: usize,
    svg: Option<String>,
}

fn options() -> Result<Options, String> {
    let mut options = Options {
        rounds: ROUNDS,
        svg: None,
    };
    let mut args = std::env::args().skip(1);
    while let Some(arg) = args.next() {
        let value = args.next().ok_or(format!("{arg} needs a value"))?;
        match arg.as_str() {
            "--rounds" => options.rounds = value.parse().ok().filter(|&n| n > 0).ok_or("--rounds needs a number")?,
            "--svg" => options.svg = Some(value),
            _ => return Err(format!("no option {arg}; bench [--rounds N] [--svg FILE]")),
        }
    }
    Ok(options)
}

fn bench() -> Result<(), String> {
    let options = options()?;
    let tables = tables::all();
    let cases = cases::all(&tables)?;
    let empty = time::empty(&cases[0], options.rounds);
    let measure = |case| Measured {
        time: time::time(&case, options.rounds),
        stack: stack::stack(&case),
        case,
    };
    let all: Vec<Measured> = cases.into_iter().map(measure).collect();
    report::head(options.rounds, &empty);
    report::tables(&tables);
    report::times(&all);
    report::stacks(&all);
    match options.svg {
        Some(file) => std::fs::write(&file, plot::svg(&all)).map_err(|e| format!("{file}: {e}")),
        None => Ok(()),
    }
}

fn main() -> ExitCode {
    match bench() {
        Ok(()) => ExitCode::SUCCESS,
        Err(e) => {
            eprintln!("{e}");
            ExitCode::FAILURE
        }
    }
}
