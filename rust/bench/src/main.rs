//! Times the port beside the original: the same calls at the same times, in one run.
#![forbid(unsafe_code)]

mod line;
mod list;
mod side;
mod state;
mod table;
mod timing;

use std::{env, process::ExitCode};
use table::Measured;

const HELP: &str = "\
Times the port beside the original, and prints the times as Markdown tables.

    cargo run --offline --release -p bench [-- --only TEXT]

--only TEXT   only the lines whose names have this text
--list        only the names
--help        this

After each line both sides have to agree in what was read, event words, image and snapshot; if they do not, the line
is named and the exit status is 1. A goal that is missed is no error.
";

/// What a reader has to know of the times; it stands above the tables.
const HEADING: &str = "\
Port and original in turn in one run, both compiled for release and for any x86-64; the smallest of at least 25
repetitions after a warm-up. Buffers are warm: record, array, charge store, event words and outputs are lent once, used
again and not cleared. The original works on its own heap, which the allocator hands out again warm; its events go as
words into memory that is used again. What a first settling or a reading replaces is renewed outside of the time.
A peek, a cell's charge and a blank page are done once before the clock starts, as the original's image has emptied the
caches.

*opened*: mixed firmware, the pages have charges, no byte changes. *first*: the settling opens the pages, and every byte
changes. *linear or better*: a page costs no more than in a smaller line, but for 15 % of noise and, in snapshots, the
factor by which a byte of the plain copy costs more than there, as it outgrows the caches.
";

enum Wish {
    Help,
    List,
    Run(String),
}

fn wish() -> Result<Wish, String> {
    let mut only = String::new();
    let mut arguments = env::args().skip(1);
    while let Some(argument) = arguments.next() {
        match argument.as_str() {
            "--help" | "-h" => return Ok(Wish::Help),
            "--list" => return Ok(Wish::List),
            "--only" => only = arguments.next().ok_or("--only wants a text")?,
            other => return Err(format!("{other} is unknown; --help says what there is")),
        }
    }
    Ok(Wish::Run(only))
}

fn run(only: &str) -> Result<(), String> {
    if cfg!(debug_assertions) {
        return Err(
            "times of a debug build say nothing: cargo run --offline --release -p bench".into()
        );
    }
    let lines: Vec<_> = list::all().into_iter().filter(|l| l.name.contains(only)).collect();
    if lines.is_empty() {
        return Err(format!("no line has {only:?} in its name; --list shows the names"));
    }
    let mut all = Vec::new();
    for line in lines {
        let times = line.measure()?;
        all.push(Measured { line, times });
    }
    let goals = all.iter().filter(|m| m.met().is_some()).count();
    let missed: Vec<_> = all.iter().filter(|m| m.met() == Some(false)).collect();
    let hopeless = missed.iter().filter(|m| m.below_copy()).count();
    print!("{HEADING}{}\n{goals} goals, {} missed", table::tables(&all), missed.len());
    if hopeless > 0 {
        print!(", {hopeless} of them also by a plain copy");
    }
    println!();
    Ok(())
}

fn main() -> ExitCode {
    let done = wish().and_then(|wish| match wish {
        Wish::Help => {
            print!("{HELP}");
            Ok(())
        }
        Wish::List => {
            list::all().iter().for_each(|line| println!("{}", line.name));
            Ok(())
        }
        Wish::Run(only) => run(&only),
    });
    match done {
        Ok(()) => ExitCode::SUCCESS,
        Err(message) => {
            eprintln!("{message}");
            ExitCode::FAILURE
        }
    }
}
