//! Writes what `wipe` prints for the histories in `crates/examples/data`, as the original answers them: what the program crate `examples` is
//! held against. The port has no part in it, nor has its reader of histories. In `rust/`:
//!
//!     cargo run --offline --release -p record --bin reports -- ../crates/examples
#![forbid(unsafe_code)]

mod history;
mod mistake;
mod moment;
mod options;
mod registers;
mod report;
mod runs;
mod sentences;
#[cfg(test)]
mod tests;
mod view;

use runs::{Folder, RUNS};
use std::path::{Path, PathBuf};
use std::{env, fs, process::ExitCode};

/// Writes the file and gives its text; an example that no run has is an error.
fn write(folder: &Path) -> Result<String, String> {
    let failed = |error: std::io::Error| format!("{}: {error}", folder.display());
    let mut examples = Folder::open(folder.join("data")).map_err(failed)?;
    let text: String = RUNS.iter().map(|run| examples.run(run)).collect();
    if !examples.unread.is_empty() {
        return Err(format!("no run has {}", Vec::from_iter(examples.unread).join(", ")));
    }
    fs::write(folder.join("stdout"), &text).map_err(failed)?;
    Ok(text)
}

fn main() -> ExitCode {
    let Some(folder) = env::args_os().nth(1).map(PathBuf::from) else {
        eprintln!("usage: reports FOLDER, which has the examples in data and gets stdout");
        return ExitCode::FAILURE;
    };
    match write(&folder) {
        Ok(text) => {
            println!("{} runs, {} lines", RUNS.len(), text.lines().count());
            ExitCode::SUCCESS
        }
        Err(message) => {
            eprintln!("not written: {message}");
            ExitCode::FAILURE
        }
    }
}
