//! Records what the original answers to a fixed script of calls, as the list that the program crate `vectors` replays on the proved
//! functions, and what the replay writes where every answer is as recorded. The port has no part in it. Every run writes the
//! same bytes. In `rust/`:
//!
//!     cargo run --offline --release -p record -- ../crates/vectors
#![forbid(unsafe_code)]

mod coverage;
mod crc;
mod groups;
mod list;
mod moves;
mod row;

use list::List;
use record::{call, snapshot};
use std::{env, fs, path::PathBuf, process::ExitCode};

fn main() -> ExitCode {
    let Some(folder) = env::args_os().nth(1).map(PathBuf::from) else {
        eprintln!("usage: record FOLDER, which gets data/answers and stdout");
        return ExitCode::FAILURE;
    };
    let mut list = List::new();
    for record in groups::ALL {
        record(&mut list);
    }
    let recorded = list.finish();
    for group in &recorded.groups {
        println!("{:6} rows, {:6} answers  {}", group.rows, group.answers, group.name);
    }
    println!("{:6} rows, {} bytes\n{}", recorded.rows(), recorded.bytes.len(), recorded.coverage);
    let missing = recorded.coverage.missing();
    if !missing.is_empty() {
        eprintln!("not written: {}", missing.join(", "));
        return ExitCode::FAILURE;
    }
    let expected = recorded.expected();
    let files = [("data/answers", &recorded.bytes[..]), ("stdout", expected.as_bytes())];
    for (name, bytes) in files {
        let path = folder.join(name);
        if let Err(error) = fs::write(&path, bytes) {
            eprintln!("{}: {error}", path.display());
            return ExitCode::FAILURE;
        }
    }
    ExitCode::SUCCESS
}
