//! Tries the library as a host program does; see ../README.md.
#![deny(unsafe_code)]

mod checks;
mod chip;
mod format;

use std::process::ExitCode;

fn main() -> ExitCode {
    let mut failed = 0;
    for (name, check) in checks::ALL {
        match check() {
            Ok(()) => println!("ok {name}"),
            Err(reason) => {
                failed += 1;
                println!("FAILED {name}: {reason}");
            }
        }
    }
    println!("{} checks, {failed} failed", checks::ALL.len());
    ExitCode::from(u8::from(failed > 0))
}
