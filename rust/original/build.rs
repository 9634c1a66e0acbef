//! Finds the original's source and writes the few lines that declare its files as modules; the files stay where they
//! are, unchanged.
use std::{
    env, fs,
    path::{Path, PathBuf},
    process,
};

const VARIABLE: &str = "ORIGINAL_SRC";
/// From the repository's root, as is a relative folder in the variable.
const DEFAULT: &str = "../shared/docs/src";
const FILES: [&str; 4] = ["time.rs", "signals.rs", "state.rs", "mcu/flash.rs"];
/// Where in the named folder the files may be: a copy of the whole source, or the folder of the files itself.
const PLACES: [&str; 2] = ["crates/hs-core/src", ""];

fn main() {
    println!("cargo:rerun-if-env-changed={VARIABLE}");
    println!("cargo:rerun-if-changed=build.rs");
    // The original has parts for a feature that no one sets here.
    println!("cargo:rustc-check-cfg=cfg(feature, values(\"trace\"))");

    let folder = find().unwrap_or_else(|message| {
        eprintln!("{message}");
        process::exit(1);
    });
    for file in FILES {
        println!("cargo:rerun-if-changed={}", folder.join(file).display());
    }
    let out = PathBuf::from(cargo("OUT_DIR")).join("modules.rs");
    fs::write(out, modules(&folder)).expect("the build's own folder can be written");
}

fn cargo(name: &str) -> String {
    env::var(name).unwrap_or_else(|_| panic!("cargo sets {name}"))
}

/// The folder that has `time.rs`, or what to say to the user.
fn find() -> Result<PathBuf, String> {
    let root = Path::new(&cargo("CARGO_MANIFEST_DIR")).join("../..");
    let named = env::var_os(VARIABLE).unwrap_or_else(|| DEFAULT.into());
    let named = root.join(named);
    let Some(folder) = PLACES
        .iter()
        .map(|place| named.join(place))
        .find(|folder| folder.join("mcu/flash.rs").is_file())
    else {
        return Err(format!(
            "The original's source is missing: {} has neither crates/hs-core/src/mcu/flash.rs nor mcu/flash.rs.\n\
             Set {VARIABLE} to a folder that has one of them, as a copy of lumirth/hachistep does.\n\
             A relative folder counts from the repository's root; without the variable it is {DEFAULT}.",
            named.display()
        ));
    };
    for file in FILES {
        if !folder.join(file).is_file() {
            return Err(format!(
                "The original's source is not whole: {file} is missing in {}.\n\
                 Set {VARIABLE} to a folder that has {}.",
                folder.display(),
                FILES.join(", ")
            ));
        }
    }
    let folder = folder.canonicalize().map_err(|error| format!("{}: {error}", folder.display()))?;
    match folder.to_str() {
        Some(_) => Ok(folder),
        None => Err(format!("{} is no Unicode path: set {VARIABLE} to one", folder.display())),
    }
}

/// Warnings about the original are no use here: it is not ours to change, and it has more than is called.
fn modules(folder: &Path) -> String {
    let module = |name: &str, file: &str| {
        format!(
            "#[allow(warnings, clippy::all)]\n#[path = {:?}]\npub mod {name};\n",
            folder.join(file)
        )
    };
    format!(
        "{}{}{}pub mod mcu {{\npub use crate::stand_ins::{{control, FLASH_SIZE}};\n{}}}\n",
        module("time", "time.rs"),
        module("signals", "signals.rs"),
        module("state", "state.rs"),
        module("flash", "mcu/flash.rs")
    )
}
