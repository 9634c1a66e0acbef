// What the build scripts of `doqtarbu` and `replay` share: an archive of proved functions is found and linked.
use std::{env, path::PathBuf, process};

/// Links `target/staticlib/libNAME.a`, which `./archives NAME` makes at the repository's root, or the one in the folder `FLASH_LIB_DIR`.
fn link(name: &str) {
    println!("cargo:rerun-if-env-changed=FLASH_LIB_DIR");
    let folder = match env::var_os("FLASH_LIB_DIR") {
        Some(folder) => PathBuf::from(folder),
        None => PathBuf::from(env::var_os("CARGO_MANIFEST_DIR").expect("cargo sets it"))
            .join("../../target/staticlib"),
    };
    let archive = folder.join(format!("lib{name}.a"));
    println!("cargo:rerun-if-changed={}", archive.display());
    if !archive.is_file() {
        eprintln!(
            "{} is missing: run `./archives {name}` at the repository's root, \
             or set FLASH_LIB_DIR to the folder that has lib{name}.a",
            archive.display()
        );
        process::exit(1);
    }
    println!("cargo:rustc-link-search=native={}", folder.display());
    println!("cargo:rustc-link-lib=static={name}");
}
