//! Links the archive that `./archives replaying` makes at the repository's root.
include!("../archive.rs");

fn main() {
    println!("cargo:rerun-if-changed=../archive.rs");
    link("replaying");
}
