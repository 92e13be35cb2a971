//! Links the proved library to the comparisons: the archive that IRUMBOLAI_ARCHIVE names. Where it names none only `sample` can be built, which
//! wants no library.

use std::env;

const ARCHIVE: &str = "IRUMBOLAI_ARCHIVE";

fn main() {
    println!("cargo::rerun-if-env-changed={ARCHIVE}");
    if let Ok(library) = env::var(ARCHIVE) {
        println!("cargo::rerun-if-changed={library}");
        println!("cargo::rustc-link-arg-bin=model={library}");
    }
}
