//! Links the port's static library. `DOVETABLE_STATICLIB` names a file to use in place of the one
//! that the repository builds; it must be called libspectral_dsp_c.a too.

use std::path::{Path, PathBuf};

const FILE: &str = "target/staticlib/libspectral_dsp_c.a";

fn main() {
    let root = Path::new(env!("CARGO_MANIFEST_DIR")).join("../..");
    let other = std::env::var_os("DOVETABLE_STATICLIB").map(PathBuf::from);
    let library = other.unwrap_or_else(|| root.join(FILE));
    let found = library.canonicalize().unwrap_or_else(|problem| {
        panic!("{}: {problem}; ./staticlib builds it", library.display())
    });
    let folder = found.parent().expect("a file lies in a folder");
    println!("cargo::rerun-if-env-changed=DOVETABLE_STATICLIB");
    println!("cargo::rerun-if-changed={}", found.display());
    println!("cargo::rustc-link-search=native={}", folder.display());
    println!("cargo::rustc-link-lib=static=spectral_dsp_c");
    // For the test that links it with a C program.
    println!("cargo::rustc-env=DOVETABLE_LINKED={}", found.display());
}
