// Names the two sides: the original module, which this repository does not hold, and the port as a static library.
use std::path::{Path, PathBuf};
use std::{env, fs};

fn main() {
    let module = named("RELATIVE_PTR_RS")
        .unwrap_or_else(|| panic!("RELATIVE_PTR_RS names no file: set it to src/features/relative_ptr.rs of bincode-next 3.1.1"));
    let library = named("GACHULLPI_LIB").unwrap_or_else(|| {
        let there = Path::new(env!("CARGO_MANIFEST_DIR")).join("../crates/exports/out/libexports.a");
        there.canonicalize().unwrap_or_else(|_| panic!("{} is not there: run `rt lib` in crates/exports", there.display()))
    });
    let out = PathBuf::from(env::var_os("OUT_DIR").unwrap());
    let included = format!("#[path = {:?}]\npub mod relative_ptr;\n", module);
    fs::write(out.join("original.rs"), included).unwrap();
    fs::copy(&library, out.join("libport.a")).unwrap();
    println!("cargo:rerun-if-changed={}", module.display());
    println!("cargo:rerun-if-changed={}", library.display());
    println!("cargo:rustc-link-search=native={}", out.display());
    println!("cargo:rustc-link-lib=static=port");
}

/// The file that an environment variable names, if there is one.
fn named(variable: &str) -> Option<PathBuf> {
    println!("cargo:rerun-if-env-changed={variable}");
    let path = PathBuf::from(env::var_os(variable)?);
    path.canonicalize().ok()
}
