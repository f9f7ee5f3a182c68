//! Finds the proved library `librx_c.a`, and links it.

use std::env;
use std::path::{Path, PathBuf};
use std::process;

const NAME: &str = "librx_c.a";
const VARIABLE: &str = "TITANIUMBAT_LIB";

fn main() {
    println!("cargo:rerun-if-env-changed={VARIABLE}");
    // The documentation needs no library.
    if env::var_os("DOCS_RS").is_some() {
        return;
    }
    let archive = archive().unwrap_or_else(|why| {
        eprintln!("{why}");
        process::exit(1)
    });
    println!("cargo:rerun-if-changed={}", archive.display());
    if let (Some(folder), Some(name)) = (archive.parent(), archive.file_name()) {
        println!("cargo:rustc-link-search=native={}", folder.display());
        println!("cargo:rustc-link-lib=static:+verbatim={}", name.to_string_lossy());
    }
}

/// The path of the library: that of the variable, else in this package, else where the repository builds it.
fn archive() -> Result<PathBuf, String> {
    if let Some(given) = env::var_os(VARIABLE).filter(|given| !given.is_empty()) {
        let given = PathBuf::from(given);
        let found = if given.is_dir() { given.join(NAME) } else { given };
        return match found.canonicalize() {
            Ok(path) => Ok(path),
            Err(why) => {
                Err(format!("{VARIABLE} names {}, which cannot be read: {why}", found.display()))
            }
        };
    }
    let package = PathBuf::from(env::var_os("CARGO_MANIFEST_DIR").unwrap_or_default());
    let places = [package.join("lib").join(NAME), package.join("../../crates/rx_c/out").join(NAME)];
    let found = places.iter().find_map(|place| place.canonicalize().ok());
    found.ok_or_else(|| absence(&places))
}

fn absence(places: &[PathBuf]) -> String {
    let tried: String = places.iter().map(|place| line(place)).collect();
    format!(
        "The library {NAME} is not there. Looked for:\n{tried}Build it by `tools/archive.py` of the repository, or let {VARIABLE} name it or its folder."
    )
}

fn line(place: &Path) -> String {
    format!("  {}\n", place.display())
}
