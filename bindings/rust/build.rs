//! Links the proved library: libvombelishi.a in the directory VOMBELISHI_LIB_DIR.

use std::env;
use std::path::{Path, PathBuf};
use std::process;

const MISSING: &str =
    "VOMBELISHI_LIB_DIR must name the directory of libvombelishi.a (`tools/renew archive` makes it)";

fn library() -> Option<PathBuf> {
    let folder = Path::new(&env::var_os("VOMBELISHI_LIB_DIR")?).canonicalize().ok()?;
    folder.join("libvombelishi.a").exists().then_some(folder)
}

fn main() {
    println!("cargo:rerun-if-env-changed=VOMBELISHI_LIB_DIR");
    let folder = library().unwrap_or_else(|| {
        eprintln!("{MISSING}");
        process::exit(1);
    });
    println!("cargo:rerun-if-changed={}", folder.join("libvombelishi.a").display());
    println!("cargo:rustc-link-search=native={}", folder.display());
    println!("cargo:rustc-link-lib=static=vombelishi");
}
