//! Links the library: libstallbrook.a from the folder that STALLBROOK_LIB names, or from target/staticlib of the repository; where neither is there,
//! the system's. A relative path counts from the folder in which cargo was called, or from the first folder above this package in which it leads to
//! the archive, the repository's root among them.

use std::path::{Path, PathBuf};

fn main() {
    println!("cargo:rerun-if-env-changed=STALLBROOK_LIB");
    println!("cargo:rerun-if-env-changed=PWD");
    if std::env::var_os("DOCS_RS").is_some() {
        return; // documentation is made without linking
    }
    let named = std::env::var("STALLBROOK_LIB").ok();
    let directory = found(Path::new(named.as_deref().unwrap_or("target/staticlib")));
    match (directory, named) {
        (Some(directory), _) => {
            println!("cargo:rerun-if-changed={}", directory.join("libstallbrook.a").display());
            println!("cargo:rustc-link-search=native={}", directory.display());
            println!("cargo:rustc-link-lib=static=stallbrook");
        }
        (None, Some(named)) => panic!("STALLBROOK_LIB: no libstallbrook.a in {named}"),
        (None, None) => println!("cargo:rustc-link-lib=stallbrook"),
    }
}

fn found(named: &Path) -> Option<PathBuf> {
    let called = std::env::var_os("PWD").map(PathBuf::from); // a build script's own directory is its package's
    let manifest = PathBuf::from(std::env::var_os("CARGO_MANIFEST_DIR").expect("cargo's"));
    let from = called.iter().map(PathBuf::as_path).chain(manifest.ancestors());
    from.map(|folder| folder.join(named)).find(|directory| directory.join("libstallbrook.a").is_file())
}
