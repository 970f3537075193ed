//! Finds the engine's archive: in the folder that ROLWYDDAC_LIB names, from the root or from where cargo was called, else in
//! target/library/lib of the repository.

use std::{
    env,
    path::{Path, PathBuf},
};

/// What a folder's archive is linked as: the library as it is installed, or the proved calls alone.
const ARCHIVES: [(&str, &str); 2] = [("librolwyddac.a", "rolwyddac"), ("libcalls.a", "calls")];

fn folder() -> PathBuf {
    println!("cargo:rerun-if-env-changed=ROLWYDDAC_LIB");
    match env::var_os("ROLWYDDAC_LIB") {
        // cargo runs this in the crate's folder, and PWD is still the caller's
        Some(folder) if Path::new(&folder).is_relative() => match env::var_os("PWD") {
            Some(caller) => PathBuf::from(caller).join(folder),
            None => PathBuf::from(folder),
        },
        Some(folder) => PathBuf::from(folder),
        None => {
            PathBuf::from(env::var_os("CARGO_MANIFEST_DIR").expect("set by cargo")).join("../../target/library/lib")
        }
    }
}

fn main() {
    let folder = folder();
    for (archive, name) in ARCHIVES {
        let archive = folder.join(archive);
        println!("cargo:rerun-if-changed={}", archive.display());
        if archive.is_file() {
            println!("cargo:rustc-link-search=native={}", folder.display());
            println!("cargo:rustc-link-lib=static={name}");
            return;
        }
    }
    eprintln!(
        "no librolwyddac.a in {}: run bindings/library in the repository, or set ROLWYDDAC_LIB to the archive's folder",
        folder.display()
    );
    std::process::exit(1);
}
