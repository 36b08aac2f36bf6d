//! Links libstrawhub.a: from the folder that STRAWHUB_LIB names, or else from ../target/native.
use std::path::{Path, PathBuf};
use std::{env, process};

fn main() {
    println!("cargo:rerun-if-env-changed=STRAWHUB_LIB");
    let folder = folder();
    let archive = folder.join("libstrawhub.a");
    println!("cargo:rerun-if-changed={}", archive.display());
    if !archive.is_file() {
        eprintln!(
            "strawhub: {} is not there. Make it with tools/native-lib of the repository, or name the folder that has it in STRAWHUB_LIB.",
            archive.display()
        );
        process::exit(1);
    }
    // a folder that was named from elsewhere has to be found from there too
    let folder = folder.canonicalize().unwrap_or(folder);
    println!("cargo:rustc-link-search=native={}", folder.display());
    println!("cargo:rustc-link-lib=static=strawhub");
}

fn folder() -> PathBuf {
    match env::var_os("STRAWHUB_LIB") {
        Some(named) => PathBuf::from(named),
        None => Path::new(env!("CARGO_MANIFEST_DIR")).join("../target/native"),
    }
}
