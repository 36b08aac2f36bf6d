// Copies the original's three files, byte for byte, where a module tree can name them, and links the proved library.
use std::{env, fs, path::Path};

const FILES: [(&str, &str); 3] = [
    ("message", "message/mod.rs"),
    ("ack", "session/active/ack.rs"),
    ("fragment", "session/active/fragment.rs"),
];

fn named(variable: &str) -> String {
    println!("cargo:rerun-if-env-changed={variable}");
    env::var(variable).unwrap_or_else(|_| panic!("{variable} is not set; oracle/run sets it"))
}

fn main() {
    let sources = Path::new(&named("EMISSARY_SRC")).join("emissary-core/src/transport/ssu2");
    let out = Path::new(&env::var("OUT_DIR").unwrap()).join("emissary");
    let mut glue = String::new();
    for (module, file) in FILES {
        let (from, to) = (sources.join(file), out.join(file));
        println!("cargo:rerun-if-changed={}", from.display());
        fs::create_dir_all(to.parent().unwrap()).unwrap();
        fs::copy(&from, &to).unwrap_or_else(|e| panic!("{}: {e}", from.display()));
        glue += &format!("#[path = \"{}\"] pub mod {module};\n", to.display());
    }
    // mod.rs names two modules of builders that are not ported
    for absent in ["message/data.rs", "message/handshake.rs"] {
        fs::write(out.join(absent), "").unwrap();
    }
    fs::write(out.join("glue.rs"), glue).unwrap();
    let library = named("STRAWHUB_LIB");
    println!("cargo:rerun-if-changed={library}/libstrawhub.a");
    println!("cargo:rustc-link-search=native={library}");
    println!("cargo:rustc-link-lib=static=strawhub");
}
