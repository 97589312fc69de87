//! Names the crate's files to the compiler where they lie; none of them is copied.

use std::path::{Path, PathBuf};
use std::{env, fs};

/// All but default_crypto, string and extra, which lean on crates that Debian does not have.
const MODULES: [(&str, &str); 7] = [
    ("pub", "creator"),
    ("pub", "keys"),
    ("pub", "maccommandcreator"),
    ("pub", "maccommands"),
    ("pub", "packet_length"),
    ("pub", "parser"),
    ("", "securityhelpers"),
];

fn folder() -> PathBuf {
    let repository = Path::new(&env::var("CARGO_MANIFEST_DIR").unwrap()).join("../..");
    let named = env::var("LORAWAN_SRC").map(PathBuf::from);
    let folder = named.unwrap_or_else(|_| repository.join("../shared/docs/src"));
    folder.canonicalize().unwrap_or_else(|_| {
        panic!("no sources of lorawan 0.9.0 in {}: name their folder in LORAWAN_SRC", folder.display())
    })
}

fn main() {
    println!("cargo:rerun-if-env-changed=LORAWAN_SRC");
    let folder = folder();
    let mut root = String::new();
    for (visibility, module) in MODULES {
        let file = folder.join(module).with_extension("rs");
        println!("cargo:rerun-if-changed={}", file.display());
        root += &format!("#[path = {:?}]\n{visibility} mod {module};\n", file.display().to_string());
    }
    fs::write(Path::new(&env::var("OUT_DIR").unwrap()).join("modules.rs"), root).unwrap();
}
