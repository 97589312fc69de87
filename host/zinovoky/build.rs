//! Finds the static library of the proved codec: in the folder that ZINOVOKY_LIB names, else in the repository's
//! target/staticlib, where `tools/staticlib` writes it. The library is for x86-64, whatever machine wrote it, so
//! that a build for another processor ends here, with a sentence, and not in the linker.

use std::path::{Path, PathBuf};
use std::{env, process};

/// Ends the build with one sentence.
fn refuse(why: &str) -> ! {
    eprintln!("{why}");
    process::exit(1)
}

fn main() {
    println!("cargo:rerun-if-env-changed=ZINOVOKY_LIB");
    let processor = env::var("CARGO_CFG_TARGET_ARCH").unwrap();
    if processor != "x86_64" {
        refuse(&format!(
            "libframe_c.a is compiled for x86-64 and this build is for {processor}: build for x86_64-unknown-linux-gnu \
             instead, as host/README.md says under \"On a machine that is not x86-64\""
        ));
    }
    let repository = Path::new(&env::var("CARGO_MANIFEST_DIR").unwrap()).join("../..");
    let folder = env::var("ZINOVOKY_LIB").map_or_else(|_| repository.join("target/staticlib"), PathBuf::from);
    let archive = folder.join("libframe_c.a");
    if !archive.exists() {
        refuse(&format!(
            "{} is not there: run `tools/staticlib`, or name its folder in ZINOVOKY_LIB",
            archive.display()
        ));
    }
    println!("cargo:rerun-if-changed={}", archive.display());
    println!("cargo:rustc-link-search=native={}", folder.display());
    println!("cargo:rustc-link-lib=static=frame_c");
}
