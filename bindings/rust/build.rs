//! Says where the port's library is: in the folder that the environment
//! variable HEROVINGA_LIB names, or where `./library` writes it.

use std::env;
use std::path::{Path, PathBuf};
use std::process::exit;

const LIBRARY: &str = "libherovinga.a";

fn main() {
    println!("cargo:rerun-if-env-changed=HEROVINGA_LIB");
    if env::var("CARGO_CFG_TARGET_ARCH").as_deref() != Ok("x86_64") {
        fail("the library is for x86-64 alone: build with --target x86_64-unknown-linux-gnu");
    }
    let folder = folder();
    println!("cargo:rerun-if-changed={}", folder.join(LIBRARY).display());
    if !folder.join(LIBRARY).is_file() {
        fail(&format!(
            "there is no {LIBRARY} in {}: run `./library`, or set HEROVINGA_LIB to its folder",
            folder.display()
        ));
    }
    println!("cargo:rustc-link-search=native={}", folder.display());
}

fn folder() -> PathBuf {
    match env::var_os("HEROVINGA_LIB") {
        Some(folder) => PathBuf::from(folder),
        None => Path::new(env!("CARGO_MANIFEST_DIR")).join("../../target/staticlib"),
    }
}

fn fail(why: &str) -> ! {
    eprintln!("herovinga: {why}");
    exit(1);
}
