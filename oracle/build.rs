//! Links librondo.a, which tools/archive makes.
use std::{env, path::PathBuf};

fn main() {
    let here = PathBuf::from(env::var("CARGO_MANIFEST_DIR").unwrap());
    let made = env::var("STATICLIB").map_or(here.join("../target/staticlib"), PathBuf::from);
    println!("cargo:rerun-if-env-changed=STATICLIB");
    println!("cargo:rerun-if-changed={}", made.join("librondo.a").display());
    println!("cargo:rustc-link-search=native={}", made.display());
    println!("cargo:rustc-link-lib=static=rondo");
}
