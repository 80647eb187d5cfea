//! Tells the linker where the archive `libembed.a` lies.

use std::env;
use std::path::PathBuf;

fn main() {
    let folder = match env::var("EMBED_DIR") {
        Ok(given) => PathBuf::from(given),
        Err(_) => PathBuf::from(env!("CARGO_MANIFEST_DIR")).join("../crates/embed/out"),
    };
    println!("cargo:rerun-if-env-changed=EMBED_DIR");
    println!(
        "cargo:rerun-if-changed={}",
        folder.join("libembed.a").display()
    );
    println!("cargo:rustc-link-search=native={}", folder.display());
    println!("cargo:rustc-link-lib=static=embed");
}
