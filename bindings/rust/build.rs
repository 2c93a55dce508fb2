//! Says where libhwsq.a is: in the folder that HWSQ_LIB names, or else where `bindings/build` writes it.

use std::{env, path::PathBuf};

fn main() {
    let root =
        PathBuf::from(env::var_os("CARGO_MANIFEST_DIR").expect("cargo names the package's folder"));
    let folder = match env::var_os("HWSQ_LIB") {
        Some(folder) => PathBuf::from(folder),
        None => root.join("../../target/staticlib"),
    };
    println!("cargo:rerun-if-env-changed=HWSQ_LIB");
    println!(
        "cargo:rerun-if-changed={}",
        folder.join("libhwsq.a").display()
    );
    println!("cargo:rustc-link-search=native={}", folder.display());
}
