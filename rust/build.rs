//! Links the proved engine. `SUNDEWCUP_LIBRARY` names the folder of libhost.a; else it is where `./library host` writes it.
use std::env;
use std::path::PathBuf;

fn main() {
    let folder = env::var_os("SUNDEWCUP_LIBRARY").map_or_else(
        || PathBuf::from(env!("CARGO_MANIFEST_DIR")).join("../target/staticlib"),
        PathBuf::from,
    );
    println!("cargo::rerun-if-env-changed=SUNDEWCUP_LIBRARY");
    println!("cargo::rerun-if-changed={}", folder.join("libhost.a").display());
    println!("cargo::rustc-link-search=native={}", folder.display());
    println!("cargo::rustc-link-lib=static=host");
}
