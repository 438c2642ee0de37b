//! With the feature `library`: links the archives that `KIT_LIBRARY` names (paths `.../libNAME.a`).
use std::env::{var, var_os};
use std::path::PathBuf;

fn main() {
    println!("cargo:rerun-if-env-changed=KIT_LIBRARY");
    if var_os("CARGO_FEATURE_LIBRARY").is_none() {
        return;
    }
    for word in var("KIT_LIBRARY").expect("KIT_LIBRARY: the paths of the archives").split_whitespace() {
        let path = PathBuf::from(word).canonicalize().expect("KIT_LIBRARY: archives that are there");
        let name = path.file_stem().and_then(|n| n.to_str()).and_then(|n| n.strip_prefix("lib")).expect("KIT_LIBRARY: .../libNAME.a");
        println!("cargo:rerun-if-changed={}", path.display());
        println!("cargo:rustc-link-search=native={}", path.parent().expect("a folder").display());
        println!("cargo:rustc-link-lib=static={name}");
    }
}
