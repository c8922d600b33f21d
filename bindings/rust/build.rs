// Finds the archives of the features: in the folder SIDUMZA_LIB, else in target/staticlib of the repository.
use std::path::PathBuf;

fn main() {
    println!("cargo:rerun-if-env-changed=SIDUMZA_LIB");
    let here = PathBuf::from(std::env::var_os("CARGO_MANIFEST_DIR").expect("cargo sets it"));
    let folder = std::env::var_os("SIDUMZA_LIB").map_or(here.join("../../target/staticlib"), PathBuf::from);
    println!("cargo:rustc-link-search=native={}", folder.display());
    for feature in ["parser", "generator", "merge", "sample"] {
        if std::env::var_os(format!("CARGO_FEATURE_{}", feature.to_uppercase())).is_none() {
            continue;
        }
        let name = format!("{feature}_c");
        let archive = folder.join(format!("lib{name}.a"));
        println!("cargo:rerun-if-changed={}", archive.display());
        if !archive.is_file() {
            eprintln!(
                "There is no {}: make it with `sh tools/build.sh {name}` in the repository, or name its folder by SIDUMZA_LIB.",
                archive.display()
            );
            std::process::exit(1);
        }
        println!("cargo:rustc-link-lib=static={name}");
    }
}
