//! Links the archives named by GENERATOR_ARCHIVE, PARSER_ARCHIVE, LENGTHS_ARCHIVE,
//! PAGES_ARCHIVE, MERGE_ARCHIVE and SAMPLE_ARCHIVE. Without them the stand-ins of src/abi.rs
//! take their place.

fn main() {
    for (variable, cfg) in [
        ("GENERATOR_ARCHIVE", "generator_archive"),
        ("PARSER_ARCHIVE", "parser_archive"),
        ("LENGTHS_ARCHIVE", "lengths_archive"),
        ("PAGES_ARCHIVE", "pages_archive"),
        ("MERGE_ARCHIVE", "merge_archive"),
        ("SAMPLE_ARCHIVE", "sample_archive"),
    ] {
        println!("cargo:rerun-if-env-changed={variable}");
        println!("cargo:rustc-check-cfg=cfg({cfg})");
        if let Some(path) = std::env::var_os(variable) {
            let path = path.to_str().expect("a path in UTF-8");
            println!("cargo:rerun-if-changed={path}");
            println!("cargo:rustc-link-arg-bins={path}");
            println!("cargo:rustc-cfg={cfg}");
        }
    }
}
