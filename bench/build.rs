//! Where the product's library is looked for: target/staticlib of the project, or the folder that BENCH_LIBRARY names.

fn main() {
    println!("cargo:rerun-if-changed=build.rs");
    println!("cargo:rerun-if-env-changed=BENCH_LIBRARY");
    let asked = |feature: &str| std::env::var_os(feature).is_some();
    if !asked("CARGO_FEATURE_LIBRARY") || asked("CARGO_FEATURE_EMULATED") {
        return;
    }
    let built = concat!(env!("CARGO_MANIFEST_DIR"), "/../target/staticlib");
    let folder = std::env::var("BENCH_LIBRARY").unwrap_or(built.to_string());
    let archive = format!("{folder}/librongalishu.a");
    if !std::path::Path::new(&archive).exists() {
        panic!("{archive} is not there: checks/library builds it");
    }
    println!("cargo:rustc-link-search=native={folder}");
    println!("cargo:rerun-if-changed={archive}");
}
