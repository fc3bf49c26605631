//! Links the proved functions, which the script `archives` puts into target/staticlib of the repository. THREADWICKET_STATICLIB names another
//! folder that has them.
fn main() {
    println!("cargo:rerun-if-env-changed=THREADWICKET_STATICLIB");
    let root = format!("{}/../..", std::env::var("CARGO_MANIFEST_DIR").expect("cargo sets it"));
    let folder = std::env::var("THREADWICKET_STATICLIB").unwrap_or(format!("{root}/target/staticlib"));
    println!("cargo:rustc-link-search=native={folder}");
    for name in ["export", "export_gate"] {
        println!("cargo:rustc-link-lib=static={name}");
        println!("cargo:rerun-if-changed={folder}/lib{name}.a");
    }
}
