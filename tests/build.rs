// Links the static library that `rt lib` writes in crates/export; and, where BASELINE names the folder of its compiled crate, the baseline of the benchmark.
fn main() {
    let root = std::path::Path::new(env!("CARGO_MANIFEST_DIR")).parent().unwrap();
    let folder = root.join("crates/export/out");
    println!("cargo:rustc-link-search=native={}", folder.display());
    println!("cargo:rustc-link-lib=static=export");
    println!("cargo:rerun-if-changed={}", folder.join("libexport.a").display());
    println!("cargo:rerun-if-env-changed=BASELINE");
    println!("cargo:rustc-check-cfg=cfg(baseline)");
    if let Ok(folder) = std::env::var("BASELINE") {
        println!("cargo:rustc-link-search=crate={folder}");
        println!("cargo:rustc-cfg=baseline");
        println!("cargo:rerun-if-changed={folder}");
    }
}
