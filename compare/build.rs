//! Links the PEG recognizer, where it was made, into the benchmark.

fn main() {
    let folder = std::env::var("CARGO_MANIFEST_DIR").expect("cargo sets it");
    println!("cargo:rerun-if-changed=build.rs");
    println!("cargo:rustc-check-cfg=cfg(peg)");
    let peg = format!("{folder}/target/libpegm.a");
    println!("cargo:rerun-if-changed={peg}");
    if std::path::Path::new(&peg).exists() {
        println!("cargo:rustc-cfg=peg");
        println!("cargo:rustc-link-arg-bin=benchmark={peg}");
    }
}
