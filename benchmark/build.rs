// Finds the archive that tools/native-archive writes of crate `gauge`, and whether it has the two engines.
use std::path::Path;

fn main() {
    let here = std::env::var("CARGO_MANIFEST_DIR").expect("cargo tells where the package stands");
    let archives = Path::new(&here).join("../target/native");
    println!("cargo:rustc-link-search=native={}", archives.display());
    let gauge = archives.join("libgauge.a");
    println!("cargo:rerun-if-changed={}", gauge.display());
    println!("cargo:rustc-check-cfg=cfg(gauge_engines)");
    let bytes = std::fs::read(gauge).unwrap_or_default();
    let has = |name: &str| bytes.windows(name.len()).any(|part| part == name.as_bytes());
    if has("flaxglimmer_gauge_quick") && has("flaxglimmer_gauge_plain") {
        println!("cargo:rustc-cfg=gauge_engines");
    }
}
