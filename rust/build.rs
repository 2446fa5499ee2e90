//! Links the proved archive, which `rt lib` in crates/abi writes. The benchmark can measure another one: VAKHUDLE_ARCHIVE names the folder of its libabi.a.
use std::path::Path;

fn main() {
    println!("cargo:rerun-if-env-changed=VAKHUDLE_ARCHIVE");
    let folder = std::env::var_os("VAKHUDLE_ARCHIVE").unwrap_or("../crates/abi/out".into());
    let archive = Path::new(env!("CARGO_MANIFEST_DIR")).join(folder);
    println!("cargo:rustc-link-search=native={}", archive.display());
    println!("cargo:rustc-link-lib=static=abi");
    println!("cargo:rerun-if-changed={}", archive.join("libabi.a").display());
}
