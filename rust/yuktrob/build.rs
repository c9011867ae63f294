//! Links the proved library. `rt lib`, run in the folder `crates/yuktrob_c`, writes it. YUKTROB_LIB_DIR names its folder if it was moved.

use std::path::{Path, PathBuf};

fn main() {
    let built = Path::new(env!("CARGO_MANIFEST_DIR")).join("../../crates/yuktrob_c/out");
    let folder = std::env::var_os("YUKTROB_LIB_DIR").map_or(built, PathBuf::from);
    println!("cargo:rerun-if-env-changed=YUKTROB_LIB_DIR");
    let library = folder.join("libyuktrob_c.a");
    println!("cargo:rerun-if-changed={}", library.display());
    if !library.exists() {
        panic!("{} is missing: run `rt lib` in crates/yuktrob_c first", library.display());
    }
    println!("cargo:rustc-link-search=native={}", folder.display());
    println!("cargo:rustc-link-lib=static=yuktrob_c");
}
