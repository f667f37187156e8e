//! Links the proved library, which stands in `crates/dispenser_c/out` of the
//! repository.

use std::path::Path;

fn main() {
    let folder = Path::new(env!("CARGO_MANIFEST_DIR")).join("../../crates/dispenser_c/out");
    let library = folder.join("libdispenser_c.a");
    println!("cargo:rerun-if-changed={}", library.display());
    if !library.is_file() {
        eprintln!(
            "the proved library is missing: run `rt lib` in the repository's \
             crates/dispenser_c, which writes out/libdispenser_c.a there"
        );
        std::process::exit(1);
    }
    println!("cargo:rustc-link-search=native={}", folder.display());
    println!("cargo:rustc-link-lib=static=dispenser_c");
}
