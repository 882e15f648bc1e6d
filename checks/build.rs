//! Links the library's archives: `out/libtie_rod_c.a`, `out/libsection_c.a` and
//! `out/libgrade_c.a` of the crates of this repository and no others, whatever
//! the environment says.

use std::env;
use std::path::Path;

fn main() {
    if env::var_os("CARGO_FEATURE_LIBRARY").is_none() {
        return;
    }
    let crates = Path::new(&env::var_os("CARGO_MANIFEST_DIR").unwrap()).join("../crates");
    for name in ["tie_rod_c", "section_c", "grade_c"] {
        let folder = crates.join(name).join("out");
        let archive = folder.join(format!("lib{name}.a"));
        println!("cargo:rerun-if-changed={}", archive.display());
        if !archive.is_file() {
            panic!(
                "{} isn't there: `rt lib` in crates/{name} writes it; --no-default-features does without",
                archive.display()
            );
        }
        println!("cargo:rustc-link-search=native={}", folder.display());
        println!("cargo:rustc-link-lib=static={name}");
    }
}
