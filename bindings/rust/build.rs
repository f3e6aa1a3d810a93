//! Links `libsyntax_edit.a`, `libsyntax_check.a` and `libsyntax_series.a`, which `rt lib` in `crates/syntax_edit`, `crates/syntax_check` and `crates/syntax_series` writes to the `out` of
//! that folder. `SYNTAX_EDIT_LIB` names a folder that holds all three.

use std::{env, path::PathBuf};

fn main() {
    println!("cargo:rerun-if-env-changed=SYNTAX_EDIT_LIB");
    let here = PathBuf::from(env::var_os("CARGO_MANIFEST_DIR").expect("cargo sets it"));
    for name in ["syntax_edit", "syntax_check", "syntax_series"] {
        let folder = env::var_os("SYNTAX_EDIT_LIB").map_or(here.join(format!("../../crates/{name}/out")), PathBuf::from);
        let library = folder.join(format!("lib{name}.a"));
        assert!(library.exists(), "no {}: run `rt lib` in crates/{name}", library.display());
        println!("cargo:rustc-link-search=native={}", folder.display());
        println!("cargo:rerun-if-changed={}", library.display());
        println!("cargo:rustc-link-lib=static={name}");
    }
}
