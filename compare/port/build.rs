//! Links libharness.a and libfirmware.a, which `rt lib` writes to the out/ of their crates, and GEOS where it is asked for.
use std::{env, path::PathBuf};

fn main() {
    let here = PathBuf::from(env::var("CARGO_MANIFEST_DIR").unwrap());
    println!("cargo:rerun-if-env-changed=PORT_STATICLIB");
    for name in ["harness", "firmware"] {
        let out = here.join(format!("../../crates/{name}/out"));
        let folder = env::var("PORT_STATICLIB").map(PathBuf::from).unwrap_or(out);
        let library = folder.join(format!("lib{name}.a"));
        let absent = format!("{} is not there: run `rt lib` in crates/{name}", library.display());
        assert!(library.exists(), "{absent}");
        println!("cargo:rustc-link-search=native={}", folder.display());
        println!("cargo:rerun-if-changed={}", library.display());
        println!("cargo:rustc-link-lib=static={name}");
    }
    if env::var_os("CARGO_FEATURE_GEOS").is_some() {
        println!("cargo:rustc-link-lib=geos_c");
    }
}
