//! Tells the linker where the engine's static library is, if the feature `engine` asks for it, and
//! the kit's, by which the engine's reaches `malloc`.

use std::env;
use std::path::PathBuf;

fn main() {
    println!("cargo::rerun-if-changed=build.rs");
    println!("cargo::rerun-if-env-changed=ENGINE_FOLDER");
    println!("cargo::rerun-if-env-changed=KIT_FOLDER");
    if env::var_os("CARGO_FEATURE_ENGINE").is_none() {
        return;
    }
    let folder = env::var_os("ENGINE_FOLDER").map_or_else(
        || PathBuf::from(env!("CARGO_MANIFEST_DIR")).join("../crates/door/out"),
        PathBuf::from,
    );
    let library = folder.join("libdoor.a");
    assert!(
        library.is_file(),
        "the feature `engine` needs {}: build it with `rt lib` in crates/door",
        library.display()
    );
    println!("cargo::rustc-link-search=native={}", folder.display());
    println!("cargo::rustc-link-lib=static=door");
    println!("cargo::rerun-if-changed={}", library.display());
    let kit = env::var("KIT_FOLDER").expect("KIT_FOLDER: the folder of the kit's liblibc_c.a");
    println!("cargo::rustc-link-search=native={kit}");
    println!("cargo::rustc-link-lib=static=libc_c");
}
