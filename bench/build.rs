//! Links the planner's static library if feature `ours` is on.

use std::env;
use std::path::Path;

fn main() {
    println!("cargo:rerun-if-env-changed=VULCANFILE_LIB");
    if env::var_os("CARGO_FEATURE_OURS").is_none() {
        return;
    }
    let path = env::var("VULCANFILE_LIB")
        .expect("feature `ours` needs VULCANFILE_LIB, the path of the static library libcapi.a");
    let path = Path::new(&path).canonicalize().unwrap_or_else(|e| panic!("VULCANFILE_LIB = {path}: {e}"));
    let folder = path.parent().expect("a file has a folder");
    let stem = path.file_stem().and_then(|s| s.to_str()).unwrap_or("");
    let name = stem.strip_prefix("lib").expect("VULCANFILE_LIB names no lib*.a");
    println!("cargo:rerun-if-changed={}", path.display());
    println!("cargo:rustc-link-search=native={}", folder.display());
    println!("cargo:rustc-link-lib=static={name}");
}
