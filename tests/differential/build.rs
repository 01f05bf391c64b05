//! Tells the linker where libhost.a is: in the folder named by SHEETS_STATICLIB, or else in the
//! repository's target/staticlib.

use std::env;
use std::path::PathBuf;

fn main() {
    let folder = env::var_os("SHEETS_STATICLIB").map_or_else(default_folder, PathBuf::from);
    println!("cargo:rerun-if-env-changed=SHEETS_STATICLIB");
    println!("cargo:rerun-if-changed={}", folder.join("libhost.a").display());
    println!("cargo:rustc-link-search=native={}", folder.display());
}

fn default_folder() -> PathBuf {
    PathBuf::from(env!("CARGO_MANIFEST_DIR")).join("../../target/staticlib")
}
