//! With the feature `desk`: links the archive that `tools/archive` writes, or the one in the folder that
//! `TWIN_ARCHIVE` names.

use std::{
    env,
    path::{Path, PathBuf},
};

fn main() {
    println!("cargo:rerun-if-changed=build.rs");
    if env::var_os("CARGO_FEATURE_DESK").is_none() {
        return;
    }
    let here = env::var("CARGO_MANIFEST_DIR").expect("cargo names the package's folder");
    println!("cargo:rerun-if-env-changed=TWIN_ARCHIVE");
    let folder = match env::var_os("TWIN_ARCHIVE") {
        Some(named) => PathBuf::from(named),
        None => Path::new(&here).join("../target/archive"),
    };
    let archive = folder.join("libcapi.a");
    println!("cargo:rerun-if-changed={}", archive.display());
    assert!(
        archive.exists(),
        "{} is not there: start twin/run, which builds it, \
         or test the twin alone with --no-default-features",
        archive.display()
    );
    println!("cargo:rustc-link-search=native={}", folder.display());
    println!("cargo:rustc-link-lib=static=capi");
}
