//! Links libexports.a from $SRP_LIB_DIR, by default target/staticlib of the project two folders above, where
//! `tools/build exports` writes it. A relative SRP_LIB_DIR is taken from there too. A copy of this package elsewhere
//! needs an absolute one.

use std::env;
use std::path::PathBuf;

fn main() {
    let package = PathBuf::from(env::var_os("CARGO_MANIFEST_DIR").expect("cargo sets CARGO_MANIFEST_DIR"));
    let project = package.join("../..");
    println!("cargo:rerun-if-env-changed=SRP_LIB_DIR");
    let folder = project.join(env::var_os("SRP_LIB_DIR").unwrap_or_else(|| "target/staticlib".into()));
    let library = folder.join("libexports.a");
    println!("cargo:rerun-if-changed={}", library.display());
    if !library.exists() {
        eprintln!("{} is missing: `tools/build exports` makes it, SRP_LIB_DIR names its folder", library.display());
        std::process::exit(1);
    }
    println!("cargo:rustc-link-search=native={}", folder.display());
    println!("cargo:rustc-link-lib=static=exports");
}
