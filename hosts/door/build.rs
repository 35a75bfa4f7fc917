//! Links libpsamathyr.a: from the folder PSAMATHYR_LIB, or from the target machine's folder in target/lib of this repository.

use std::env;
use std::path::PathBuf;

fn main() {
    println!("cargo:rerun-if-env-changed=PSAMATHYR_LIB");
    let folder = match env::var_os("PSAMATHYR_LIB") {
        Some(folder) => PathBuf::from(folder),
        None => PathBuf::from(env::var_os("CARGO_MANIFEST_DIR").expect("package folder"))
            .join("../../target/lib")
            .join(env::var("CARGO_CFG_TARGET_ARCH").expect("target machine") + "-linux"),
    };
    let library = folder.join("libpsamathyr.a");
    if !library.is_file() {
        // What is only checked needs no library.
        println!(
            "cargo:warning=no {}: tools/libraries makes it",
            library.display()
        );
    }
    println!("cargo:rerun-if-changed={}", library.display());
    println!("cargo:rustc-link-search=native={}", folder.display());
    println!("cargo:rustc-link-lib=static:-bundle=psamathyr");
}
