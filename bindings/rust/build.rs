//! Links libnorbelath.a from the folder that NORBELATH_LIB_DIR names. Without it the package can be checked and documented,
//! but not linked.

use std::env::{self, VarError};
use std::path::Path;

fn main() {
    println!("cargo:rerun-if-env-changed=NORBELATH_LIB_DIR");
    println!("cargo:rustc-link-lib=static=norbelath");
    match env::var("NORBELATH_LIB_DIR") {
        Ok(folder) => link_from(&folder),
        Err(VarError::NotUnicode(_)) => panic!("NORBELATH_LIB_DIR is not UTF-8"),
        Err(VarError::NotPresent) => println!(
            "cargo:warning=NORBELATH_LIB_DIR is not set, so nothing can be linked: it names the folder of libnorbelath.a"
        ),
    }
}

/// Tells cargo to link the library in this folder. Cargo runs this in the package's folder, so a relative path would not
/// be the caller's.
fn link_from(folder: &str) {
    let library = Path::new(folder).join("libnorbelath.a");
    assert!(
        library.is_absolute() && library.is_file(),
        "NORBELATH_LIB_DIR is not the absolute path of a folder with libnorbelath.a: {folder}"
    );
    println!("cargo:rerun-if-changed={}", library.display());
    println!("cargo:rustc-link-search=native={folder}");
}
