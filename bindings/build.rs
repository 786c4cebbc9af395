//! Links the archive libquetlapin.a: from the folder in QUETLAPIN_LIB_DIR, or from
//! ../target/staticlib.

use std::path::PathBuf;

fn main() {
    println!("cargo::rerun-if-env-changed=QUETLAPIN_LIB_DIR");
    let folder = match std::env::var_os("QUETLAPIN_LIB_DIR") {
        Some(folder) => PathBuf::from(folder),
        None => PathBuf::from(std::env::var_os("CARGO_MANIFEST_DIR").unwrap())
            .join("../target/staticlib"),
    };
    println!(
        "cargo::rerun-if-changed={}",
        folder.join("libquetlapin.a").display()
    );
    if !folder.join("libquetlapin.a").exists() {
        println!("cargo::warning=libquetlapin.a is not in {}", folder.display());
    }
    println!("cargo::rustc-link-search=native={}", folder.display());
    println!("cargo::rustc-link-lib=static:-bundle=quetlapin");
    println!("cargo::rustc-link-lib=m");
}
