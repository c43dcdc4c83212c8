//! Links the library's archive, which lies in the folder that TINY_TERA_LIB names, else where the repository's launcher says.

use std::process::Command;

fn main() {
    let folder = std::env::var("TINY_TERA_LIB").unwrap_or_else(|_| {
        let here = std::env::var("CARGO_MANIFEST_DIR").unwrap();
        let told = Command::new(format!("{here}/../../tiny_tera")).arg("--library").output().unwrap();
        assert!(told.status.success(), "{}", String::from_utf8_lossy(&told.stderr));
        String::from_utf8(told.stdout).unwrap().trim_end().to_string()
    });
    println!("cargo:rustc-link-search=native={folder}");
    println!("cargo:rustc-link-lib=static=tiny_tera");
    println!("cargo:rerun-if-env-changed=TINY_TERA_LIB");
    println!("cargo:rerun-if-changed={folder}/libtiny_tera.a");
}
