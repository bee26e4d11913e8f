//! Says where libcilvm.a is: in the folder that CILVM_LIB_DIR names, or else where pkg-config finds it.

use std::process::Command;

fn library_folder() -> Option<String> {
    if let Ok(folder) = std::env::var("CILVM_LIB_DIR") {
        return Some(folder);
    }
    let found = Command::new("pkg-config")
        .args(["--variable=libdir", "cilvm"])
        .output()
        .ok()?;
    let folder = String::from_utf8(found.stdout).ok()?;
    Some(folder.trim().to_string()).filter(|it| !it.is_empty())
}

fn main() {
    println!("cargo:rerun-if-env-changed=CILVM_LIB_DIR");
    if let Some(folder) = library_folder() {
        println!("cargo:rustc-link-search=native={folder}");
    }
    println!("cargo:rustc-link-lib=static=cilvm");
}
