//! Finds libcomposecheck by pkg-config.
use std::process::Command;

fn main() {
    println!("cargo:rerun-if-env-changed=PKG_CONFIG_PATH");
    let words = ["--libs", "composecheck"];
    let found = Command::new("pkg-config").args(words).output().expect("pkg-config is needed");
    if !found.status.success() {
        panic!(
            "pkg-config finds no libcomposecheck: install libcomposecheck-dev, or set PKG_CONFIG_PATH\n{}",
            String::from_utf8_lossy(&found.stderr)
        );
    }
    for word in String::from_utf8_lossy(&found.stdout).split_whitespace() {
        if let Some(folder) = word.strip_prefix("-L") {
            println!("cargo:rustc-link-search=native={folder}");
        } else if let Some(name) = word.strip_prefix("-l") {
            println!("cargo:rustc-link-lib={name}");
        }
    }
}
