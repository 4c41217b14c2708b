//! Finds libfixed: in the folder that LIBFIXED_DIR names, else by pkg-config.
use std::env;
use std::path::Path;
use std::process::{exit, Command};

const NOT_FOUND: &str = "libfixed was not found. Set LIBFIXED_DIR to the folder that holds libfixed.a or libfixed.so, \
                         or install its development files, so that `pkg-config --libs fixed` finds it.";

/// Links the archive in a folder, or the shared library if there is no archive.
fn link_from(folder: &str) {
    let has = |name: &str| Path::new(folder).join(name).is_file();
    let kind = match (has("libfixed.a"), has("libfixed.so")) {
        (true, _) => "static",
        (false, true) => "dylib",
        (false, false) => {
            eprintln!("LIBFIXED_DIR is {folder}, which holds neither libfixed.a nor libfixed.so.");
            exit(1);
        }
    };
    println!("cargo:rustc-link-search=native={folder}");
    println!("cargo:rustc-link-lib={kind}=fixed");
}

/// Links the library that pkg-config finds. Returns false if it finds none.
fn link_by_pkg_config() -> bool {
    let tool = env::var("PKG_CONFIG").unwrap_or_else(|_| "pkg-config".into());
    let folder = match Command::new(tool).args(["--variable=libdir", "fixed"]).output() {
        Ok(found) if found.status.success() => String::from_utf8_lossy(&found.stdout).trim().to_string(),
        _ => return false,
    };
    println!("cargo:rustc-link-search=native={folder}");
    println!("cargo:rustc-link-lib=dylib=fixed");
    true
}

fn main() {
    for name in ["LIBFIXED_DIR", "PKG_CONFIG", "PKG_CONFIG_PATH"] {
        println!("cargo:rerun-if-env-changed={name}");
    }
    match env::var("LIBFIXED_DIR") {
        Ok(folder) => link_from(&folder),
        Err(_) if link_by_pkg_config() => {}
        Err(_) => {
            eprintln!("{NOT_FOUND}");
            exit(1);
        }
    }
}
