//! Tells cargo where the static libraries are.

use std::path::{Path, PathBuf};
use std::process::{Command, exit};

fn main() {
    let crates = Path::new("..").join("crates");
    for name in ["fotsgari_c", "registers_c"] {
        link(&crates.join(name).join("out"), name, &format!("run (cd crates/{name} && rt lib)"));
    }
    // Both call malloc, realloc and free through this file, so it comes last.
    let kit = kit().unwrap_or_else(|| fail("rt is not to be found, and with it its liblibc_c.a"));
    link(&kit.join("c"), "libc_c", "it is a part of the kit");
}

/// Links a library of a folder, or fails where it is not there.
fn link(folder: &Path, name: &str, hint: &str) {
    let file = folder.join(format!("lib{name}.a"));
    println!("cargo:rerun-if-changed={}", file.display());
    let Ok(file) = file.canonicalize() else {
        fail(&format!("{} is not built: {hint}", file.display()));
    };
    let folder = file.parent().unwrap_or(Path::new("/"));
    println!("cargo:rustc-link-search=native={}", folder.display());
    println!("cargo:rustc-link-lib=static={name}");
}

/// The folder of the kit, two above the program rt.
fn kit() -> Option<PathBuf> {
    let found = Command::new("sh").args(["-c", "command -v rt"]).output().ok()?;
    let program = PathBuf::from(String::from_utf8(found.stdout).ok()?.trim());
    let program = program.canonicalize().ok()?;
    Some(program.parent()?.parent()?.to_path_buf())
}

fn fail(message: &str) -> ! {
    eprintln!("compare: {message}");
    exit(1)
}
