//! Finds the archive libzukemoriha.a and has it linked.
//!
//! It is looked for in `ZUKEMORIHA_LIB_DIR`, in the target folder of the repository that this
//! crate lies in, and where pkg-config says that it is installed.

use std::env;
use std::fs;
use std::path::{Path, PathBuf};
use std::process::{self, Command};

const ARCHIVE: &str = "libzukemoriha.a";
const VARIABLE: &str = "ZUKEMORIHA_LIB_DIR";

fn main() {
    for variable in [VARIABLE, "PKG_CONFIG_PATH", "PKG_CONFIG_LIBDIR"] {
        println!("cargo:rerun-if-env-changed={variable}");
    }
    match supported().and_then(|()| find()) {
        Ok(folder) => link(&folder),
        Err(message) => {
            eprintln!("{message}");
            process::exit(1);
        }
    }
}

/// Links a copy under a name of its own, so that no other folder's archive can take its place.
fn link(folder: &Path) {
    let archive = folder.join(ARCHIVE);
    let out = PathBuf::from(env::var_os("OUT_DIR").expect("cargo sets OUT_DIR"));
    fs::copy(&archive, out.join("libzukemoriha_archive.a")).expect("the archive can be copied");
    println!("cargo:rerun-if-changed={}", archive.display());
    println!("cargo:rustc-link-search=native={}", out.display());
    println!("cargo:rustc-link-lib=static=zukemoriha_archive");
}

/// The archive has code of one kind of machine.
fn supported() -> Result<(), String> {
    let target = env::var("TARGET").unwrap_or_default();
    if target.starts_with("x86_64-") && target.contains("-linux-") {
        Ok(())
    } else {
        Err(format!(
            "{ARCHIVE} is for x86-64 Linux, and not for {target}"
        ))
    }
}

fn find() -> Result<PathBuf, String> {
    // A folder that the user names is never passed over for another one.
    if let Some(folder) = env::var_os(VARIABLE).filter(|folder| !folder.is_empty()) {
        let folder = PathBuf::from(folder);
        let message = format!(
            "{VARIABLE} is {}, which has no {ARCHIVE}; a full path is safest",
            folder.display()
        );
        return holding(folder).ok_or(message);
    }
    in_repository().or_else(installed).ok_or_else(|| {
        format!(
            "{ARCHIVE} was not found. One of these helps:\n\
             - make archive, in the repository of Zukemoriha that this crate lies in\n\
             - make install there, and PKG_CONFIG_PATH for a prefix that pkg-config does not know\n\
             - {VARIABLE}, set to the folder that has {ARCHIVE}"
        )
    })
}

/// The folder, written out in full, if the archive is in it.
fn holding(folder: PathBuf) -> Option<PathBuf> {
    let there = folder.join(ARCHIVE).is_file();
    folder.canonicalize().ok().filter(|_| there)
}

/// Where `make archive` puts it.
fn in_repository() -> Option<PathBuf> {
    holding(Path::new(&env::var_os("CARGO_MANIFEST_DIR")?).join("../../target"))
}

/// Where `make install` has put it.
fn installed() -> Option<PathBuf> {
    let asked = Command::new("pkg-config")
        .args(["--variable=libdir", "zukemoriha"])
        .output();
    let said = String::from_utf8(asked.ok()?.stdout).ok()?;
    holding(PathBuf::from(said.trim()))
}
