//! Finds the proved library: in the folder that ZHITOMRAK_LIB names, in target/staticlib of the repository, where `rust/library`
//! writes it, or where pkg-config knows it. In the repository it is made, if it is missing and the Rattle toolchain is not. Where there
//! is none nothing is linked: `cargo check` and `cargo doc` do without it.

use std::env;
use std::path::{Path, PathBuf};
use std::process::Command;

const LIBRARY: &str = "libzhitomrak.a";

/// A folder as the user wrote it: from where cargo was called, or from this package.
fn named(folder: PathBuf) -> PathBuf {
    let from_here = env::var_os("PWD").map(|here| Path::new(&here).join(&folder));
    from_here
        .filter(|path| path.join(LIBRARY).exists())
        .or_else(|| folder.canonicalize().ok())
        .unwrap_or(folder)
}

/// Where pkg-config says that one of this version is.
fn installed() -> Option<PathBuf> {
    let pkg_config = || Command::new(env::var_os("PKG_CONFIG").unwrap_or("pkg-config".into()));
    let version = concat!("zhitomrak = ", env!("CARGO_PKG_VERSION"));
    if !pkg_config()
        .args(["--exists", version])
        .status()
        .ok()?
        .success()
    {
        return None;
    }
    let told = pkg_config()
        .args(["--variable=libdir", "zhitomrak"])
        .output()
        .ok()?;
    let folder = PathBuf::from(String::from_utf8(told.stdout).ok()?.trim());
    folder.join(LIBRARY).exists().then_some(folder)
}

/// target/staticlib of the repository that this package stands in, where it stands in one.
fn repository() -> Option<PathBuf> {
    let root = Path::new(env!("CARGO_MANIFEST_DIR"))
        .join("../..")
        .canonicalize()
        .ok()?;
    root.join("crates.txt").exists().then_some(root)
}

/// Proves and makes the library in the repository.
fn make(root: &Path) {
    println!("cargo:warning=proves and makes {LIBRARY}: that takes some minutes");
    let made = Command::new(root.join("rust/library")).output();
    if !made.is_ok_and(|told| told.status.success()) {
        println!("cargo:warning=`rust/library` failed in the repository");
    }
}

fn find() -> Option<PathBuf> {
    if let Some(folder) = env::var_os("ZHITOMRAK_LIB") {
        let folder = named(folder.into());
        if !folder.join(LIBRARY).exists() {
            println!(
                "cargo:warning=ZHITOMRAK_LIB: there is no {LIBRARY} in {}",
                folder.display()
            );
            return None;
        }
        return Some(folder);
    }
    if let Some(root) = repository() {
        let folder = root.join("target/staticlib");
        if !folder.join(LIBRARY).exists() && Command::new("rt").arg("doc").output().is_ok() {
            make(&root);
        }
        if folder.join(LIBRARY).exists() {
            return Some(folder);
        }
    }
    installed()
}

fn main() {
    println!("cargo:rerun-if-env-changed=ZHITOMRAK_LIB");
    println!("cargo:rerun-if-env-changed=PKG_CONFIG");
    println!("cargo:rerun-if-env-changed=PKG_CONFIG_PATH");
    println!("cargo:rerun-if-changed=build.rs");
    match find() {
        Some(folder) => {
            println!(
                "cargo:rerun-if-changed={}",
                folder.join(LIBRARY).display()
            );
            println!("cargo:rustc-link-search=native={}", folder.display());
            println!("cargo:rustc-link-lib=static=zhitomrak");
        }
        None => println!(
            "cargo:warning={LIBRARY} is not there, so nothing can be linked: run `rust/library` in the \
             repository, install it (`make install`), or name its folder in ZHITOMRAK_LIB"
        ),
    }
}
