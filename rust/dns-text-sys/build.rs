//! Finds the static library, in this order:
//!
//! 1. the file that `DNS_TEXT_LIB` names by an absolute path;
//! 2. `lib/TARGET/libdnstext.a` in this package;
//! 3. the library of this minor version that pkg-config finds, if the target is this machine;
//! 4. `out/libdnstext.a` at the top of the repository, which `make -C c` builds.
//!
//! Without it the crates can be checked and documented, and linking fails.
use std::path::{Path, PathBuf};
use std::process::Command;
use std::{env, fs};

/// The name under which the library is linked.
const NAME: &str = "dnstext";

/// What a build can do without a library.
const WAYS: &str = "set DNS_TEXT_LIB to the absolute path of a libdnstext.a; or put one into lib/TARGET of dns-text-sys; \
                    or install it for pkg-config; or run make -C c in the repository, which builds out/libdnstext.a";

fn main() {
    for name in [
        "DNS_TEXT_LIB",
        "PKG_CONFIG_PATH",
        "PKG_CONFIG_LIBDIR",
        "PATH",
    ] {
        println!("cargo:rerun-if-env-changed={name}");
    }
    let library = named().or_else(packaged).or_else(installed).or_else(built);
    let name = match library {
        Some(library) => link_from(&library),
        None => {
            println!("cargo:warning=there is no libdnstext.a, and nothing can be linked: {WAYS}");
            // (the error of linking has the name of the library)
            format!("{NAME} ({WAYS})").replace([':', '='], "")
        }
    };
    println!("cargo:rustc-link-lib=static={name}");
}

/// Returns the folder of this package.
fn package() -> PathBuf {
    PathBuf::from(env::var_os("CARGO_MANIFEST_DIR").unwrap_or_default())
}

/// Returns the file that the variable names. One that is missing is not replaced by another.
fn named() -> Option<PathBuf> {
    let path = PathBuf::from(env::var_os("DNS_TEXT_LIB")?);
    if !path.is_file() {
        println!(
            "cargo:warning=DNS_TEXT_LIB names no file: {}",
            path.display()
        );
        println!("cargo:rerun-if-changed={}", path.display());
    }
    Some(path)
}

/// Returns the archive in this package.
fn packaged() -> Option<PathBuf> {
    let folder = package().join("lib");
    let target = env::var_os("TARGET")?;
    Some(folder.join(target).join(format!("lib{NAME}.a"))).filter(|path| path.is_file())
}

/// Returns the archive that pkg-config finds, of the minor version of this package.
fn installed() -> Option<PathBuf> {
    if env::var_os("TARGET") != env::var_os("HOST") {
        return None;
    }
    let number = |name: &str| env::var(name).ok()?.parse::<u32>().ok();
    let major = number("CARGO_PKG_VERSION_MAJOR")?;
    let minor = number("CARGO_PKG_VERSION_MINOR")?;
    let found = Command::new("pkg-config")
        .args(["--libs-only-L", NAME])
        .arg(format!("{NAME} >= {major}.{minor}"))
        .arg(format!("{NAME} < {major}.{}", minor + 1))
        // (so that it also prints /usr/lib)
        .env("PKG_CONFIG_ALLOW_SYSTEM_LIBS", "1")
        .output()
        .ok()?;
    let words = String::from_utf8(found.stdout).ok()?;
    let folders = words
        .split_whitespace()
        .filter_map(|word| word.strip_prefix("-L"));
    folders
        .map(|folder| Path::new(folder).join(format!("lib{NAME}.a")))
        .find(|path| found.status.success() && path.is_file())
}

/// Returns the archive that `make -C c` builds, if this package is in its repository.
fn built() -> Option<PathBuf> {
    let top = package().join("../..");
    if !top.join("c/include/dnstext.h").is_file() {
        return None;
    }
    let folder = top.join("out");
    let library = folder.join(format!("lib{NAME}.a"));
    if !library.is_file() {
        // Run this again once the library is there. A file that is missing would have cargo compile the crates anew
        // at each call; its folder has not.
        let _ = fs::create_dir(&folder);
        println!("cargo:rerun-if-changed={}", folder.display());
        return None;
    }
    Some(library)
}

/// Passes the library's folder to cargo, and returns the name under which it is linked.
fn link_from(library: &Path) -> String {
    let library = library
        .canonicalize()
        .unwrap_or_else(|_| library.to_path_buf());
    println!("cargo:rerun-if-changed={}", library.display());
    let folder = library.parent().unwrap_or(Path::new("/"));
    println!("cargo:rustc-link-search=native={}", folder.display());
    let stem = library.file_stem().unwrap_or_default().to_string_lossy();
    stem.strip_prefix("lib").unwrap_or(&stem).to_string()
}
