//! Where the linker finds the library: in the folder that SUONGKIVAT_LIB_DIR names; else in target/lib of the project that this crate
//! stands in, since that is the crate's own version; else where pkg-config has one with the crate's first version number. It is linked
//! as an archive, or as a shared object where there is only that.
use std::path::{Path, PathBuf};
use std::process::{exit, Command};
use std::{env, str};

const NAMED: &str = "SUONGKIVAT_LIB_DIR";

/// How the library in a folder is linked; none where the folder hasn't it.
fn kind(folder: &Path) -> Option<&'static str> {
    let kinds = [("libsuongkivat.a", "static"), ("libsuongkivat.so", "dylib")];
    kinds.into_iter().find(|(file, _)| folder.join(file).is_file()).map(|(_, kind)| kind)
}

/// What pkg-config writes of the installed library, where it knows of one.
fn told(option: &str) -> Option<String> {
    let told = Command::new("pkg-config").args([option, "suongkivat"]).output().ok()?;
    let words = str::from_utf8(&told.stdout).ok()?.trim();
    (told.status.success() && !words.is_empty()).then(|| words.to_string())
}

/// Where it is installed. One with another first version number has the same calls over other structs, and would be linked unnoticed.
fn pkg_config() -> Option<PathBuf> {
    let version = told("--modversion")?;
    let same = version.split('.').next() == Some(env!("CARGO_PKG_VERSION_MAJOR"));
    told("--variable=libdir").filter(|_| same).map(PathBuf::from)
}

fn link(folder: &Path, kind: &str) {
    println!("cargo:rerun-if-changed={}", folder.display());
    println!("cargo:rustc-link-search=native={}", folder.display());
    println!("cargo:rustc-link-lib={kind}=suongkivat");
}

fn stop(why: &str) -> ! {
    eprintln!("suongkivat: {why}.");
    eprintln!("suongkivat: run tools/lib in the project's folder: it builds target/lib/libsuongkivat.a.");
    eprintln!("suongkivat: where this crate stands elsewhere, set {NAMED} to that target/lib.");
    exit(1)
}

fn main() {
    for name in [NAMED, "PKG_CONFIG_PATH", "PKG_CONFIG_LIBDIR"] {
        println!("cargo:rerun-if-env-changed={name}");
    }
    if let Some(folder) = env::var_os(NAMED).map(PathBuf::from) {
        // cargo runs this in the crate's folder, and not where the caller stands
        if folder.is_relative() {
            stop(&format!("{NAMED} is {}: give the whole path, from / on", folder.display()));
        }
        let Some(kind) = kind(&folder) else {
            stop(&format!("{NAMED} is {}, and no libsuongkivat.a is there", folder.display()))
        };
        return link(&folder, kind);
    }
    let own = Path::new(&env::var_os("CARGO_MANIFEST_DIR").expect("cargo sets it")).join("../../target/lib");
    for folder in [own].into_iter().chain(pkg_config()) {
        if let Some(kind) = kind(&folder) {
            return link(&folder, kind);
        }
    }
    let major = env!("CARGO_PKG_VERSION_MAJOR");
    stop(&format!("libsuongkivat.a isn't in the project's target/lib, and pkg-config knows of none of version {major}"))
}
