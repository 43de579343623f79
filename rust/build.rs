//! Links the archive of proved functions that `scripts/archive` writes. `SPATZENHERD_ARCHIVE` names another folder that holds `libc_api.a`.
//! The kit's version, for `vtt --version`, is what `rt version` prints.
use std::env;
use std::path::PathBuf;
use std::process::Command;

fn main() {
    println!("cargo:rerun-if-env-changed=SPATZENHERD_ARCHIVE");
    let package = PathBuf::from(env::var("CARGO_MANIFEST_DIR").expect("cargo names the package's folder"));
    let folder = env::var_os("SPATZENHERD_ARCHIVE").map_or_else(|| package.join("../target/staticlib"), PathBuf::from);
    let archive = folder.join("libc_api.a");
    println!("cargo:rerun-if-changed={}", archive.display());
    assert!(archive.is_file(), "{} is missing: run `scripts/archive` in the folder above this package", archive.display());
    println!("cargo:rustc-link-search=native={}", folder.display());
    println!("cargo:rustc-link-lib=static=c_api");
    println!("cargo:rustc-env=SPATZENHERD_KIT={}", kit().unwrap_or("a kit that is not known".into()));
}

fn kit() -> Option<String> {
    let output = Command::new("rt").arg("version").output().ok().filter(|output| output.status.success())?;
    String::from_utf8(output.stdout).ok()?.lines().next().map(str::to_string)
}
