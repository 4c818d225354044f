//! Finds libbeamtassel.a: in the folder that BEAMTASSEL_LIB names, or in the repository's target/staticlib.
use std::env;
use std::path::PathBuf;
use std::process::exit;

/// One sentence, and no more: cargo fails for it by itself.
fn stop(why: &str) -> ! {
    println!("cargo::error={why}");
    exit(0)
}

fn main() {
    println!("cargo:rerun-if-env-changed=BEAMTASSEL_LIB");
    let target = |name: &str| env::var(name).unwrap_or_default();
    if target("CARGO_CFG_TARGET_ARCH") != "x86_64" || target("CARGO_CFG_TARGET_OS") != "linux" {
        stop("libbeamtassel.a is for x86-64 Linux, and this build is for another machine");
    }
    let folder = match env::var_os("BEAMTASSEL_LIB") {
        Some(folder) => PathBuf::from(folder),
        None => PathBuf::from(env::var_os("CARGO_MANIFEST_DIR").expect("cargo sets it")).join("../../target/staticlib"),
    };
    let archive = folder.join("libbeamtassel.a");
    if !archive.is_file() {
        stop(&format!(
            "{} is not there: run `tools/proved beamtassel_c` at the repository's root, or set BEAMTASSEL_LIB to the folder that holds it",
            archive.display()
        ));
    }
    println!("cargo:rerun-if-changed={}", archive.display());
    println!("cargo:rustc-link-search=native={}", folder.display());
    println!("cargo:rustc-link-lib=static=beamtassel");
}
