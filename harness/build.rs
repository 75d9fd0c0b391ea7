//! Links the archives under test, that of the stream only where it exists, and libfec and
//! another revision's archive only where their features are asked for. Maker and reader are
//! called only where the archive has them.

use std::{
    env,
    path::{Path, PathBuf},
    process::Command,
};

fn main() {
    let manifest = env::var("CARGO_MANIFEST_DIR").expect("cargo names the manifest's folder");
    println!("cargo:rerun-if-env-changed=AZTEC_LIB_DIR");
    let aztec = archive(&manifest, "aztec_c");
    println!("cargo:rustc-link-lib=static=aztec_c");
    for function in ["aztec_encode", "aztec_decode"] {
        println!("cargo:rustc-check-cfg=cfg({function})");
        if defines(&aztec, function) {
            println!("cargo:rustc-cfg={function}");
        }
    }
    let stream = archive(&manifest, "stream_c");
    println!("cargo:rustc-check-cfg=cfg(stream_c)");
    if stream.exists() {
        println!("cargo:rustc-cfg=stream_c");
        println!("cargo:rustc-link-lib=static=stream_c");
    }
    if env::var_os("CARGO_FEATURE_LIBFEC").is_some() {
        println!("cargo:rustc-link-lib=fec");
    }
    if env::var_os("CARGO_FEATURE_REVISIONS").is_some() {
        link_before();
    }
}

/// The archive of a crate, in the folder that AZTEC_LIB_DIR names, or else where `rt lib` writes it.
fn archive(manifest: &str, name: &str) -> PathBuf {
    let folder = env::var("AZTEC_LIB_DIR").unwrap_or_else(|_| format!("../crates/{name}/out"));
    let folder = Path::new(manifest).join(folder);
    let archive = folder.join(format!("lib{name}.a"));
    println!("cargo:rerun-if-changed={}", archive.display());
    println!("cargo:rustc-link-search=native={}", folder.display());
    archive
}

/// The archive of another revision, each of its names with `before_` in front.
fn link_before() {
    println!("cargo:rerun-if-env-changed=AZTEC_BEFORE_DIR");
    let folder = env::var("AZTEC_BEFORE_DIR").expect("AZTEC_BEFORE_DIR names the archive's folder");
    let archive = Path::new(&folder).join("libaztec_before.a");
    println!("cargo:rerun-if-changed={}", archive.display());
    println!("cargo:rustc-link-search=native={folder}");
    println!("cargo:rustc-link-lib=static=aztec_before");
}

/// Whether an archive defines a function, by `nm`, which comes with the linker.
fn defines(archive: &Path, function: &str) -> bool {
    let listed = Command::new("nm")
        .args(["--extern-only", "--defined-only"])
        .arg(archive)
        .output()
        .expect("nm can be run");
    let line_end = format!(" T {function}");
    let lines = String::from_utf8_lossy(&listed.stdout);
    lines.lines().any(|line| line.ends_with(&line_end))
}
