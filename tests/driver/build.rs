//! Builds the plain C version, and links the real engine where a feature asks for it.

use std::env;
use std::path::{Path, PathBuf};
use std::process::Command;

fn main() {
    plain();
    engine("CARGO_FEATURE_ENGINE_MODEM", "modem");
    engine("CARGO_FEATURE_ENGINE_HOST", "host");
    engine("CARGO_FEATURE_ENGINE_TURN", "turn");
}

fn run(command: &mut Command) {
    let status = command.status().unwrap_or_else(|error| panic!("{command:?}: {error}"));
    assert!(status.success(), "{command:?} failed");
}

fn plain() {
    let manifest = PathBuf::from(env::var_os("CARGO_MANIFEST_DIR").expect("set by cargo"));
    let out = PathBuf::from(env::var_os("OUT_DIR").expect("set by cargo"));
    let bench = manifest.join("../../bench");
    for file in ["plain.c", "plain.h", "rules.h", "sheet.h", "sizes.h", "store.h", "text.h"] {
        println!("cargo:rerun-if-changed={}", bench.join(file).display());
    }
    let (object, archive) = (out.join("plain.o"), out.join("libplain.a"));
    let compiler = env::var("CC").unwrap_or_else(|_| "cc".into());
    run(Command::new(compiler)
        .args(["-O2", "-std=c11", "-Wall", "-Wextra", "-Werror", "-fPIC", "-c"])
        .arg(bench.join("plain.c"))
        .arg("-o")
        .arg(&object));
    let _ = std::fs::remove_file(&archive);
    run(Command::new("ar").arg("crs").arg(&archive).arg(&object));
    link(&out, "plain");
}

fn engine(feature: &str, library: &str) {
    println!("cargo:rerun-if-env-changed=CABLE_QUEUE_LIB");
    if env::var_os(feature).is_none() {
        return;
    }
    let folder = env::var("CABLE_QUEUE_LIB").expect("CABLE_QUEUE_LIB names the folder of the static libraries");
    println!("cargo:rerun-if-changed={folder}/lib{library}.a");
    link(Path::new(&folder), library);
}

fn link(folder: &Path, library: &str) {
    println!("cargo:rustc-link-search=native={}", folder.display());
    println!("cargo:rustc-link-lib=static={library}");
}
