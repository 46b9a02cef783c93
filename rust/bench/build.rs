//! Compiles the comparison with nanoflann where its header and a C++ compiler are there; `NANOFLANN` may name the folder.

use std::path::PathBuf;
use std::process::Command;
use std::{env, fs};

fn main() {
    println!("cargo:rustc-check-cfg=cfg(nanoflann)");
    println!("cargo:rerun-if-env-changed=NANOFLANN");
    println!("cargo:rerun-if-changed=src/nanoflann.cpp");
    let folder = env::var_os("NANOFLANN").map_or_else(|| PathBuf::from("/usr/include"), PathBuf::from);
    if fs::metadata(folder.join("nanoflann.hpp")).is_err() {
        return;
    }
    let out = PathBuf::from(env::var_os("OUT_DIR").expect("set by Cargo"));
    let (object, library) = (out.join("nanoflann.o"), out.join("libnanoflannside.a"));
    let mut compiler = Command::new("c++");
    compiler.args(["-O3", "-std=c++17", "-fPIC", "-c", "src/nanoflann.cpp", "-I"]).arg(&folder).arg("-o").arg(&object);
    let compiled = compiler.status().is_ok_and(|status| status.success());
    if compiled
        && Command::new("ar").arg("rcs").arg(&library).arg(&object).status().is_ok_and(|status| status.success())
    {
        println!("cargo:rustc-cfg=nanoflann");
        println!("cargo:rustc-link-search=native={}", out.display());
        println!("cargo:rustc-link-lib=static=nanoflannside");
        println!("cargo:rustc-link-lib=stdc++");
    }
}
