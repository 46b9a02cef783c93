//! Links musl's `acosf` where MUSL_ACOSF names the folder that holds it (the script `run` makes it).

fn main() {
    println!("cargo:rerun-if-env-changed=MUSL_ACOSF");
    println!("cargo:rustc-check-cfg=cfg(musl)");
    if let Ok(folder) = std::env::var("MUSL_ACOSF") {
        println!("cargo:rerun-if-changed={folder}/libmusl_acosf.a");
        println!("cargo:rustc-link-search=native={folder}");
        println!("cargo:rustc-link-lib=static=musl_acosf");
        println!("cargo:rustc-cfg=musl");
    }
}
