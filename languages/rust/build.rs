// Links libvbson.a from the folder that VBSON_LIB names, else from ../out/lib, where ./vbson build puts it, or from
// ../../../lib, which is beside this package where it is installed.
use std::env;
use std::path::Path;

fn main() {
    println!("cargo:rerun-if-env-changed=VBSON_LIB");
    let here = env!("CARGO_MANIFEST_DIR");
    let near = ["../out/lib", "../../../lib"].map(|it| format!("{here}/{it}"));
    let found = near.iter().find(|it| Path::new(it).join("libvbson.a").exists());
    let folder = env::var("VBSON_LIB").unwrap_or_else(|_| found.unwrap_or(&near[0]).clone());
    let archive = Path::new(&folder).join("libvbson.a");
    println!("cargo:rerun-if-changed={}", archive.display());
    if !archive.exists() {
        panic!("there is no {}: run ./vbson build, or name the archive's folder in VBSON_LIB", archive.display());
    }
    println!("cargo:rustc-link-search=native={folder}");
    println!("cargo:rustc-link-lib=static=vbson");
}
