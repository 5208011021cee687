// Links libraudvisk.a, the archive of the proved calls: from the folder that RAUDVISK_ARCHIVES names, else from
// target/staticlib of the repository. Without it all is built nevertheless, since compare_bench and most tests need none;
// what calls it stops at its first call and says so.
use std::env;
use std::path::{Path, PathBuf};

fn main() {
    let package = env::var("CARGO_MANIFEST_DIR").expect("cargo sets CARGO_MANIFEST_DIR");
    let folder = match env::var_os("RAUDVISK_ARCHIVES") {
        Some(folder) => PathBuf::from(folder),
        None => Path::new(&package).join("../target/staticlib"),
    };
    let archive = folder.join("libraudvisk.a");
    println!("cargo:rerun-if-env-changed=RAUDVISK_ARCHIVES");
    // A new archive is linked anew, so that no run tests an old one.
    println!("cargo:rerun-if-changed={}", archive.display());
    println!("cargo:rustc-check-cfg=cfg(host_archive)");
    if archive.exists() {
        println!("cargo:rustc-cfg=host_archive");
        println!("cargo:rustc-link-search=native={}", folder.display());
        println!("cargo:rustc-link-lib=static=raudvisk");
    } else {
        let path = archive.display();
        println!("cargo:warning=no {path}: build it with host/archive");
    }
}
