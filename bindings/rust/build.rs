//! Links the proved member, libjolunza.a: out of the folder `JOLUNZA_LIB` where that is set, else out of the first of the folders below
//! that contains it, else from where the system's linker looks.

use std::env;
use std::path::{Path, PathBuf};

/// From this crate on: what bindings/build.sh makes, the library of the repository, and the one that lies in this crate's package.
const FOLDERS: [&str; 3] = ["../out", "../prebuilt/x86_64-linux-gnu", "prebuilt/x86_64-linux-gnu"];

fn main() {
    println!("cargo::rerun-if-env-changed=JOLUNZA_LIB");
    let target = ["ARCH", "OS", "ENV"].map(|part| env::var(format!("CARGO_CFG_TARGET_{part}")).unwrap_or_default());
    if target != ["x86_64", "linux", "gnu"] {
        println!(
            "cargo::error=libjolunza.a is for Linux on x86-64 with glibc, and this target is {}",
            target.join("-")
        );
        return;
    }
    let here = PathBuf::from(env::var_os("CARGO_MANIFEST_DIR").expect("cargo sets it"));
    match env::var_os("JOLUNZA_LIB") {
        // cargo is called in another folder than this one, and a relative JOLUNZA_LIB starts from there
        Some(folder) => link_out_of(Path::new(&folder)),
        None => link_out_of_the_first(&FOLDERS.map(|folder| here.join(folder))),
    }
}

fn link_out_of(folder: &Path) {
    if !has_archive(folder) {
        println!("cargo::error=there is no libjolunza.a in {}, which JOLUNZA_LIB names", folder.display());
    }
    link_static(folder);
}

fn link_out_of_the_first(folders: &[PathBuf]) {
    // each is asked, since a change of any of them may change which one is linked
    let found: Vec<&PathBuf> = folders.iter().filter(|folder| has_archive(folder)).collect();
    match found.first() {
        Some(folder) => link_static(folder),
        None => println!("cargo::rustc-link-lib=jolunza"),
    }
}

/// Cargo runs this again where the folder changes. A folder that is not there is not named: cargo would run this each time.
fn has_archive(folder: &Path) -> bool {
    if folder.is_dir() {
        println!("cargo::rerun-if-changed={}", folder.display());
    }
    folder.join("libjolunza.a").is_file()
}

fn link_static(folder: &Path) {
    println!("cargo::rustc-link-search=native={}", folder.display());
    println!("cargo::rustc-link-lib=static=jolunza");
}
