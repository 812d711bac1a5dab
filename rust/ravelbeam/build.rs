//! Finds libravelbeam.a, the archive of the calls, for the target, and links it into the crate.
//!
//! Where there is none, `cargo check` and `cargo doc` do without it: this only warns, with the command that
//! helps, and rustc ends what needs the archive.

use std::env;
use std::path::Path;

fn main() {
    println!("cargo::rerun-if-env-changed=RAVELBEAM_LIB_DIR");
    let cargo = |name: &str| env::var(name).unwrap_or_else(|_| panic!("cargo sets {name}"));
    let machine = cargo("CARGO_CFG_TARGET_ARCH");
    if cargo("CARGO_CFG_TARGET_POINTER_WIDTH") != "64" {
        println!("cargo::error=ravelbeam is for targets of 64 bits, and {machine} is not one");
        return;
    }

    // In the repository: the folder of the target's archive, and the command that makes it.
    let (folder, command): (String, String) = match (&cargo("CARGO_CFG_TARGET_OS")[..], &machine[..]) {
        ("none", _) => (format!("target/kernel/{machine}"), "tools/kernel".into()),
        (_, "x86_64") => ("target/staticlib".into(), "tools/archive".into()),
        _ => (format!("target/native/{machine}"), format!("tools/native {machine}")),
    };
    // The crate is in rust/ravelbeam of the repository. A relative folder is one from where cargo runs, as
    // the shell says; this program itself runs in the crate's folder.
    let crate_folder = cargo("CARGO_MANIFEST_DIR");
    let folder = match env::var("RAVELBEAM_LIB_DIR") {
        Ok(named) => {
            println!("cargo::rerun-if-env-changed=PWD");
            Path::new(&env::var("PWD").unwrap_or(crate_folder)).join(named)
        }
        Err(_) => Path::new(&crate_folder).ancestors().nth(2).unwrap_or(Path::new("/")).join(folder),
    };
    let archive = folder.join("libravelbeam.a");
    println!("cargo::rerun-if-changed={}", archive.display());
    if !archive.is_file() {
        println!("cargo::warning=there is no {}, which {machine} needs to be linked", archive.display());
        println!(
            "cargo::warning=run {command} in the repository, or set RAVELBEAM_LIB_DIR to the archive's folder"
        );
    }
    println!("cargo::rustc-link-search=native={}", folder.display());
    println!("cargo::rustc-link-lib=static=ravelbeam");
}
