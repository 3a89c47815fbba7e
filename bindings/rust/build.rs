//! Links the static library from the directory UM_LIB, from a directory of dist/ of the repository, or from one of lib/ of a packed crate.
use std::{
    env,
    path::Path,
    process::{exit, Command},
};

fn main() {
    println!("cargo:rerun-if-env-changed=UM_LIB");
    let target = env::var("TARGET").expect("cargo names the target");
    let system = env::var("CARGO_CFG_TARGET_OS").unwrap_or_default();
    // the library needs only memcpy, memmove and memset, so one archive for Linux per processor works with every C library, and without one
    let system = if system == "none" { "linux".to_owned() } else { system };
    let arch = match target.split('-').next().unwrap_or_default() {
        "aarch64" if system == "macos" => "arm64",
        // `make build` names its folders as the system names these machines
        "riscv64gc" => "riscv64",
        "powerpc64le" => "ppc64le",
        "mips64el" => "mips64",
        arch => arch,
    };
    let here = env::var("CARGO_MANIFEST_DIR").expect("cargo names the crate's folder");
    let folder = env::var("UM_LIB").unwrap_or_else(|_| {
        let packed = format!("{here}/lib/{arch}-{system}");
        let released = format!("{here}/../../dist/{arch}-{system}");
        // `make crate` copies the libraries of dist/ to lib/; in the repository such a copy can be older than dist/
        let is_packed = !Path::new(&released).join("libum.a").exists() && Path::new(&packed).exists();
        if is_packed { packed } else { released }
    });
    // in the directory for Windows, um.lib is for um.dll
    let is_msvc = target.ends_with("-msvc");
    let library = |name: &str| if is_msvc { format!("{folder}/{name}.lib") } else { format!("{folder}/lib{name}.a") };
    let name = ["um_static", "um", "um_c"].into_iter().find(|name| Path::new(&library(name)).exists()).unwrap_or_else(|| {
        eprintln!(
            "um: no static library for {target} in {folder}.\n\
             A release has it in dist/ for x86_64-linux, aarch64-linux, x86_64-windows, x86_64-macos and arm64-macos. In the repository,\n\
             `make build` builds it there for other machines with clang. Set UM_LIB to another directory that contains it."
        );
        exit(1);
    });
    println!("cargo:rerun-if-changed={}", library(name));
    println!("cargo:rustc-check-cfg=cfg(um_core_error)");
    if has_core_error() {
        println!("cargo:rustc-cfg=um_core_error");
    }
    println!("cargo:rustc-link-search=native={folder}");
    println!("cargo:rustc-link-lib=static={name}");
}

/// Whether core has the trait Error, as from Rust 1.81 on.
fn has_core_error() -> bool {
    let compiler = env::var_os("RUSTC").unwrap_or_else(|| "rustc".into());
    let said = Command::new(compiler).arg("--version").output().map_or_else(|_| Vec::new(), |output| output.stdout);
    let said = String::from_utf8_lossy(&said);
    let minor = said.strip_prefix("rustc 1.").and_then(|rest| rest.split('.').next()?.parse().ok());
    minor.map_or(true, |minor: u32| minor >= 81)
}
