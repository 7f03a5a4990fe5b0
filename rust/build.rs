//! Finds the library for C, in this order: the assembly that PCAPFILE_ASSEMBLY names, which calls.rs includes; libpcapfile.a in
//! the folder that PCAPFILE_LIB_DIR names; that of this version that pkg-config finds. Otherwise it compiles pcapfile.c, beside
//! this file or in portable/ of a checkout.

use std::env;
use std::path::{Path, PathBuf};
use std::process::Command;

fn main() {
    println!("cargo:rustc-check-cfg=cfg(pcapfile_assembly)");
    for name in ["PCAPFILE_ASSEMBLY", "PCAPFILE_LIB_DIR", "PKG_CONFIG", "PKG_CONFIG_PATH", "PKG_CONFIG_LIBDIR"] {
        println!("cargo:rerun-if-env-changed={name}");
    }
    if let Some(file) = env::var_os("PCAPFILE_ASSEMBLY") {
        take_assembly(Path::new(&file));
    } else {
        let named = env::var_os("PCAPFILE_LIB_DIR").map(PathBuf::from);
        let folder = named.or_else(installed).unwrap_or_else(compiled);
        let library = folder.join("libpcapfile.a");
        println!("cargo:rerun-if-changed={}", library.display());
        assert!(library.exists(), "there is no {}", library.display());
        println!("cargo:rustc-link-search=native={}", folder.display());
        println!("cargo:rustc-link-lib=static=pcapfile");
    }
}

fn take_assembly(file: &Path) {
    let file = file.canonicalize().unwrap_or_else(|error| panic!("PCAPFILE_ASSEMBLY names {}: {error}", file.display()));
    println!("cargo:rerun-if-changed={}", file.display());
    println!("cargo:rustc-env=PCAPFILE_ASSEMBLY_FILE={}", file.display());
    println!("cargo:rustc-cfg=pcapfile_assembly");
}

/// Returns the folder of the installed library. Another version may have other structures.
fn installed() -> Option<PathBuf> {
    let wanted = concat!("pcapfile = ", env!("CARGO_PKG_VERSION"));
    let pkg_config = env::var_os("PKG_CONFIG").unwrap_or_else(|| "pkg-config".into());
    let told = Command::new(pkg_config).args(["--variable=libdir", wanted]).output().ok()?;
    let folder = String::from_utf8(told.stdout).ok()?;
    (told.status.success() && !folder.trim().is_empty()).then(|| PathBuf::from(folder.trim()))
}

/// Returns the library as one C file: beside this file in a packed crate, or in portable/ of a checkout.
fn c_form() -> PathBuf {
    let folder = Path::new(env!("CARGO_MANIFEST_DIR"));
    let beside = folder.join("pcapfile.c");
    if beside.exists() { beside } else { folder.join("../portable/pcapfile.c") }
}

/// Returns the folder of the library that a C compiler makes from pcapfile.c.
fn compiled() -> PathBuf {
    let source = c_form();
    println!("cargo:rerun-if-changed={}", source.display());
    let others = "PCAPFILE_LIB_DIR names a folder with libpcapfile.a, and PCAPFILE_ASSEMBLY a file of assembly";
    assert!(source.exists(), "pkg-config finds no pcapfile {}, and there is no {}: {others}", env!("CARGO_PKG_VERSION"), source.display());
    let target = |name| env::var(name).unwrap_or_default();
    if target("CARGO_CFG_TARGET_POINTER_WIDTH") != "64" || target("CARGO_CFG_TARGET_ENDIAN") != "little" {
        panic!("pcapfile.c needs 64 bits and the low byte first, and the target is {}", target("TARGET"));
    }
    let folder = PathBuf::from(target("OUT_DIR"));
    let object = folder.join("pcapfile.o");
    run(tool("CC", "cc").args(["-std=gnu11", "-O2", "-fPIC", "-w", "-c"]).arg(&source).arg("-o").arg(&object), others);
    run(tool("AR", "ar").arg("crs").arg(folder.join("libpcapfile.a")).arg(&object), others);
    folder
}

/// Returns the command and its first words from a variable, such as CC, or from one with the target after it, such as
/// CC_x86_64_unknown_linux_gnu.
fn tool(name: &str, usual: &str) -> Command {
    let of_target = format!("{name}_{}", env::var("TARGET").unwrap_or_default().replace('-', "_"));
    let mut found = usual.to_owned();
    for variable in [name, &of_target] {
        println!("cargo:rerun-if-env-changed={variable}");
        found = env::var(variable).unwrap_or(found);
    }
    let mut words = found.split_whitespace();
    let mut command = Command::new(words.next().unwrap_or(usual));
    command.args(words);
    command
}

fn run(command: &mut Command, others: &str) {
    match command.status() {
        Ok(status) if status.success() => {}
        told => panic!("{:?}, which makes the library of pcapfile.c, ends with {told:?}: CC and AR name others, {others}", command.get_program()),
    }
}
