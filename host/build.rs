//! Finds the static library of the proved functions, and the program as a static library beside it (host/library writes
//! both, for x86-64). There the linker is told of them. Where this machine is another and they were brought to it, the
//! library is linked into far/far.c with the program's object file, and the host runs that under an emulator.

use std::env::{var, var_os};
use std::path::{Path, PathBuf};
use std::process::Command;

/// x86-64 and Arm as object files name them.
const X86_64: u16 = 0x3E;
const AARCH64: u16 = 0xB7;

/// The folder with the library: the variable TRAVELMAP_LIB where it is set, else target/host-lib.
fn folder() -> PathBuf {
    match var_os("TRAVELMAP_LIB") {
        Some(folder) => PathBuf::from(folder),
        None => PathBuf::from(var_os("CARGO_MANIFEST_DIR").expect("cargo sets it"))
            .join("../target/host-lib"),
    }
}

/// The machine that the first object file of the library was compiled for.
fn machine_of(library: &Path) -> Option<u16> {
    let bytes = std::fs::read(library).ok()?;
    let object = bytes.windows(4).position(|four| four == b"\x7fELF")?;
    let machine = bytes.get(object + 18..object + 20)?;
    Some(u16::from_le_bytes([machine[0], machine[1]]))
}

/// The machine that the host is compiled for.
fn machine_of_host() -> Option<u16> {
    match var("CARGO_CFG_TARGET_ARCH").as_deref() {
        Ok("x86_64") => Some(X86_64),
        Ok("aarch64") => Some(AARCH64),
        _ => None,
    }
}

/// The object file of the program as it was compiled, for x86-64.
fn far_program() -> PathBuf {
    folder().join("travel.o")
}

/// Compiles far.c for x86-64 and links the library and the program into it; answers where the result is.
fn build_far(library: &Path) -> PathBuf {
    let program = PathBuf::from(var_os("OUT_DIR").expect("cargo sets it")).join("far");
    let compiler = var_os("TRAVELMAP_CC").unwrap_or("clang".into());
    let done = Command::new(compiler)
        .args(["--target=x86_64-unknown-linux-gnu", "-O2", "-ffreestanding"])
        .args(["-fno-stack-protector", "-fno-pie", "-nostdlib", "-static"])
        .args(["-fuse-ld=lld", "-Wl,--whole-archive", "far/far.c"])
        .args([library, &far_program()])
        .arg("-o")
        .arg(&program)
        .status();
    assert!(
        done.is_ok_and(|status| status.success()),
        "the library is for x86-64, and clang could not link it and travel.o into far/far.c"
    );
    program
}

/// Says what else makes the host another one.
fn rerun(library: &Path) {
    println!("cargo:rerun-if-env-changed=TRAVELMAP_LIB");
    println!("cargo:rerun-if-env-changed=TRAVELMAP_CC");
    let program = folder().join("libtravel.a");
    for file in [library, &program, &far_program(), Path::new("far/far.c")] {
        println!("cargo:rerun-if-changed={}", file.display());
    }
}

/// Says how the library is called, and builds again when it is another one.
fn main() {
    let library = folder().join("libtravelmap.a");
    rerun(&library);
    println!("cargo:rustc-check-cfg=cfg(far)");
    println!("cargo:rustc-env=TRAVELMAP_A={}", library.display());
    let Some(machine) = machine_of(&library) else {
        panic!("{} is not there: run host/library first", library.display());
    };
    if machine == X86_64 && machine_of_host() != Some(X86_64) {
        println!("cargo:rustc-cfg=far");
        println!(
            "cargo:rustc-env=TRAVELMAP_FAR={}",
            build_far(&library).display()
        );
    } else {
        println!("cargo:rustc-link-search=native={}", folder().display());
    }
}
