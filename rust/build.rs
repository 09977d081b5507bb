//! Links the proved library, libvarmintfoil.a, from the folder that `VARMINTFOIL_LIB_DIR` names, or from crates/varmintfoil/out,
//! where `rt lib --cpu x86-64` writes it. Writes the text of the proved crates as Rust, for `others/same.rs`. Sets the condition
//! `liquid` where liquid-dsp can be linked, which the benchmark alone does.

#[path = "build/same.rs"]
mod same;

use std::path::Path;
use std::process::{Command, Stdio};

fn main() {
    println!("cargo:rerun-if-changed=build.rs");
    println!("cargo:rerun-if-changed=build/same.rs");
    println!("cargo:rustc-check-cfg=cfg(liquid)");
    let package = Path::new(env!("CARGO_MANIFEST_DIR"));
    let out = std::env::var_os("OUT_DIR").unwrap();
    same::write(&package.parent().unwrap().join("crates"), &Path::new(&out).join("same.rs"));
    if std::env::var_os("CARGO_FEATURE_ARCHIVE").is_none() {
        return;
    }
    println!("cargo:rerun-if-env-changed=VARMINTFOIL_LIB_DIR");
    let folder = match std::env::var_os("VARMINTFOIL_LIB_DIR") {
        Some(named) => package.join(named),
        None => package.parent().unwrap().join("crates/varmintfoil/out"),
    };
    let archive = folder.join("libvarmintfoil.a");
    println!("cargo:rerun-if-changed={}", archive.display());
    if !archive.is_file() {
        eprintln!("\nThe proved library {} is not there.", archive.display());
        eprintln!("Run `rt lib --cpu x86-64` in crates/varmintfoil, or name its folder in VARMINTFOIL_LIB_DIR.");
        eprintln!("Without it, `cargo test --release --no-default-features` still checks the reference implementation.\n");
        std::process::exit(1);
    }
    println!("cargo:rustc-link-search=native={}", folder.display());
    println!("cargo:rustc-link-lib=static=varmintfoil");
    println!("cargo:rustc-env=VARMINTFOIL_ARCHIVE={}", archive.display());
    if liquid_is_there(Path::new(&out)) {
        println!("cargo:rustc-cfg=liquid");
    }
}

/// Can a C program be linked with liquid-dsp?
fn liquid_is_there(folder: &Path) -> bool {
    let source = folder.join("liquid.c");
    std::fs::write(&source, "#include <liquid/liquid.h>\nint main(void) { return fec_create == 0; }\n").unwrap();
    let mut compiler = Command::new("cc");
    compiler.arg(&source).arg("-o").arg(folder.join("liquid")).arg("-lliquid");
    compiler.stdout(Stdio::null()).stderr(Stdio::null()).status().is_ok_and(|status| status.success())
}
