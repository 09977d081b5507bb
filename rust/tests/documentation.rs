//! The package's documentation is made without a warning.

use std::path::Path;
use std::process::Command;

#[test]
fn no_warning() {
    let made = Command::new(env!("CARGO"))
        .args(["doc", "--no-deps", "--offline", "--target-dir"])
        .arg(Path::new(env!("CARGO_TARGET_TMPDIR")).join("documentation-target"))
        .current_dir(env!("CARGO_MANIFEST_DIR"))
        .env("RUSTDOCFLAGS", "-Dwarnings")
        .output()
        .unwrap();
    assert!(made.status.success(), "{}", String::from_utf8_lossy(&made.stderr));
}
