//! `VARMINTFOIL_LIB_DIR` names the folder that the archive is linked from.

use std::path::Path;
use std::process::{Command, Output};

/// Builds and runs the example in a target folder of its own, over the archive of a folder.
fn run_example(folder: &Path) -> Output {
    Command::new(env!("CARGO"))
        .args(["run", "--offline", "--quiet", "--example", "card", "--target-dir"])
        .arg(Path::new(env!("CARGO_TARGET_TMPDIR")).join("archive-folder-target"))
        .current_dir(env!("CARGO_MANIFEST_DIR"))
        .env("VARMINTFOIL_LIB_DIR", folder)
        .output()
        .unwrap()
}

#[test]
fn the_folder() {
    let folder = Path::new(env!("CARGO_TARGET_TMPDIR")).join("archive folder");
    std::fs::create_dir_all(&folder).unwrap();
    let archive = folder.join("libvarmintfoil.a");
    std::fs::copy(env!("VARMINTFOIL_ARCHIVE"), &archive).unwrap();
    let run = run_example(&folder);
    assert_eq!(String::from_utf8_lossy(&run.stdout), "mended 3, payload [a5]\n", "{}", String::from_utf8_lossy(&run.stderr));
    std::fs::remove_file(&archive).unwrap();
    let run = run_example(&folder);
    assert!(!run.status.success());
    let message = String::from_utf8_lossy(&run.stderr).into_owned();
    assert!(message.contains(&format!("The proved library {} is not there", archive.display())), "{message}");
}
