//! The card program from end to end: a process that is started with a card on its standard input.

use crate::contest::random_bytes;
use crate::turns::contest;
use std::fmt::Write;
use std::fs::File;
use std::path::{Path, PathBuf};
use std::process::Command;
use varmintfoil::Shape;

/// The card program that `VARMINTFOIL_CARD` names, or the one that `rt run --cpu x86-64` leaves in crates/card, if it is there.
fn card_program() -> Option<PathBuf> {
    let package = Path::new(env!("CARGO_MANIFEST_DIR"));
    let program = match std::env::var_os("VARMINTFOIL_CARD") {
        Some(named) => package.join(named),
        None => package.parent()?.join("crates/card/out/card"),
    };
    program.is_file().then_some(program)
}

/// Runs a program with a file on its standard input, and gives what it writes.
fn run(program: &Path, input: &Path) -> String {
    let output = Command::new(program).stdin(File::open(input).unwrap()).output().unwrap();
    assert!(output.status.success());
    String::from_utf8(output.stdout).unwrap()
}

/// Prints the times of a card of 128 by 128 at t = 8, written and read, and of a process that does nothing.
pub fn print() {
    let Some(card) = card_program() else {
        println!("The card program is left out: it is not there (`rt run --cpu x86-64` in crates/card).");
        return;
    };
    let shape = Shape::new(128, 128, 1, 8).unwrap();
    let head = "columns=128\nrows=128\nplanes=1\nstrength=8\n";
    let mut payload = String::from("payload=");
    for byte in random_bytes(shape.payload_bytes()) {
        write!(payload, "{byte:02x}").unwrap();
    }
    payload.push('\n');
    let folder = std::env::temp_dir().join(format!("varmintfoil-bench-{}", std::process::id()));
    std::fs::create_dir_all(&folder).unwrap();
    let (to_write, to_read) = (folder.join("write"), folder.join("read"));
    std::fs::write(&to_write, format!("{head}{payload}")).unwrap();
    let written = run(&card, &to_write).replace("classes=32\n", "");
    std::fs::write(&to_read, &written).unwrap();
    assert_eq!(run(&card, &to_read), format!("{head}mended=0\n{payload}"));

    let nothing = Path::new("/bin/true");
    let standings = contest([
        Some(Box::new(|| drop(run(&card, &to_write)))),
        Some(Box::new(|| drop(run(&card, &to_read)))),
        Some(Box::new(|| drop(run(nothing, &to_read)))),
    ]);
    println!("The card program, from start to end, 128 x 128 at t = 8, in microseconds:");
    for (what, standing) in ["a card written", "a card read", "a process that does nothing"].into_iter().zip(standings) {
        println!("{what:<28} {:>8.0}", standing.unwrap().time / 1000.0);
    }
    std::fs::remove_dir_all(&folder).unwrap();
}
