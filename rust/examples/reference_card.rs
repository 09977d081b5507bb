//! The card program of the reference implementation: `VARMINTFOIL_CARD` may name it, to try the card test without the proved program.

#[path = "../others/reference.rs"]
mod reference;

use std::io::{Read, Write};

fn main() -> std::io::Result<()> {
    let mut input = Vec::new();
    std::io::stdin().take(65_537).read_to_end(&mut input)?;
    let mut output = std::io::stdout();
    if output.write_all(&reference::card(&input)).and_then(|()| output.flush()).is_err() {
        eprintln!("card: not all of the answer could be written");
    }
    Ok(())
}
