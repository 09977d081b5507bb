//! The README's worked card: written, damaged and read back.

use varmintfoil::{decode, encode, Refusal, Shape};

fn main() -> Result<(), Refusal> {
    let shape = Shape::new(5, 5, 1, 3)?;
    let mut field = encode(&shape, &[0xa5])?;
    for cell in [12, 13, 17] {
        field[cell] ^= 1;
    }
    let read = decode(&shape, &field)?;
    println!("mended {}, payload {:02x?}", read.mended, read.payload);
    Ok(())
}
