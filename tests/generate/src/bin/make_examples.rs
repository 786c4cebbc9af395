//! Writes the tables of the folder `examples` and prints the listing of each.
//!
//! make_examples FOLDER

use std::path::PathBuf;

fn main() -> std::io::Result<()> {
    let folder = PathBuf::from(std::env::args().nth(1).unwrap_or("examples".into()));
    for (name, table) in generate::examples() {
        std::fs::write(folder.join(name), &table)?;
        println!("{name}, {} bytes", table.len());
        println!("{}", String::from_utf8_lossy(&independent::listing(&table)));
    }
    Ok(())
}
