//! As carried.c, over the crate.
use std::io::{Read, Write};

use pciguest::Machine;

fn main() -> Result<(), Box<dyn std::error::Error>> {
    let words: Vec<String> = std::env::args().collect();
    let mut machine = Machine::load(&words[2])?;
    if words[1] == "save" {
        for line in ["host move a 1 b 9", "b cw 9 0x3c 1 0x0b"] {
            eprintln!("{}", machine.run_line(line)?.unwrap_or_default());
        }
        std::io::stdout().write_all(&machine.save_all()?)?;
        return Ok(());
    }
    let mut image = Vec::new();
    std::io::stdin().read_to_end(&mut image)?;
    machine.load_all(&image)?;
    for line in ["b cr 9 0x3c 1", "a cr 1 0 4"] {
        eprintln!("{}", machine.run_line(line)?.unwrap_or_default());
    }
    Ok(())
}
