//! Runs the worked example of document 01: the package at 0, its field at 20 octal, five turns.

use tozhenab::{run_program, CentralRecord};

fn main() {
    let mut memory = [0u64; 0o100];
    memory[1] = 0o20 << 36; // RA
    memory[2] = 4 << 36; // FL
    memory[0o20] = 0o71600000055160000003; // X6 = 5, A6 = 3; the next word stops

    match run_program(&mut memory, &CentralRecord::default(), 0, 5) {
        Err(refusal) => println!("refused={}", refusal.number()),
        Ok(ran) => {
            println!("turns={:o}", ran.turns);
            println!("stop={}", ran.stop);
            for (address, word) in memory.iter().enumerate().filter(|(_, &word)| word != 0) {
                println!("{address:o}={word:020o}");
            }
        }
    }
}
