//! Decodes one message to a train, encodes it again, and prints both:
//! `cargo run --example message 1002800000005FFFFFE0`.

use rbc::codec::{read_to_train, write_to_train};
use std::error::Error;

fn main() -> Result<(), Box<dyn Error>> {
    let digits = std::env::args().nth(1).ok_or("usage: message HEX")?;
    if digits.len() % 2 != 0 || !digits.is_ascii() {
        return Err("pairs of hexadecimal digits are wanted".into());
    }
    let bytes = (0..digits.len())
        .step_by(2)
        .map(|at| u8::from_str_radix(&digits[at..at + 2], 16))
        .collect::<Result<Vec<u8>, _>>()?;
    let fields = read_to_train(&bytes)?;
    println!(
        "kind {} stamp {} ack {} lrbg {} count {}",
        fields.kind, fields.stamp, fields.ack, fields.lrbg, fields.count
    );
    for packet in &fields.packets[..fields.count as usize] {
        println!("{packet:?}");
    }
    let again = write_to_train(&fields).ok_or("no message has these fields")?;
    println!("{}", again.iter().map(|byte| format!("{byte:02X}")).collect::<String>());
    Ok(())
}
