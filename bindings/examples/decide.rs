//! Reads a sheet from standard input, decides it, and prints how few and how many deliveries each slot can hold, or the ring.
//!
//!     cargo run --release --example decide < SHEET

use std::io::Read;
use tugrokt::{Decision, Sheet};

fn main() -> std::io::Result<()> {
    let mut text = Vec::new();
    // One byte more than the longest text is enough to have a longer one refused.
    std::io::stdin().lock().take(tugrokt::MAX_BYTES as u64 + 1).read_to_end(&mut text)?;
    match Sheet::read(&text).and_then(|sheet| Ok((sheet.span, sheet.decide()?))) {
        Err(refusal) => println!("{refusal}"),
        Ok((_, Decision::None { ring })) => ring.iter().for_each(|boundary| println!("boundary {boundary}")),
        Ok((span, Decision::Fits(counts))) => {
            for slot in 1..=span {
                let (least, greatest) = counts.range(slot, slot);
                println!("slot {slot}: {least} to {greatest}");
            }
        }
    }
    Ok(())
}
