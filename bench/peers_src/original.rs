//! The original on a geometry, whose hex digits are a line of input: prints what is written of it, or `refused`.

use wkb::reader::read_wkb;
use wkb::writer::{write_geometry, WriteOptions};

fn bytes_of(hex: &str) -> Vec<u8> {
    let digits = |at: usize| u8::from_str_radix(&hex[at..at + 2], 16).expect("hex digits");
    (0..hex.len()).step_by(2).map(digits).collect()
}

/// The hex digits of what is written of a geometry, or that it is rejected.
fn written(bytes: &[u8]) -> String {
    let Ok(wkb) = read_wkb(bytes) else {
        return "refused".to_string();
    };
    let mut out = Vec::new();
    match write_geometry(&mut out, &wkb, &WriteOptions::default()) {
        Ok(()) => out.iter().map(|byte| format!("{byte:02x}")).collect(),
        Err(_) => "refused".to_string(),
    }
}

fn main() {
    let mut hex = String::new();
    std::io::stdin().read_line(&mut hex).expect("a line of hex digits");
    println!("{}", written(&bytes_of(hex.trim())));
}
