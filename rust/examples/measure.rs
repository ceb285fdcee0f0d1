//! Measures two blobs given in hexadecimal:
//!
//!     cargo run --example measure -- 01E9030000... 4750000100...
use std::env;
use std::error::Error;
use viskorrel::Measurer;

fn from_hex(text: &str) -> Result<Vec<u8>, Box<dyn Error>> {
    let digits: Option<Vec<u8>> = text.chars().map(|c| c.to_digit(16).map(|digit| digit as u8)).collect();
    match digits {
        Some(digits) if digits.len() % 2 == 0 => Ok(digits.chunks(2).map(|pair| pair[0] * 16 + pair[1]).collect()),
        _ => Err("a blob is given as an even number of hexadecimal digits".into()),
    }
}

fn to_hex(blob: Option<Vec<u8>>) -> String {
    blob.map_or("none".into(), |blob| blob.iter().map(|byte| format!("{byte:02X}")).collect())
}

fn number(value: Option<f64>) -> String {
    value.map_or("none".into(), |value| value.to_string())
}

fn main() -> Result<(), Box<dyn Error>> {
    let arguments: Vec<String> = env::args().skip(1).collect();
    let [a, b] = &arguments[..] else {
        return Err("two blobs are needed, in hexadecimal".into());
    };
    let (a, b) = (from_hex(a)?, from_hex(b)?);
    let mut measurer = Measurer::new();
    let mut measure = || -> Result<(), viskorrel::Refusal> {
        println!("distance      {}", number(measurer.st_3d_distance(&a, &b)?));
        println!("max distance  {}", number(measurer.st_3d_max_distance(&a, &b)?));
        println!("intersects    {}", measurer.st_3d_intersects(&a, &b)?);
        println!("closest point {}", to_hex(measurer.st_3d_closest_point(&a, &b)?));
        println!("shortest line {}", to_hex(measurer.st_3d_shortest_line(&a, &b)?));
        println!("longest line  {}", to_hex(measurer.st_3d_longest_line(&a, &b)?));
        Ok(())
    };
    measure().map_err(|refusal| refusal.to_string().into())
}
