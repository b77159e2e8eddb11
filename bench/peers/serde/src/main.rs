// Lays out a JSON text with four spaces a level. Numerals and the order of members are kept; the tree is freed.
use serde::Serialize;
use serde_json::{ser::PrettyFormatter, Serializer, Value};
use std::io::{BufWriter, Write};

fn main() -> Result<(), Box<dyn std::error::Error>> {
    let name = std::env::args().nth(1).ok_or("no file")?;
    let bytes = std::fs::read(name)?;
    let value: Value = serde_json::from_slice(&bytes)?;
    drop(bytes);
    let mut out = BufWriter::with_capacity(65536, std::io::stdout().lock());
    value.serialize(&mut Serializer::with_formatter(&mut out, PrettyFormatter::with_indent(b"    ")))?;
    out.write_all(b"\n")?;
    out.flush()?;
    Ok(())
}
