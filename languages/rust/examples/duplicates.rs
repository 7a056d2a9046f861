//! Finds the lines of a file whose value an earlier line has, in whatever order of keys: duplicates FILE.jsonl
use std::collections::HashMap;
use vbson::{hash, same, LineReader, Options};

fn main() -> Result<(), Box<dyn std::error::Error>> {
    let path = std::env::args().nth(1).ok_or("duplicates FILE.jsonl")?;
    let mut lines = LineReader::new(std::fs::File::open(path)?);
    let mut lines_of: HashMap<u64, Vec<(u64, Vec<u8>)>> = HashMap::new();
    while let Some(line) = lines.read() {
        let line = line?.to_vec();
        let number = lines.number();
        // Few lines have one hash, and `same` compares them.
        let earlier = lines_of.entry(hash(Options::default(), &line)?).or_default();
        let mut first = None;
        for (it, text) in &*earlier {
            if first.is_none() && same(Options::default(), text, &line)? {
                first = Some(*it);
            }
        }
        match first {
            Some(it) => println!("line {number} has the value of line {it}"),
            None => earlier.push((number, line)),
        }
    }
    Ok(())
}
