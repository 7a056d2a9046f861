//! Checks each line of standard input, and writes what is wrong with it as fields between tabs: validate <FILE.jsonl
use vbson::{encode, Error, LineReader, Options};

/// Returns the number of bytes of a line's document, in which no key is duplicated.
fn checked(line: &[u8]) -> Result<usize, Error> {
    let strict = Options { reject_duplicate_keys: true, ..Options::default() };
    Ok(encode(strict, line)?.len())
}

fn main() -> Result<(), Error> {
    let mut lines = LineReader::new(std::io::stdin());
    while let Some(line) = lines.read() {
        let found = checked(line?);
        let number = lines.number();
        match found {
            Ok(length) => println!("{number}\tok\t{length}"),
            Err(error) => {
                let (code, column) = (error.code().unwrap_or(0), error.column().unwrap_or(0));
                println!("{number}\twrong\t{code}\t{}\t{column}\t{}", error.path(), error.reason());
            }
        }
    }
    Ok(())
}
