//! Writes the large orders of a dump as lines of Extended JSON, in the memory of a document: stream LEAST <IN.bson
use std::io::{stdin, stdout};
use vbson::{DumpReader, Error, LineWriter, Mode, PathElement};

fn copy(least: f64) -> Result<(), Error> {
    let mut orders = DumpReader::new(stdin());
    let mut lines = LineWriter::new(Mode::Relaxed, stdout());
    while let Some(order) = orders.read() {
        let order = order?;
        let total = order.get("total").and_then(|it| it.as_f64());
        if total.is_some_and(|it| it >= least) {
            lines.write(order)?;
        }
    }
    lines.finish().map(drop)
}

fn main() {
    let least = std::env::args().nth(1).and_then(|it| it.parse().ok()).expect("stream LEAST <IN.bson");
    if let Err(error) = copy(least) {
        match (error.path().first(), error.offset()) {
            (Some(PathElement::Index(index)), Some(at)) => eprintln!("document {}: {} at byte {at}", index + 1, error.reason()),
            _ => eprintln!("{error}"),
        }
        std::process::exit(1);
    }
}
