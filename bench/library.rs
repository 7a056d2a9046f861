//! Times calls of the Rust package, with the words and the answers of library.c: `small ROUNDS`, `whole ROUNDS < FILE`.
use std::io::{self, Read};
use std::time::Instant;

const SMALL: &str = concat!(
    r#"{"_id":{"$oid":"53e37d08776f724e42000000"},"n":-12345,"name":"xxxxxxxx","#,
    r#""ok":true,"tags":["a","b","c"]}"#
);

fn seconds_of(text: &[u8]) -> f64 {
    let start = Instant::now();
    let converted = vbson::convert_with(vbson::Mode::Canonical, vbson::Options::SPECIFIED, text).expect("the text has a meaning");
    drop(converted);
    start.elapsed().as_secs_f64()
}

fn main() {
    let words: Vec<String> = std::env::args().collect();
    let rounds: u32 = words[2].parse().expect("a number of rounds");
    if words[1] == "small" {
        let start = Instant::now();
        for _ in 0..rounds {
            seconds_of(SMALL.as_bytes());
        }
        println!("{:.0}", start.elapsed().as_secs_f64() * 1e9 / f64::from(rounds));
    } else {
        let mut text = Vec::new();
        io::stdin().read_to_end(&mut text).expect("standard input is read");
        let all: Vec<f64> = (0..rounds).map(|_| seconds_of(&text)).collect();
        println!("{} {}", all[0], all.iter().copied().fold(f64::INFINITY, f64::min));
    }
}
