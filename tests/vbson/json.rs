//! Answers lines `FORM HEX` of standard input by values of `serde_json`: the text becomes a value in the form, and that a
//! text again. Of each the status and the bytes of the text are written, or of the words of the error.
use std::io::{stdin, BufRead};
use vbson::json::{from_text, to_text, Form};
use vbson::{Error, Options, Text};

fn main() {
    for line in stdin().lock().lines() {
        let line = line.expect("standard input has lines");
        let (form, digits) = line.split_once(' ').expect("a line has a form and digits");
        let form = if form == "canonical" { Form::Canonical } else { Form::Relaxed };
        let (status, left) = match there_and_back(form, &bytes_of(digits)) {
            Ok(text) => (0, text.as_bytes().to_vec()),
            Err(error) => (1, error.to_string().into_bytes()),
        };
        println!("{status} {}", left.iter().map(|it| format!("{it:02x}")).collect::<String>());
    }
}

fn there_and_back(form: Form, text: &[u8]) -> Result<Text, Error> {
    let options = Options::default();
    to_text(form, options, &from_text(form, options, text)?)
}

fn bytes_of(digits: &str) -> Vec<u8> {
    (0..digits.len() / 2).map(|i| u8::from_str_radix(&digits[2 * i..2 * i + 2], 16).expect("digits")).collect()
}
