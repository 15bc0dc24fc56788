//! Writes the image of the rule on standard input, as the independent compiler makes it, to standard output.
use std::io::{Read, Write};

fn main() {
    let mut text = Vec::new();
    std::io::stdin().read_to_end(&mut text).expect("standard input can be read");
    match independent::compile::compile(&text, 8246) {
        Ok(table) => std::io::stdout().write_all(&independent::image::encode(&table)).expect("standard output can be written"),
        Err(_) => std::process::exit(1),
    }
}
