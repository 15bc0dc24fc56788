//! The compile program by the independent implementation: reads a text from standard input and prints its line; with a word, it
//! writes the image to the file of that name. For working out what to expect of a text.

use independent::{compile, image};
use std::io::Read;

fn main() {
    let mut text = Vec::new();
    std::io::stdin().read_to_end(&mut text).expect("standard input can be read");
    println!("{}", compile::line(&text));
    if let (Some(path), Ok(table)) = (std::env::args().nth(1), compile::compile(&text, compile::IMAGE)) {
        std::fs::write(path, image::encode(&table)).expect("the image can be written");
    }
}
