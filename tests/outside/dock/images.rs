//! Writes images.h: the images of document 01's sample rules as C arrays, by the independent compiler.

use independent::compile::{compile, IMAGE};
use independent::{image, samples};

fn main() {
    println!("/* Images of document 01's sample rules. Made by images.rs; not to be changed by hand. */");
    println!("#ifndef IMAGES_H\n#define IMAGES_H\n\n#include <stdint.h>");
    for rule in samples::rules() {
        let table = compile(rule.text.as_bytes(), IMAGE).expect("a sample compiles");
        let bytes = image::encode(&table);
        println!("\n/* {} */", rule.text);
        println!("static const uint8_t image_{}[{}] = {{", rule.name, bytes.len());
        for line in bytes.chunks(16) {
            let numbers: Vec<String> = line.iter().map(|b| format!("0x{b:02X}")).collect();
            println!("    {},", numbers.join(", "));
        }
        println!("}};");
    }
    println!("\n#endif");
}
