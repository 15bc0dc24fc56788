//! How long compiling takes: the office's archive beside the independent compiler, on texts of 4,096 bytes, in one run.
#[allow(dead_code)]
#[path = "../outside/product.rs"]
mod product;

use std::time::Instant;

const HEAD: &str = "alphabet=['a','b','c','d','e','f','g','h','i','j','k','l','m','n','o','p'];decr_on_zero=false;twoc(string)";

/// A text of 4,096 bytes: the head, the body, and a comment to fill it.
fn filled(body: &str) -> Vec<u8> {
    let mut text = format!("{HEAD}{body}//").into_bytes();
    assert!(text.len() <= 4096, "a body of {} bytes", body.len());
    text.resize(4096, b'x');
    text
}

/// The least time of one call, in microseconds, over as many calls as half a second allows.
fn least(mut call: impl FnMut()) -> f64 {
    let start = Instant::now();
    let mut least = f64::MAX;
    while start.elapsed().as_millis() < 500 {
        let one = Instant::now();
        call();
        least = least.min(one.elapsed().as_secs_f64() * 1e6);
    }
    least
}

fn main() {
    let tests: Vec<String> = (0..56).map(|i| format!("read!='{}'", (b'a' + i % 16) as char)).collect();
    let nested = (0..8).fold(String::from("c==0"), |inner, i| format!("(!{inner}{}c!=0)", if i % 2 == 0 { "&&" } else { "||" }));
    let cases = [
        ("a comment and an empty body", "{}".to_string()),
        ("127 statements", format!("{{{}}}", "move(-63);".repeat(127))),
        ("a condition of 56 read tests, 1,010 rows", format!("{{if({}){{accept;}}}}", tests.join("||"))),
        ("a condition 16 deep, twice", format!("{{while({nested}){{if({nested}){{}}}}}}")),
        ("blocks 16 deep", format!("{{{}{}}}", "while choose{".repeat(15), "}".repeat(15))),
        ("refused at its last byte", format!("{{{}", "c++;".repeat(120))),
    ];
    println!("{:>10} {:>12} {:>6}   text of 4,096 bytes", "product us", "plain us", "ratio");
    for (name, body) in cases {
        let text = filled(&body);
        let mut image = vec![0; 8246];
        let answer = product::compile(&text, &mut image);
        let expected = independent::compile::line(&text);
        assert_eq!(answer < 1_000_000, expected.starts_with("ok"), "{name}: {expected}");
        let ours = least(|| {
            product::compile(&text, &mut image);
        });
        let plain = least(|| {
            let _ = independent::compile::compile(&text, 8246).map(|t| independent::image::encode(&t));
        });
        println!("{ours:10.1} {plain:12.1} {:6.2}   {name}: {expected}", ours / plain);
    }
}
