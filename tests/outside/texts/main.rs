//! Runs the compile program, which is named by the argument, on the samples, on every text of tests/texts and on every byte alone and behind a
//! program, and compares what it prints with the line. Then on a few texts that come in pieces.

use independent::samples::bal;
use independent::stored::{self, Case};
use std::io::Write;
use std::process::{Command, Stdio};
use std::time::Duration;

/// What the program writes when this text comes to its standard input, in pieces of at most so many bytes.
fn printed(program: &str, text: &[u8], piece: usize) -> Result<Vec<u8>, String> {
    let mut child = Command::new(program)
        .stdin(Stdio::piped())
        .stdout(Stdio::piped())
        .spawn()
        .map_err(|error| format!("{program}: {error}"))?;
    let mut input = child.stdin.take().expect("a pipe");
    for part in text.chunks(piece) {
        // a program that knows enough may stop reading
        if input.write_all(part).is_err() {
            break;
        }
        if piece < text.len() {
            std::thread::sleep(Duration::from_millis(2));
        }
    }
    drop(input);
    let output = child.wait_with_output().map_err(|error| error.to_string())?;
    if !output.status.success() {
        return Err(format!("{program} ended with {}", output.status));
    }
    Ok(output.stdout)
}

/// What is wrong with a case, if anything.
fn wrong(program: &str, case: &Case, piece: usize) -> Option<String> {
    match printed(program, &case.text, piece) {
        Err(what) => Some(format!("{}: {what}", case.name)),
        Ok(output) if output == format!("{}\n", case.line).as_bytes() => None,
        Ok(output) => Some(format!("{}: '{}' and not '{}'", case.name, output.escape_ascii(), case.line)),
    }
}

/// Texts for a pipe that gives a few bytes at a time, as a slow writer does.
fn in_pieces() -> Vec<Case> {
    let bal = bal();
    let long = format!("{bal}{}", " ".repeat(4_097 - bal.len()));
    let case = |name: &str, line: &str, text: &str| Case { name: name.into(), line: line.into(), text: text.into() };
    vec![
        case("BAL in pieces", "ok 14 19 192", &bal),
        case("4,096 bytes in pieces", "ok 14 19 192", &long[..4_096]),
        case("4,097 bytes in pieces", "no 1 0", &long),
    ]
}

fn run(program: &str) -> Result<usize, String> {
    let mut cases = stored::cases(stored::FOLDER)?;
    cases.extend(stored::bytes());
    let slow = in_pieces();
    let whole = cases.iter().filter_map(|case| wrong(program, case, case.text.len().max(1)));
    let pieces = slow.iter().filter_map(|case| wrong(program, case, case.text.len().div_ceil(10)));
    let wrong: Vec<String> = whole.chain(pieces).collect();
    if wrong.is_empty() {
        Ok(cases.len() + slow.len())
    } else {
        Err(wrong.join("\n"))
    }
}

fn main() {
    let program = std::env::args().nth(1).expect("the program's path");
    match run(&program) {
        Ok(n) => println!("the compile program's line: {n} texts"),
        Err(what) => {
            println!("{what}");
            std::process::exit(1);
        }
    }
}
