//! The texts of tests/samples and tests/texts with their lines, and every byte alone and behind a program with the line worked out. What a text is
//! written in is said in tests/texts/README.md.

use crate::samples::{samples, H};
use std::path::Path;

pub struct Case {
    /// The file and the name, for a message.
    pub name: String,
    /// What the compile program prints of the text, without the line feed.
    pub line: String,
    pub text: Vec<u8>,
}

/// The folder, for a program that runs in the repository's own folder.
pub const FOLDER: &str = "tests/texts";

/// The samples, and every case of every file there.
pub fn cases(folder: &str) -> Result<Vec<Case>, String> {
    let mut files: Vec<_> = std::fs::read_dir(folder)
        .map_err(|error| format!("{folder}: {error}"))?
        .map(|entry| entry.expect("the folder can be read").path())
        .filter(|path| path.extension().is_some_and(|end| end == "texts"))
        .collect();
    files.sort();
    let mut cases: Vec<Case> = samples()
        .into_iter()
        .map(|s| Case { name: format!("the sample {}", s.name), line: s.line.into(), text: s.text.into() })
        .collect();
    for file in files {
        cases.extend(cases_of(&file)?);
    }
    Ok(cases)
}

fn cases_of(file: &Path) -> Result<Vec<Case>, String> {
    let stored = std::fs::read_to_string(file).map_err(|error| format!("{}: {error}", file.display()))?;
    let mut cases = Vec::new();
    for (i, entry) in stored.lines().enumerate() {
        if entry.is_empty() || entry.starts_with("# ") {
            continue;
        }
        let case = case(entry).map_err(|what| format!("{}:{}: {what}", file.display(), i + 1))?;
        let name = format!("{}:{}: {}", file.display(), i + 1, case.name);
        cases.push(Case { name, ..case });
    }
    Ok(cases)
}

/// `name | line | text`
fn case(entry: &str) -> Result<Case, String> {
    let (before, text) = split_at_line(entry).ok_or("no line of the compile program between two ` | `")?;
    let (name, line) = before.rsplit_once(" | ").ok_or("no name")?;
    Ok(Case { name: name.into(), line: line.into(), text: expand(text.trim())? })
}

/// What stands before and behind the bar that ends the line: the first one behind `| ok ` or `| no `, since a name may have
/// bars of its own.
fn split_at_line(entry: &str) -> Option<(&str, &str)> {
    let line = [" | ok ", " | no "].iter().filter_map(|start| entry.find(start)).min()? + 3;
    let bar = line + entry[line..].find(" |")?;
    Some((&entry[..bar], &entry[bar + 2..]))
}

/// The bytes that a text is written for.
fn expand(written: &str) -> Result<Vec<u8>, String> {
    let mut text = Vec::new();
    let mut rest = written;
    while let Some(at) = rest.find('\\') {
        text.extend(rest[..at].bytes());
        rest = expand_one(&rest[at + 1..], &mut text)?;
    }
    text.extend(rest.bytes());
    Ok(text)
}

/// Adds what a backslash begins; what stands behind that.
fn expand_one<'r>(rest: &'r str, text: &mut Vec<u8>) -> Result<&'r str, String> {
    let first = rest.chars().next().ok_or("a backslash at the end")?;
    match first {
        'n' => text.push(b'\n'),
        'r' => text.push(b'\r'),
        't' => text.push(b'\t'),
        's' => text.push(b' '),
        'H' => text.extend(H.bytes()),
        'L' => text.extend(sixteen_letters().bytes()),
        'x' => {
            let digits = rest.get(1..3).ok_or("no two digits behind \\x")?;
            text.push(u8::from_str_radix(digits, 16).map_err(|_| format!("\\x{digits}"))?);
            return Ok(&rest[3..]);
        }
        '0'..='9' => {
            let (times, inside, behind) = repeated(rest)?;
            text.extend(expand(inside)?.repeat(times));
            return Ok(behind);
        }
        other => return Err(format!("a backslash before {other}")),
    }
    Ok(&rest[1..])
}

/// `'a','b'` up to `'p'`
pub fn sixteen_letters() -> String {
    (b'a'..=b'p').map(|l| format!("'{}'", l as char)).collect::<Vec<_>>().join(",")
}

/// `3<text>`, which may have others inside: the number, the text, and what stands behind it.
fn repeated(rest: &str) -> Result<(usize, &str, &str), String> {
    let opens = rest.find('<').ok_or("a number without <")?;
    let times = rest[..opens].parse().map_err(|_| format!("the number {}", &rest[..opens]))?;
    let mut open = 0;
    for (i, sign) in rest.char_indices() {
        match sign {
            '<' => open += 1,
            '>' => open -= 1,
            _ => {}
        }
        if sign == '>' && open == 0 {
            return Ok((times, &rest[opens + 1..i], &rest[i + 1..]));
        }
    }
    Err("no > behind <".into())
}

/// How a byte alone stands in document 01's text.
enum Stands {
    Blank,
    /// A token, or the first byte of one that is whole with it.
    Token,
    NoToken,
}

fn stands(byte: u8) -> Stands {
    match byte {
        b' ' | b'\t' | b'\n' | b'\r' => Stands::Blank,
        b'0'..=b'9' | b'A'..=b'Z' | b'a'..=b'z' | b'_' => Stands::Token,
        b'=' | b'!' | b'-' | b'(' | b')' | b'{' | b'}' | b'[' | b']' | b',' | b';' => Stands::Token,
        // among them + & | / and the quote, each of which needs more bytes
        _ => Stands::NoToken,
    }
}

/// Every byte as a text, and every byte behind a program.
pub fn bytes() -> Vec<Case> {
    let mut cases = Vec::new();
    for byte in 0..=255 {
        let (alone, behind) = match stands(byte) {
            Stands::Blank => ("no 4 1", "ok 1 0 39"),
            Stands::Token => ("no 4 0", "no 4 48"),
            Stands::NoToken => ("no 3 0", "no 3 48"),
        };
        cases.push(Case { name: format!("byte {byte} alone"), line: alone.into(), text: vec![byte] });
        let mut text = format!("{H}{{}}").into_bytes();
        text.push(byte);
        cases.push(Case { name: format!("byte {byte} behind a program"), line: behind.into(), text });
    }
    cases
}

#[cfg(test)]
mod tests {
    use super::*;
    use crate::compile;
    use std::collections::BTreeMap;

    /// So the lines are right, whatever the product prints.
    #[test]
    fn every_line_is_that_of_the_independent_compiler() {
        let stored = cases(FOLDER).unwrap();
        let wrong: Vec<String> = stored
            .iter()
            .chain(&bytes())
            .filter(|case| compile::line(&case.text) != case.line)
            .map(|case| format!("{}: {} and not {}", case.name, compile::line(&case.text), case.line))
            .collect();
        assert!(wrong.is_empty(), "{}", wrong.join("\n"));
    }

    #[test]
    fn every_refusal_is_stored_several_times() {
        let mut seen: BTreeMap<String, usize> = BTreeMap::new();
        for case in cases(FOLDER).unwrap() {
            let words: Vec<&str> = case.line.split(' ').collect();
            let key = if words[0] == "no" { words[1] } else { words[0] };
            *seen.entry(key.into()).or_default() += 1;
        }
        for key in ["ok", "1", "3", "4", "5", "6", "7", "8", "9", "10", "11"] {
            assert!(seen.get(key).is_some_and(|n| *n >= 5), "{key}: {seen:?}");
        }
    }

    #[test]
    fn what_is_written() {
        assert_eq!(expand("a\\3<x\\s>\\x41\\n").unwrap(), b"ax x x A\n");
        assert_eq!(expand("\\2<\\2<a>b>").unwrap(), b"aabaab");
        assert_eq!(expand("\\L").unwrap().len(), 63);
        assert!(expand("\\q").is_err() && expand("\\3x").is_err() && expand("\\3<x").is_err() && expand("\\").is_err());
        assert!(case("no name").is_err());
        let case = case("sign || | no 4 0 | ||").unwrap();
        assert_eq!((case.name.as_str(), case.line.as_str(), case.text.as_slice()), ("sign ||", "no 4 0", &b"||"[..]));
    }
}
