//! Document 01's samples, read from the file tests/samples, which says how they are written; and the errors that a volunteer would
//! make, each on a rule where it shows.

use crate::judge::Verdict;
use std::ops::RangeInclusive;

/// What stands before a body.
pub const H: &str = "alphabet=['a'];decr_on_zero=false;twoc(string)";

/// A sample, and what document 01 says of it.
pub struct Sample {
    pub name: &'static str,
    pub text: String,
    /// The compile program's line; for some rules document 01 gives it only in part.
    pub line: &'static str,
    pub image: Option<Vec<u8>>,
    /// Rows by their number.
    pub rows: Vec<(usize, Vec<u8>)>,
    pub judged: Vec<Judged>,
}

pub struct Judged {
    pub word: &'static str,
    pub limits: RangeInclusive<usize>,
    pub verdict: Verdict,
    /// How many situations are reached, where document 01 says it.
    pub count: Option<usize>,
}

fn whole(written: &str) -> String {
    if let Some(body) = written.strip_prefix('H') {
        return format!("{H}{body}");
    }
    match written.strip_prefix('T') {
        Some(body) => format!("{}{body}", H.replace("false", "true")),
        None => written.into(),
    }
}

fn bytes(hex: &str) -> Vec<u8> {
    let digits: Vec<u32> = hex.chars().filter_map(|c| c.to_digit(16)).collect();
    digits.chunks(2).map(|pair| (pair[0] * 16 + pair[1]) as u8).collect()
}

/// A word, a limit, a verdict and perhaps a count.
fn judged(said: &'static str) -> Judged {
    let (word, rest) = said.split_once(' ').expect("a word");
    let (limit, rest) = rest.split_once(' ').expect("a limit");
    let (verdict, count) = match rest.rsplit_once(' ').map(|(v, n)| (v, n.parse())) {
        Some((verdict, Ok(count))) => (verdict, Some(count)),
        _ => (rest, None),
    };
    Judged {
        word: if word == "-" { "" } else { word },
        limits: limit.parse().map_or(0..=31, |l| l..=l),
        verdict: match verdict {
            "yes" => Verdict::Yes,
            "no" => Verdict::No,
            "limit met" => Verdict::LimitMet,
            other => panic!("the verdict {other}"),
        },
        count,
    }
}

/// Every sample.
pub fn samples() -> Vec<Sample> {
    let mut samples: Vec<Sample> = Vec::new();
    for line in include_str!("../samples").lines().filter(|l| !l.is_empty() && !l.starts_with('#')) {
        let (what, said) = line.trim_start_matches('*').split_once(' ').unwrap_or((line, ""));
        if what == "rule" {
            let (name, text) = said.split_once(' ').unwrap_or((said, ""));
            samples.push(Sample { name, text: whole(text), line: "", image: None, rows: Vec::new(), judged: Vec::new() });
            continue;
        }
        let sample = samples.last_mut().expect("a rule first");
        match what {
            "line" => sample.line = said,
            "image" => sample.image = Some(bytes(said)),
            "row" => {
                let (number, row) = said.split_once(' ').expect("a row's number");
                sample.rows.push((number.parse().expect("a row's number"), bytes(row)));
            }
            "word" => sample.judged.push(judged(said)),
            // the line says as much
            "has" | "*compiles" => {}
            other => panic!("tests/samples: a line that starts with {other}"),
        }
    }
    samples
}

/// Those that compile.
pub fn rules() -> Vec<Sample> {
    samples().into_iter().filter(|s| s.line.starts_with("ok")).collect()
}

/// Those that are refused.
pub fn refused() -> Vec<Sample> {
    samples().into_iter().filter(|s| s.line.starts_with("no")).collect()
}

/// The rule that accepts balanced borrows and returns.
pub fn bal() -> String {
    samples().into_iter().find(|s| s.name == "bal").expect("BAL").text
}

/// A rule, a word and a limit on which an error that a volunteer would make in building this shows, with the right verdict.
pub struct Shows {
    /// The error, in document 01's words.
    pub error: &'static str,
    pub text: String,
    pub word: &'static str,
    pub limit: usize,
    pub verdict: Verdict,
}

/// Document 01's errors that a volunteer would make in building this.
pub fn errors() -> Vec<Shows> {
    let of = |error| move |body: &str, word, limit, verdict| Shows { error, text: format!("{H}{body}"), word, limit, verdict };
    let another_letter = of("taking `read != 'a'` to mean another letter, so that a run dies on a mark");
    let no_too_soon = of("saying no as soon as one run passes the limit, though another accepts");
    let end_accepts = of("making an accepting state of the end of the program, so that an empty record passes");
    vec![
        another_letter("{if(read!='a'){accept;}}", "", 0, Verdict::Yes),
        another_letter("{if(read!='a'){accept;}}", "a", 0, Verdict::Yes),
        another_letter("{goto(rend);if(read!='a'){accept;}}", "aa", 0, Verdict::Yes),
        another_letter("{move(1);if(read!='a'){accept;}}", "a", 0, Verdict::No),
        no_too_soon("{branch{c++;}also{accept;}}", "", 0, Verdict::Yes),
        no_too_soon("{branch{accept;}also{c++;}}", "", 0, Verdict::Yes),
        no_too_soon("{while choose{c+=31;}accept;}", "a", 30, Verdict::Yes),
        no_too_soon("{branch{c++;}also{}}", "", 0, Verdict::LimitMet),
        end_accepts("{}", "", 0, Verdict::No),
        end_accepts("{}", "a", 31, Verdict::No),
        end_accepts("{c++;c--;}", "", 31, Verdict::No),
        end_accepts("{while(read!=rend){move(1);}}", "aaa", 0, Verdict::No),
    ]
}

#[cfg(test)]
mod tests {
    use super::*;
    use crate::compile::{compile, line};
    use crate::image::{encode, row_bytes};
    use crate::interpret::interpret;
    use crate::judge::{check, judge, MARKS};
    use crate::rule::read;

    fn image(text: &str) -> Vec<u8> {
        encode(&compile(text.as_bytes(), 8_246).unwrap())
    }

    #[test]
    fn lines() {
        assert_eq!(H.len(), 46);
        assert_eq!((rules().len(), refused().len()), (12, 6));
        for sample in samples() {
            assert_eq!(line(sample.text.as_bytes()), sample.line, "{}", sample.name);
        }
    }

    #[test]
    fn bytes_of_images_and_rows() {
        let (mut images, mut seen) = (0, 0);
        for sample in rules() {
            if let Some(expected) = &sample.image {
                assert_eq!(image(&sample.text), *expected, "{}", sample.name);
                images += 1;
            }
            let rows = compile(sample.text.as_bytes(), 8_246).unwrap().rows;
            for (number, expected) in &sample.rows {
                assert_eq!(row_bytes(&rows[*number]).to_vec(), *expected, "{}", sample.name);
                assert!(image(&sample.text).ends_with(expected));
                seen += 1;
            }
        }
        assert_eq!((images, seen), (1, 1));
    }

    #[test]
    fn verdicts_and_counts() {
        for sample in rules() {
            let image = image(&sample.text);
            assert_eq!(check(&image), 1);
            for said in &sample.judged {
                let what = format!("{} on '{}'", sample.name, said.word);
                for limit in said.limits.clone() {
                    let mut marks = vec![0xA5; MARKS];
                    let answer = judge(&image, said.word.as_bytes(), limit as u64, &mut marks);
                    assert_eq!(answer / 1_000_000, said.verdict as u64, "{what} at {limit}");
                    if let Some(count) = said.count {
                        assert_eq!(answer % 1_000_000, count as u64, "{what} at {limit}");
                    }
                    let ones: u32 = marks[..MARKS / 2].iter().map(|b| b.count_ones()).sum();
                    assert_eq!(answer % 1_000_000, u64::from(ones));
                    assert!(marks[MARKS / 2..].iter().all(|b| *b == 0));
                    let program = read(sample.text.as_bytes()).unwrap();
                    assert_eq!(interpret(&program, said.word.as_bytes(), limit), said.verdict);
                }
            }
        }
    }

    #[test]
    fn refusals_of_the_judge_in_order() {
        let good = image(&bal());
        let mut marks = vec![0x5A; MARKS + 1];
        let long = [b'u'; 63];
        let mut ask = |image: &[u8], word: &[u8], limit: u64, length: usize| {
            let answer = judge(image, word, limit, &mut marks[..length]);
            assert!(marks.iter().all(|b| *b == 0x5A));
            answer
        };
        assert_eq!(ask(&good[1..], &long, 32, 1), 21_000_000);
        assert_eq!(ask(&good, &long, 32, 1), 22_000_000);
        assert_eq!(ask(&good, b"urxy", 32, 1), 23_000_002);
        assert_eq!(ask(&good, b"ur", 32, 1), 24_000_000);
        assert_eq!(ask(&good, b"ur", u64::MAX, 1), 24_000_000);
        for length in [0, 1, MARKS - 1, MARKS + 1] {
            assert_eq!(ask(&good, b"ur", 31, length), 25_000_000);
        }
    }

    #[test]
    fn errors_of_a_volunteer() {
        for shows in errors() {
            let program = read(shows.text.as_bytes()).unwrap();
            let verdict = interpret(&program, shows.word.as_bytes(), shows.limit);
            assert_eq!(verdict, shows.verdict, "{}: {} on '{}'", shows.error, shows.text, shows.word);
        }
    }
}
