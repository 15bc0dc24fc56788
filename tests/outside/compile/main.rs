//! Compares the office's archive with the independent compiler: answers, image bytes, and what must stay as it was; on samples,
//! stored texts, every small change of two rules, and random ones. Then the product's judge on the product's image with the
//! interpreter of programs, which uses no table.
//! SEED sets the seed, CASES the number of random texts, SECONDS_AT_MOST ends early.

use independent::compile::{compile, IMAGE};
use independent::fenced::{report_faults, Fenced, CASE};
use independent::interpret::interpret;
use independent::judge::{Verdict, MARKS};
use independent::random::{self, Random};
use independent::rule::Program;
use independent::{image, samples, stored, texts};
use std::sync::atomic::Ordering;
use std::time::{Duration, Instant};

#[path = "../product.rs"]
mod product;

/// A rule with every statement, condition and kind of blank.
const EVERYTHING: &str = "decr_on_zero = true ;\talphabet=['a','B','0'];//all\r\n twoc(string)\r{\
    move(1);move(-63);goto(lend);goto(rend);c++;c--;c+=31;c-=0;\
    if(read=='a'&&!(c==0||read!=rend)){accept;}else{reject;}\
    while(!read==lend||c!=0&&read!='0'){}while choose{move(0);}\
    branch{}also{c++;}also{}\n} // end";

/// Room for a text; one stored text is longer, for the compile program's own test.
const TEXT: usize = 65_536;

struct Test {
    text: Fenced,
    image: Fenced,
    expected: Vec<u8>,
    marks: Vec<u8>,
    /// Texts compiled, and refused by number.
    compiled: usize,
    refused: [usize; 12],
    /// Verdicts 1 to 3.
    verdicts: [usize; 4],
}

impl Test {
    /// Compiles a text with both into a buffer of this length; the image if there is one.
    fn compile(&mut self, text: &[u8], length: usize) -> Result<Option<Vec<u8>>, String> {
        let count = CASE.fetch_add(1, Ordering::Relaxed);
        // the buffer lies now against the page before it, now against the one behind; the room keeps what the last case left
        let start = self.image.offset(length, count % 3 != 0);
        if count % 16 == 0 {
            self.image.all().fill(count as u8);
        }
        self.expected.copy_from_slice(self.image.view());
        let text_slice = self.text.place(text, count % 4 != 0);
        let buffer = &mut self.image.all()[start..start + length];
        let answer = product::compile(text_slice, buffer);
        let (should, bytes) = match compile(text, length) {
            Err(refusal) => {
                self.refused[refusal.number as usize] += 1;
                (refusal.answer(), None)
            }
            Ok(table) => {
                self.compiled += 1;
                let bytes = image::encode(&table);
                self.expected[start..start + bytes.len()].copy_from_slice(&bytes);
                (bytes.len() as u64, Some(bytes))
            }
        };
        let shown = || format!("a buffer of {length} and the text\n{}", text.escape_ascii());
        if answer != should {
            return Err(format!("compile gives {answer}, not {should}, for {}", shown()));
        }
        if self.image.view() != self.expected {
            let at = (0..self.expected.len()).find(|&i| self.image.view()[i] != self.expected[i]).unwrap();
            let (is, expected) = (self.image.view()[at], self.expected[at]);
            let at = at as i64 - start as i64;
            return Err(format!("answer {answer}, image byte {at} is {is:#x}, not {expected:#x}, for {}", shown()));
        }
        if text_slice != text {
            return Err(format!("the text was changed, for {}", shown()));
        }
        Ok(bytes)
    }

    /// The verdict of the product's judge on an image that the product made.
    fn judge(&mut self, image: &[u8], word: &[u8], limit: usize) -> u64 {
        product::judge(image, word, limit as u64, &mut self.marks) / 1_000_000
    }

    /// Holds a program to the interpreter on one word at one limit.
    fn agree(&mut self, program: &Program, image: &[u8], word: &[u8], limit: usize) -> Result<(), String> {
        let verdict = self.judge(image, word, limit);
        let should = interpret(program, word, limit) as u64;
        if verdict != should {
            let word = word.escape_ascii();
            return Err(format!("verdict {verdict}, the interpreter says {should}, word '{word}', limit {limit}, {program:?}"));
        }
        self.verdicts[verdict as usize] += 1;
        Ok(())
    }

    /// The samples: what document 01 says of their verdicts.
    fn samples(&mut self) -> Result<(), String> {
        for sample in samples::refused() {
            self.compile(sample.text.as_bytes(), IMAGE)?;
        }
        for sample in samples::rules() {
            let image = self.compile(sample.text.as_bytes(), IMAGE)?.ok_or("a sample was refused")?;
            for said in &sample.judged {
                for limit in said.limits.clone() {
                    if self.judge(&image, said.word.as_bytes(), limit) != said.verdict as u64 {
                        return Err(format!("the sample {} on '{}' at limit {limit}", sample.name, said.word));
                    }
                }
            }
        }
        Ok(())
    }

    /// The errors that a volunteer would make, each on the rules that show it.
    fn errors(&mut self) -> Result<(), String> {
        for shows in samples::errors() {
            let image = self.compile(shows.text.as_bytes(), IMAGE)?.ok_or("a rule that shows an error was refused")?;
            if self.judge(&image, shows.word.as_bytes(), shows.limit) != shows.verdict as u64 {
                return Err(format!("{}: {} on '{}' at limit {}", shows.error, shows.text, shows.word, shows.limit));
            }
        }
        Ok(())
    }

    /// `{}` for a body compiles to a table that accepts nothing: no state accepts, and no word is judged yes at any limit.
    fn empty_body(&mut self) -> Result<(), String> {
        let text = format!("{}{{}}", samples::H);
        let image = self.compile(text.as_bytes(), IMAGE)?.ok_or("the empty body was refused")?;
        let table = image::decode(&image).ok_or("the empty body's image is not well-formed")?;
        if !table.accepting.is_empty() {
            return Err("the empty body: a state accepts".into());
        }
        for word in [&b""[..], b"a", b"aa", &[b'a'; 62]] {
            for limit in 0..=31 {
                if self.judge(&image, word, limit) != Verdict::No as u64 {
                    return Err(format!("the empty body: not no on '{}' at limit {limit}", word.escape_ascii()));
                }
            }
        }
        Ok(())
    }

    /// The stored texts, every byte alone and behind a program, and every cut of those that are not long.
    fn stored(&mut self) -> Result<(), String> {
        let cases = stored::cases(stored::FOLDER)?.into_iter().chain(stored::bytes());
        for case in cases.filter(|case| case.text.len() <= TEXT) {
            self.compile(&case.text, IMAGE).map_err(|what| format!("{}: {what}", case.name))?;
            if case.text.len() < 300 {
                for at in 0..case.text.len() {
                    self.compile(&case.text[..at], IMAGE)?;
                }
            }
        }
        Ok(())
    }

    /// Every cut of a text, every byte of it changed to every other, taken out, and every byte put in everywhere.
    fn every_small_change(&mut self, text: &[u8]) -> Result<(), String> {
        for at in 0..=text.len() {
            self.compile(&text[..at], IMAGE)?;
            self.compile(&text[at..], IMAGE)?;
            let mut more = text.to_vec();
            more.insert(at, 0);
            for byte in 0..=255 {
                more[at] = byte;
                self.compile(&more, IMAGE)?;
            }
            if at < text.len() {
                let mut less = text.to_vec();
                less.remove(at);
                self.compile(&less, IMAGE)?;
                let mut other = text.to_vec();
                for byte in 0..=255 {
                    other[at] = byte;
                    self.compile(&other, IMAGE)?;
                }
            }
        }
        Ok(())
    }

    /// A program that compiles, on a few words and limits.
    fn program(&mut self, random: &mut Random) -> Result<(), String> {
        let (program, tokens) = texts::compiling(random);
        let text = texts::spaced(random, &tokens);
        let Some(image) = self.compile(&text, IMAGE)? else { return Ok(()) };
        if product::check(&image) != 1 {
            return Err(format!("the image is not well-formed, for the text\n{}", text.escape_ascii()));
        }
        self.agree(&program, &image, b"", random.below(32))?;
        for _ in 0..3 {
            let word = random::word(random, &program.alphabet);
            let limit = random.below(32);
            self.agree(&program, &image, &word, limit)?;
        }
        Ok(())
    }
}

fn number(name: &str) -> Option<u64> {
    std::env::var(name).ok().map(|text| text.parse().expect("a number"))
}

fn run(test: &mut Test, seed: u64) -> Result<(), String> {
    let end = Instant::now() + Duration::from_secs(number("SECONDS_AT_MOST").unwrap_or(25));
    test.samples()?;
    test.errors()?;
    test.empty_body()?;
    test.stored()?;
    test.every_small_change(samples::bal().as_bytes())?;
    test.every_small_change(EVERYTHING.as_bytes())?;
    let mut random = Random::new(seed);
    for _ in 0..number("CASES").unwrap_or(20_000) {
        let text = texts::text(&mut random);
        let length = if random.chance(95) { IMAGE } else { random.pick(&[0, 1, IMAGE - 1, IMAGE + 1, 10_000]) };
        test.compile(&text, length)?;
        if random.chance(25) {
            test.program(&mut random)?;
        }
        if Instant::now() > end {
            break;
        }
    }
    Ok(())
}

fn main() {
    report_faults();
    let seed = random::seed();
    let image = Fenced::new(10_000);
    let mut test = Test {
        text: Fenced::new(TEXT),
        expected: image.view().to_vec(),
        image,
        marks: vec![0; MARKS],
        compiled: 0,
        refused: [0; 12],
        verdicts: [0; 4],
    };
    if let Err(what) = run(&mut test, seed) {
        println!("seed {seed}: {what}");
        std::process::exit(1);
    }
    println!(
        "seed {seed}: {} texts compiled, refused 1 to 11: {:?}; judged as interpreted: {} yes, {} no, {} limit met",
        test.compiled,
        &test.refused[1..],
        test.verdicts[1],
        test.verdicts[2],
        test.verdicts[3]
    );
}
