//! Compares the dock's archive with the independent checker and judge: answers, all mark bytes, and what must stay as it was.
//! SEED sets the seed, CASES the number of cases, CASE runs one case alone, SECONDS_AT_MOST ends early.

use independent::fenced::{report_faults, Fenced, CASE};
use independent::judge::{self, MARKS};
use independent::random::{self, Random};
use independent::{compile, image, samples, texts};
use std::sync::atomic::Ordering;
use std::time::{Duration, Instant};

#[path = "../product.rs"]
mod product;

struct Rooms {
    image: Fenced,
    word: Fenced,
    marks: Fenced,
    /// What all of the marks' room is to hold after the call.
    expected: Vec<u8>,
    /// How often each kind of answer was given.
    kinds: [usize; 26],
    /// The largest count of a verdict.
    most: u64,
}

/// An image, well-formed or not, and the alphabet to take words from.
fn some_image(random: &mut Random) -> (Vec<u8>, Vec<u8>) {
    match random.below(10) {
        0..=4 => {
            let table = random::table(random);
            (image::encode(&table), table.alphabet)
        }
        5 | 6 => {
            let (program, _) = texts::compiling(random);
            (image::encode(&compile::construct(&program)), program.alphabet)
        }
        _ => {
            let table = if random.chance(50) { random::table(random) } else { compile::construct(&texts::compiling(random).0) };
            let kind = random.below(random::DAMAGES);
            (random::damaged(random, &table, kind), table.alphabet)
        }
    }
}

fn one_case(rooms: &mut Rooms, random: &mut Random) -> Result<(), String> {
    let (image, alphabet) = some_image(random);
    let word = random::wild_word(random, &alphabet);
    let limit = random::limit(random);
    let length = if random.chance(95) { MARKS } else { random.pick(&[0, 1, 32_768, MARKS - 1, MARKS + 1, 2 * MARKS]) };

    // the room's old contents: what the last case left, one byte all over, or anything
    match random.below(4) {
        0 => {}
        1 => rooms.marks.all().fill(random.pick(&[0, 255, 1, 170])),
        _ => {
            for eight in rooms.marks.all().chunks_mut(8) {
                eight.copy_from_slice(&random.next().to_le_bytes());
            }
        }
    }
    rooms.expected.copy_from_slice(rooms.marks.view());

    let image_slice = rooms.image.place(&image, random.chance(70));
    let word_slice = rooms.word.place(&word, random.chance(70));
    let start = rooms.marks.offset(length, random.chance(70));
    let part = start..start + length;

    let checked = product::check(image_slice);
    let should_check = judge::check(&image);
    if checked != should_check {
        return Err(format!("check gives {checked}, not {should_check}, for\n{}", hex(&image)));
    }
    let answer = product::judge(image_slice, word_slice, limit, &mut rooms.marks.all()[part.clone()]);
    let should_answer = judge::judge(&image, &word, limit, &mut rooms.expected[part.clone()]);
    let asked = || {
        let word = word.escape_ascii();
        format!("image\n{}\nword '{word}', limit {limit}, {length} mark bytes", hex(&image))
    };
    if answer != should_answer {
        return Err(format!("judge gives {answer}, not {should_answer}, for {}", asked()));
    }
    if rooms.marks.view() != rooms.expected {
        let at = (0..rooms.expected.len()).find(|&i| rooms.marks.view()[i] != rooms.expected[i]).unwrap();
        let (is, should) = (rooms.marks.view()[at], rooms.expected[at]);
        let at = at as i64 - start as i64;
        return Err(format!("answer {answer}, mark byte {at} is {is:#x}, not {should:#x}, for {}", asked()));
    }
    if image_slice != image || word_slice != word {
        return Err(format!("image or word was changed, for {}", asked()));
    }
    rooms.kinds[(answer / 1_000_000) as usize] += 1;
    if answer < 4_000_000 {
        rooms.most = rooms.most.max(answer % 1_000_000);
    }
    Ok(())
}

/// Every change of one byte in the images of the sample rules: how many were compared.
fn single_bytes() -> Result<usize, String> {
    let mut compared = 0;
    for rule in samples::rules() {
        let mut image = image::encode(&compile::compile(rule.text.as_bytes(), compile::IMAGE).unwrap());
        for at in 0..image.len() {
            let old = image[at];
            for new in 0..=255 {
                image[at] = new;
                if product::check(&image) != judge::check(&image) {
                    return Err(format!("check of the rule {} with byte {at} set to {new}", rule.name));
                }
                compared += 1;
            }
            image[at] = old;
        }
    }
    Ok(compared)
}

fn hex(bytes: &[u8]) -> String {
    bytes.iter().map(|b| format!("{b:02x}")).collect()
}

fn number(name: &str) -> Option<u64> {
    std::env::var(name).ok().map(|text| text.parse().expect("a number"))
}

fn main() {
    report_faults();
    let seed = random::seed();
    let cases = match number("CASE") {
        Some(one) => one..one + 1,
        None => 0..number("CASES").unwrap_or(12_000),
    };
    let end = Instant::now() + Duration::from_secs(number("SECONDS_AT_MOST").unwrap_or(20));
    let mut rooms = Rooms {
        image: Fenced::new(20_000),
        word: Fenced::new(256),
        marks: Fenced::new(2 * MARKS),
        expected: vec![0; 2 * MARKS],
        kinds: [0; 26],
        most: 0,
    };
    let fail = |what: String| -> ! {
        println!("seed {seed}: {what}");
        std::process::exit(1)
    };
    let changes = single_bytes().unwrap_or_else(|what| fail(what));
    let mut done = 0;
    for case in cases {
        CASE.store(case, Ordering::Relaxed);
        let mut random = Random::new(seed.wrapping_mul(1_000_003).wrapping_add(case));
        if let Err(what) = one_case(&mut rooms, &mut random) {
            fail(format!("case {case}: {what}"));
        }
        done += 1;
        if Instant::now() > end {
            break;
        }
    }
    let k = rooms.kinds;
    print!("seed {seed}: {changes} single bytes changed, {done} cases judged: ");
    print!("{} yes, {} no, {} limit met (up to {} situations), ", k[1], k[2], k[3], rooms.most);
    println!("refused 21 to 25: {:?}", &k[21..]);
}
