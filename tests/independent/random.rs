//! Random cases from a seed: tables, damaged images, words, limits. Programs and texts are in texts.rs.

use crate::image::{self, Row, Table, ANY_SYMBOL, LEFT_MARK, RIGHT_MARK};

/// Splitmix64.
pub struct Random(u64);

impl Random {
    pub fn new(seed: u64) -> Random {
        Random(seed)
    }

    pub fn next(&mut self) -> u64 {
        self.0 = self.0.wrapping_add(0x9E37_79B9_7F4A_7C15);
        let mut z = self.0;
        z = (z ^ (z >> 30)).wrapping_mul(0xBF58_476D_1CE4_E5B9);
        z = (z ^ (z >> 27)).wrapping_mul(0x94D0_49BB_1331_11EB);
        z ^ (z >> 31)
    }

    /// 0 to n - 1.
    pub fn below(&mut self, n: usize) -> usize {
        (self.next() % n as u64) as usize
    }

    /// low to high, both included.
    pub fn between(&mut self, low: usize, high: usize) -> usize {
        low + self.below(high - low + 1)
    }

    pub fn chance(&mut self, percent: usize) -> bool {
        self.below(100) < percent
    }

    pub fn pick<T: Copy>(&mut self, from: &[T]) -> T {
        from[self.below(from.len())]
    }

    pub fn byte(&mut self) -> u8 {
        self.below(256) as u8
    }

    pub fn bytes(&mut self, n: usize) -> Vec<u8> {
        (0..n).map(|_| self.byte()).collect()
    }
}

/// The seed that the environment's SEED names, else the usual one.
pub fn seed() -> u64 {
    match std::env::var("SEED") {
        Ok(text) => text.parse().expect("SEED is a number"),
        Err(_) => 20_240_229,
    }
}

pub const LETTERS: &[u8; 62] = b"0123456789ABCDEFGHIJKLMNOPQRSTUVWXYZabcdefghijklmnopqrstuvwxyz";

/// 1 to 16 different letters, mostly few.
pub fn alphabet(random: &mut Random) -> Vec<u8> {
    let most = random.pick(&[1, 2, 3, 3, 8, 16]);
    let n = random.between(1, most);
    letters(random, n)
}

/// n different letters.
pub fn letters(random: &mut Random, n: usize) -> Vec<u8> {
    let mut letters = Vec::new();
    while letters.len() < n {
        let letter = random.pick(LETTERS);
        if !letters.contains(&letter) {
            letters.push(letter);
        }
    }
    letters
}

/// A code from 0 to `top`: any one, or mostly near `middle`, or mostly at the ends of the range.
fn code(random: &mut Random, style: usize, top: u8, middle: u8) -> u8 {
    match style {
        0 => random.between(0, top.into()) as u8,
        1 => (usize::from(middle) + random.between(0, 2) - 1) as u8,
        2 => random.pick(&[0, 1, middle - 1, middle, middle + 1, top - 1, top]),
        _ => middle,
    }
}

/// A well-formed table. Each has its own habits, so that some reach little and some nearly all.
pub fn table(random: &mut Random) -> Table {
    let alphabet = alphabet(random);
    let states = match random.below(6) {
        0 => 1,
        1 => random.between(2, 4),
        2 | 3 => random.between(5, 20),
        4 => random.between(21, 127),
        _ => 128,
    };
    let row_count = match random.below(8) {
        0 => random.between(0, 3),
        1..=3 => random.between(1, 4 * states),
        4 | 5 => random.between(states, 1024),
        6 => random.between(0, 1024),
        _ => 1024,
    };
    // a lively table begins with a row out of each state that asks next to nothing
    let lively = random.chance(60);
    let accept_percent = random.pick(&[0, 1, 5, 20, 70]);
    let accepting = (u16::from(lively)..states as u16).filter(|_| random.chance(accept_percent)).collect();
    let mut table = Table { alphabet, decr_on_zero: random.chance(50), states: states as u16, accepting, rows: Vec::new() };
    let from: Vec<u16> = (0..table.states).filter(|s| !table.accepting.contains(s)).collect();
    let any_percent = random.pick(&[0, 30, 80, 95]);
    let either_percent = random.pick(&[0, 30, 80, 95]);
    let move_style = random.below(4);
    let change_style = random.below(4);
    let near = random.chance(40);
    for i in 0..if from.is_empty() { 0 } else { row_count } {
        let easy = lively && i < from.len();
        let from = if easy { from[i] } else { random.pick(&from) };
        let k = table.alphabet.len();
        let symbol = if random.chance(if easy { 90 } else { any_percent }) {
            ANY_SYMBOL
        } else {
            match random.below(k + 3) {
                n if n < k => n as u8,
                n => LEFT_MARK + (n - k) as u8,
            }
        };
        let test = if random.chance(if easy { 90 } else { either_percent }) { 2 } else { random.below(3) as u8 };
        let to = if near { (usize::from(from) + states + random.between(0, 2) - 1) % states } else { random.below(states) };
        table.rows.push(Row {
            from,
            symbol,
            test,
            motion: code(random, move_style, 128, 64),
            change: code(random, if easy { 1 } else { change_style }, 62, 31),
            to: to as u16,
        });
    }
    table
}

/// How many kinds of damage there are.
pub const DAMAGES: usize = 24;

/// The table's image with damage of a kind. Some kinds may leave it well-formed.
pub fn damaged(random: &mut Random, table: &Table, kind: usize) -> Vec<u8> {
    let mut table = table.clone();
    let k = table.alphabet.len();
    let states = usize::from(table.states);
    let mut image = image::encode(&table);
    let header = image.len() - table.rows.len() * 8;
    let mut fields: Vec<(u8, Vec<u8>)> =
        image::values(&table).into_iter().enumerate().map(|(i, value)| (i as u8 + 1, value)).collect();
    let which = random.below(fields.len());
    match kind {
        // bytes
        0 => flip(random, &mut image, header),
        1 => {
            let n = image.len();
            flip(random, &mut image, n);
        }
        2 => image.truncate(random.below(image.len())),
        3 => image.truncate(image.len() - random.between(1, 9)),
        4 => {
            let n = random.pick(&[1, 1, 2, 3, 8, 16]);
            image.extend(random.bytes(n));
        }
        5 => {
            let at = random.below(image.len());
            image[at] = random.byte();
        }
        6 => image.insert(random.below(image.len() + 1), random.byte()),
        7 => {
            image.remove(random.below(image.len()));
        }
        8 => {
            let n = random.below(80);
            image = random.bytes(n);
        }
        // fields
        9 => fields[which].0 = fields[which].0.wrapping_add(random.pick(&[1, 255, 128])),
        10 => fields.swap(which, (which + 1) % 6),
        11 => fields.insert(random.below(7), fields[which].clone()),
        12 => {
            fields.remove(which);
        }
        13 => fields[which].1.push(random.byte()),
        14 => {
            fields[which].1.pop();
        }
        15 => {
            // a length off by one in the low byte, or far off in the high one, with the value as it is
            let at: usize = fields[..which].iter().map(|(_, value)| 3 + value.len()).sum();
            let (byte, by) = random.pick(&[(2, 1u8), (2, 255), (1, 1), (1, 255)]);
            image[at + byte] = image[at + byte].wrapping_add(by);
        }
        // values just outside their ranges
        16 => fields[0].1 = vec![random.pick(&[0, 2, 255])],
        17 => match random.below(4) {
            0 => fields[1].1.clear(),
            1 => fields[1].1 = letters(random, 17),
            2 => fields[1].1 = vec![random.pick(&table.alphabet); 2],
            _ => fields[1].1[random.below(k)] = random.pick(b"/:@[`{\0\xff_ '"),
        },
        18 => fields[2].1 = vec![random.pick(&[2, 3, 128, 255])],
        19 => fields[3].1 = random.pick(&[0, 129, 255, 256, 256 + table.states, table.states - 1]).to_be_bytes().to_vec(),
        20 => {
            let s = if random.chance(50) { states.min(127) } else { random.below(128) };
            fields[4].1[s / 8] |= 1 << (s % 8);
        }
        21 | 22 => {
            if table.rows.is_empty() {
                let row = Row { from: 0, symbol: 16, test: 0, motion: 64, change: 31, to: 0 };
                table.rows.push(row);
            }
            let at = random.below(table.rows.len());
            let row = &mut table.rows[at];
            match random.below(14) {
                0 => row.from = table.states,
                1 => row.to = table.states,
                2 => row.from = table.states - 1,
                3 => row.to = table.states - 1,
                4 => row.from += 256,
                5 => row.to += 256,
                6 => row.symbol = k as u8,
                7 => row.symbol = random.pick(&[15, 19, 255]),
                8 => row.symbol = random.pick(&[k as u8 - 1, LEFT_MARK, RIGHT_MARK, ANY_SYMBOL]),
                9 => row.test = random.pick(&[3, 255]),
                10 => row.motion = random.pick(&[129, 192, 255]),
                11 => row.change = random.pick(&[63, 95, 255]),
                12 => (row.motion, row.change) = random.pick(&[(0, 0), (128, 62), (127, 61), (1, 1)]),
                // a row out of an accepting state, unless that is none
                _ => match table.accepting.first() {
                    Some(&s) => row.from = s,
                    None => {
                        table.accepting.insert(row.from);
                    }
                },
            }
            return image::encode(&table);
        }
        _ => {
            // one row too many, or just none too many
            let row = Row { from: 0, symbol: ANY_SYMBOL, test: 2, motion: 65, change: 31, to: 0 };
            let row = table.rows.first().copied().unwrap_or(row);
            table.rows.resize(random.between(1024, 1025), row);
            return image::encode(&table);
        }
    }
    if matches!(kind, 9..=14 | 16..=20) {
        image.clear();
        for (tag, value) in &fields {
            image::put_field(&mut image, *tag, value);
        }
    }
    image
}

/// Flips a bit of the first `within` bytes.
fn flip(random: &mut Random, bytes: &mut [u8], within: usize) {
    bytes[random.below(within)] ^= 1 << random.below(8);
}

/// A word of the alphabet's letters, at most 62.
pub fn word(random: &mut Random, alphabet: &[u8]) -> Vec<u8> {
    let n = match random.below(8) {
        0 => 0,
        1..=3 => random.between(1, 4),
        4 | 5 => random.between(5, 20),
        6 => random.between(21, 61),
        _ => 62,
    };
    (0..n).map(|_| random.pick(alphabet)).collect()
}

/// A word that may also be too long or have bytes outside the alphabet.
pub fn wild_word(random: &mut Random, alphabet: &[u8]) -> Vec<u8> {
    let mut word = word(random, alphabet);
    if random.chance(5) {
        let n = random.pick(&[62, 63, 63, 64, 65, 200]);
        word.resize(n, alphabet[0]);
    }
    if random.chance(8) {
        for _ in 0..random.between(1, 3) {
            if !word.is_empty() {
                let at = random.below(word.len());
                word[at] = random.byte();
            }
        }
    }
    word
}

/// Limits 0 to 40, and some whose low bytes would pass for small ones.
pub fn limit(random: &mut Random) -> u64 {
    match random.below(20) {
        0..=12 => random.below(32) as u64,
        13 | 14 => 0,
        15 | 16 => 31,
        17 | 18 => random.between(32, 40) as u64,
        _ => random.pick(&[255, 256, 1 << 16, 1 << 32, (1 << 32) + 5, 1 << 63, u64::MAX - 31, u64::MAX]),
    }
}

#[cfg(test)]
mod tests {
    use super::*;

    #[test]
    fn tables_are_well_formed_and_all_kinds_of_damage_occur() {
        let mut random = Random::new(2);
        let mut good = [0; DAMAGES];
        let mut bad = [0; DAMAGES];
        for i in 0..6_000 {
            let table = table(&mut random);
            assert_eq!(image::decode(&image::encode(&table)).as_ref(), Some(&table));
            let kind = i % DAMAGES;
            match image::decode(&damaged(&mut random, &table, kind)) {
                Some(_) => good[kind] += 1,
                None => bad[kind] += 1,
            }
        }
        assert!(bad.iter().all(|n| *n > 20), "{bad:?}");
        assert!(good.iter().sum::<usize>() > 200, "{good:?}");
    }
}
