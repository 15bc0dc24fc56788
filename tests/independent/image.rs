//! Tables and their images: document 01, "The table image". Writing an image, and reading one back with every range checked.

use std::collections::BTreeSet;

pub const LEFT_MARK: u8 = 16;
pub const RIGHT_MARK: u8 = 17;
pub const ANY_SYMBOL: u8 = 18;
pub const EITHER: u8 = 2;
pub const TO_LEFT: u8 = 0;
pub const TO_RIGHT: u8 = 128;
pub const NO_MOVE: u8 = 64;
pub const NO_CHANGE: u8 = 31;

/// A row with the image's codes.
#[derive(Clone, Copy, PartialEq, Eq, Debug)]
pub struct Row {
    pub from: u16,
    pub symbol: u8,
    pub test: u8,
    pub motion: u8,
    pub change: u8,
    pub to: u16,
}

#[derive(Clone, PartialEq, Eq, Debug)]
pub struct Table {
    pub alphabet: Vec<u8>,
    pub decr_on_zero: bool,
    pub states: u16,
    pub accepting: BTreeSet<u16>,
    pub rows: Vec<Row>,
}

/// The bytes of a row.
pub fn row_bytes(row: &Row) -> [u8; 8] {
    let [from_high, from_low] = row.from.to_be_bytes();
    let [to_high, to_low] = row.to.to_be_bytes();
    [from_high, from_low, row.symbol, row.test, row.motion, row.change, to_high, to_low]
}

/// The values of the six fields, in order of their tags. Nothing is checked.
pub fn values(table: &Table) -> [Vec<u8>; 6] {
    let mut bits = vec![0; 16];
    for &s in &table.accepting {
        bits[usize::from(s / 8)] |= 1 << (s % 8);
    }
    [
        vec![1],
        table.alphabet.clone(),
        vec![u8::from(table.decr_on_zero)],
        table.states.to_be_bytes().to_vec(),
        bits,
        table.rows.iter().flat_map(row_bytes).collect(),
    ]
}

/// Adds a field to an image: tag, length, value.
pub fn put_field(image: &mut Vec<u8>, tag: u8, value: &[u8]) {
    image.push(tag);
    image.extend((value.len() as u16).to_be_bytes());
    image.extend(value);
}

/// The image of a table.
pub fn encode(table: &Table) -> Vec<u8> {
    let mut image = Vec::new();
    for (i, value) in values(table).iter().enumerate() {
        put_field(&mut image, i as u8 + 1, value);
    }
    image
}

/// Takes the field with this tag off the front of `rest`.
fn take_field<'i>(rest: &mut &'i [u8], tag: u8) -> Option<&'i [u8]> {
    let (head, behind) = rest.split_at_checked(3)?;
    let length = usize::from(u16::from_be_bytes([head[1], head[2]]));
    let (value, behind) = behind.split_at_checked(length)?;
    if head[0] != tag {
        return None;
    }
    *rest = behind;
    Some(value)
}

/// The table that a well-formed image is of; nothing for any other bytes.
pub fn decode(image: &[u8]) -> Option<Table> {
    let mut rest = image;
    let edition = take_field(&mut rest, 1)?;
    let alphabet = take_field(&mut rest, 2)?;
    let decr = take_field(&mut rest, 3)?;
    let states = take_field(&mut rest, 4)?;
    let bits = take_field(&mut rest, 5)?;
    let rows = take_field(&mut rest, 6)?;
    if !rest.is_empty() || edition != [1] {
        return None;
    }

    let different: BTreeSet<&u8> = alphabet.iter().collect();
    let right_letters = alphabet.iter().all(u8::is_ascii_alphanumeric) && different.len() == alphabet.len();
    if !right_letters || alphabet.is_empty() || alphabet.len() > 16 {
        return None;
    }

    let decr_on_zero = match decr {
        [0] => false,
        [1] => true,
        _ => return None,
    };

    let states = u16::from_be_bytes(states.try_into().ok()?);
    if !(1..=128).contains(&states) {
        return None;
    }

    if bits.len() != 16 {
        return None;
    }
    let accepting: BTreeSet<u16> = (0..128u16).filter(|&s| bits[usize::from(s / 8)] >> (s % 8) & 1 == 1).collect();
    if accepting.iter().any(|&s| s >= states) {
        return None;
    }

    if rows.len() % 8 != 0 || rows.len() / 8 > 1024 {
        return None;
    }
    let rows: Vec<Row> = rows
        .chunks(8)
        .map(|b| Row {
            from: u16::from_be_bytes([b[0], b[1]]),
            symbol: b[2],
            test: b[3],
            motion: b[4],
            change: b[5],
            to: u16::from_be_bytes([b[6], b[7]]),
        })
        .collect();
    let right_row = |r: &Row| {
        r.from < states
            && r.to < states
            && !accepting.contains(&r.from)
            && (usize::from(r.symbol) < alphabet.len() || (LEFT_MARK..=ANY_SYMBOL).contains(&r.symbol))
            && r.test <= EITHER
            && r.motion <= TO_RIGHT
            && r.change <= 62
    };
    if !rows.iter().all(right_row) {
        return None;
    }
    Some(Table { alphabet: alphabet.to_vec(), decr_on_zero, states, accepting, rows })
}

/// What checking an image answers: 1, or refusal 21 at place 0.
pub fn check(image: &[u8]) -> u64 {
    if decode(image).is_some() {
        1
    } else {
        21_000_000
    }
}

#[cfg(test)]
mod tests {
    use super::*;

    fn small() -> Table {
        let row = Row { from: 0, symbol: 1, test: 0, motion: 128, change: 62, to: 1 };
        Table { alphabet: b"b0".to_vec(), decr_on_zero: true, states: 2, accepting: [1].into(), rows: vec![row; 2] }
    }

    #[test]
    fn there_and_back() {
        let table = small();
        let image = encode(&table);
        assert_eq!(decode(&image), Some(table));
        for n in 0..image.len() {
            assert_eq!(decode(&image[..n]), None, "cut to {n}");
        }
        for extra in 0..=255 {
            assert_eq!(decode(&[&image[..], &[extra]].concat()), None);
        }
    }

    #[test]
    fn ranges() {
        type Change = fn(&mut Table);
        let good: [Change; 9] = [
            |t| t.rows.clear(),
            |t| t.rows = vec![t.rows[0]; 1024],
            |t| t.states = 128,
            |t| t.rows[1].symbol = 18,
            |t| t.rows[1].symbol = 16,
            |t| t.rows[1].test = 2,
            |t| t.rows[1].motion = 0,
            |t| t.rows[1].change = 0,
            |t| t.alphabet = b"0123456789abcdef".to_vec(),
        ];
        let bad: [Change; 20] = [
            |t| t.rows = vec![t.rows[0]; 1025],
            |t| t.states = 0,
            |t| t.states = 1,
            |t| t.states = 129,
            |t| t.states = 258,
            |t| t.rows[1].symbol = 2,
            |t| t.rows[1].symbol = 15,
            |t| t.rows[1].symbol = 19,
            |t| t.rows[1].test = 3,
            |t| t.rows[1].motion = 129,
            |t| t.rows[1].change = 63,
            |t| t.rows[1].to = 2,
            |t| t.rows[1].to = 256,
            |t| t.rows[1].from = 2,
            |t| t.rows[1].from = 1,
            |t| t.rows[1].from = 256,
            |t| t.alphabet.clear(),
            |t| t.alphabet = b"bb".to_vec(),
            |t| t.alphabet = b"b_".to_vec(),
            |t| t.alphabet = b"0123456789abcdefg".to_vec(),
        ];
        for change in good {
            let mut table = small();
            change(&mut table);
            assert_eq!(decode(&encode(&table)), Some(table));
        }
        for (i, change) in bad.iter().enumerate() {
            let mut table = small();
            change(&mut table);
            assert_eq!(decode(&encode(&table)), None, "bad one {i}");
        }
    }
}
