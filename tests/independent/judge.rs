//! The judge: document 01, "The judge" and refusals 21 to 25. A breadth-first search over the set of situations.

use crate::image::{decode, Row, Table, ANY_SYMBOL, LEFT_MARK, RIGHT_MARK, TO_LEFT, TO_RIGHT};
use std::collections::VecDeque;

pub use crate::image::check;

pub const WORD: usize = 62;
pub const LIMIT: u64 = 31;
pub const MARKS: usize = 65_536;

#[derive(Clone, Copy, PartialEq, Eq, Debug)]
pub enum Verdict {
    Yes = 1,
    No = 2,
    LimitMet = 3,
}

#[derive(Clone, Copy, PartialEq, Eq, Debug)]
pub struct Situation {
    pub state: usize,
    pub cell: usize,
    pub counter: usize,
}

/// What a row does in a situation.
enum Step {
    NotTaken,
    PassesLimit,
    To(Situation),
}

/// The word as codes of symbols, with the marks at its two ends.
fn cells(table: &Table, word: &[u8]) -> Vec<u8> {
    let code = |b: &u8| table.alphabet.iter().position(|l| l == b).unwrap() as u8;
    let mut cells = vec![LEFT_MARK];
    cells.extend(word.iter().map(code));
    cells.push(RIGHT_MARK);
    cells
}

fn step(row: &Row, decr_on_zero: bool, cells: &[u8], limit: usize, at: Situation) -> Step {
    let symbol_fits = row.symbol == ANY_SYMBOL || row.symbol == cells[at.cell];
    let counter_fits = match row.test {
        0 => at.counter == 0,
        1 => at.counter > 0,
        _ => true,
    };
    if usize::from(row.from) != at.state || !symbol_fits || !counter_fits {
        return Step::NotTaken;
    }
    let last = cells.len() as i64 - 1;
    let cell = match row.motion {
        TO_LEFT => 0,
        TO_RIGHT => last,
        code => (at.cell as i64 + i64::from(code) - 64).clamp(0, last),
    };
    let counter = at.counter as i64 + i64::from(row.change) - 31;
    if counter < 0 && !decr_on_zero {
        return Step::NotTaken;
    }
    let counter = counter.max(0) as usize;
    if counter > limit {
        return Step::PassesLimit;
    }
    Step::To(Situation { state: row.to.into(), cell: cell as usize, counter })
}

/// The verdict of a table on a word of its letters, and every situation reached, in the order found.
pub fn search(table: &Table, word: &[u8], limit: usize) -> (Verdict, Vec<Situation>) {
    let cells = cells(table, word);
    let mut rows_from = vec![Vec::new(); usize::from(table.states)];
    for row in &table.rows {
        rows_from[usize::from(row.from)].push(*row);
    }
    let number = |s: Situation| (s.counter * cells.len() + s.cell) * rows_from.len() + s.state;
    let mut found = vec![false; (limit + 1) * cells.len() * rows_from.len()];
    let start = Situation { state: 0, cell: 0, counter: 0 };
    let mut reached = vec![start];
    let mut queue = VecDeque::from([start]);
    found[number(start)] = true;
    let mut accepts = false;
    let mut passes = false;
    while let Some(at) = queue.pop_front() {
        accepts |= table.accepting.contains(&(at.state as u16));
        for row in &rows_from[at.state] {
            match step(row, table.decr_on_zero, &cells, limit, at) {
                Step::NotTaken => {}
                Step::PassesLimit => passes = true,
                Step::To(next) => {
                    if !found[number(next)] {
                        found[number(next)] = true;
                        reached.push(next);
                        queue.push_back(next);
                    }
                }
            }
        }
    }
    let verdict = if accepts {
        Verdict::Yes
    } else if passes {
        Verdict::LimitMet
    } else {
        Verdict::No
    };
    (verdict, reached)
}

/// The whole judge: the answer as one number, and the marks written if it is a verdict.
pub fn judge(image: &[u8], word: &[u8], limit: u64, marks: &mut [u8]) -> u64 {
    let Some(table) = decode(image) else { return 21_000_000 };
    if word.len() > WORD {
        return 22_000_000;
    }
    if let Some(i) = word.iter().position(|b| !table.alphabet.contains(b)) {
        return 23_000_000 + i as u64;
    }
    if limit > LIMIT {
        return 24_000_000;
    }
    if marks.len() != MARKS {
        return 25_000_000;
    }
    let (verdict, reached) = search(&table, word, limit as usize);
    marks.fill(0);
    for s in &reached {
        let index = (s.state * 64 + s.cell) * 32 + s.counter;
        marks[index / 8] |= 1 << (index % 8);
    }
    verdict as u64 * 1_000_000 + reached.len() as u64
}
