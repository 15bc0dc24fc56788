//! From a rule's text to its table's image: document 01, "The construction", with refusals 1, 2, 10 and 11 and the line that
//! the compile program prints.

use crate::image::{self, Row, Table, ANY_SYMBOL, EITHER, LEFT_MARK, NO_CHANGE, NO_MOVE, RIGHT_MARK, TO_LEFT, TO_RIGHT};
use crate::rule::{read, Condition, Program, Refusal, Statement, Symbol};
use std::collections::BTreeSet;

pub const TEXT: usize = 4_096;
pub const IMAGE: usize = 8_246;
pub const STATES: u16 = 128;
pub const ROWS: usize = 1_024;

/// The table of a program, of whatever size.
pub fn construct(program: &Program) -> Table {
    let mut builder = Builder { letters: &program.alphabet, states: 1, accepting: BTreeSet::new(), rows: Vec::new() };
    builder.block(&program.body, 0);
    Table {
        alphabet: program.alphabet.clone(),
        decr_on_zero: program.decr_on_zero,
        states: builder.states,
        accepting: builder.accepting,
        rows: builder.rows,
    }
}

/// The table of a text that goes into a buffer of this length, or the refusal.
pub fn compile(text: &[u8], buffer: usize) -> Result<Table, Refusal> {
    let refuse = |number, place| Err(Refusal { number, place });
    if text.len() > TEXT {
        return refuse(1, 0);
    }
    if buffer < IMAGE {
        return refuse(2, 0);
    }
    let table = construct(&read(text)?);
    if table.states > STATES {
        return refuse(10, text.len());
    }
    if table.rows.len() > ROWS {
        return refuse(11, text.len());
    }
    Ok(table)
}

/// The line that the compile program prints for a text, without its line feed.
pub fn line(text: &[u8]) -> String {
    match compile(text, IMAGE) {
        Ok(table) => format!("ok {} {} {}", table.states, table.rows.len(), image::encode(&table).len()),
        Err(refusal) => format!("no {} {}", refusal.number, refusal.place),
    }
}

/// A row that asks nothing, goes nowhere on the word and leaves the counter.
fn free(from: u16, to: u16) -> Row {
    Row { from, symbol: ANY_SYMBOL, test: EITHER, motion: NO_MOVE, change: NO_CHANGE, to }
}

struct Builder<'p> {
    letters: &'p [u8],
    states: u16,
    accepting: BTreeSet<u16>,
    rows: Vec<Row>,
}

impl Builder<'_> {
    fn take(&mut self) -> u16 {
        self.states += 1;
        self.states - 1
    }

    /// Adds the statements from `p` on and gives the last one's exit.
    fn block(&mut self, statements: &[Statement], p: u16) -> u16 {
        statements.iter().fold(p, |at, s| self.statement(s, at))
    }

    fn statement(&mut self, statement: &Statement, p: u16) -> u16 {
        // every statement's exit is the first state that it takes
        let q = self.take();
        match statement {
            Statement::Move(by) => self.rows.push(Row { motion: (64 + by) as u8, ..free(p, q) }),
            Statement::GotoLeft => self.rows.push(Row { motion: TO_LEFT, ..free(p, q) }),
            Statement::GotoRight => self.rows.push(Row { motion: TO_RIGHT, ..free(p, q) }),
            Statement::Change(by) => self.rows.push(Row { change: (31 + by) as u8, ..free(p, q) }),
            Statement::Accept => {
                self.accepting.insert(p);
            }
            Statement::Reject => {}
            Statement::If(condition, then, otherwise) => {
                let x = self.take();
                let y = self.take();
                self.condition(condition, true, p, x);
                self.condition(condition, false, p, y);
                let end = self.block(then, x);
                self.rows.push(free(end, q));
                let end = self.block(otherwise, y);
                self.rows.push(free(end, q));
            }
            Statement::While(condition, block) => {
                let x = self.take();
                self.condition(condition, true, p, x);
                self.condition(condition, false, p, q);
                let end = self.block(block, x);
                self.rows.push(free(end, p));
            }
            Statement::WhileChoose(block) => {
                let x = self.take();
                self.rows.push(free(p, x));
                self.rows.push(free(p, q));
                let end = self.block(block, x);
                self.rows.push(free(end, p));
            }
            Statement::Branch(arms) => {
                for arm in arms {
                    let a = self.take();
                    self.rows.push(free(p, a));
                    let end = self.block(arm, a);
                    self.rows.push(free(end, q));
                }
            }
        }
        q
    }

    /// Rows that lead from `p` to `x` when the condition's truth is `sign`.
    fn condition(&mut self, condition: &Condition, sign: bool, p: u16, x: u16) {
        match condition {
            Condition::Not(inner) => self.condition(inner, !sign, p, x),
            Condition::And(a, b) if sign => self.one_after_the_other(a, b, sign, p, x),
            Condition::Or(a, b) if !sign => self.one_after_the_other(a, b, sign, p, x),
            Condition::And(a, b) | Condition::Or(a, b) => {
                self.condition(a, sign, p, x);
                self.condition(b, sign, p, x);
            }
            Condition::Counter { zero } => {
                let test = if *zero == sign { 0 } else { 1 };
                self.rows.push(Row { test, ..free(p, x) });
            }
            Condition::Read { equal, symbol } => {
                let named = self.code(*symbol);
                let letters = 0..self.letters.len() as u8;
                for code in letters.chain([LEFT_MARK, RIGHT_MARK]) {
                    if (code == named) == (*equal == sign) {
                        self.rows.push(Row { symbol: code, ..free(p, x) });
                    }
                }
            }
        }
    }

    fn one_after_the_other(&mut self, a: &Condition, b: &Condition, sign: bool, p: u16, x: u16) {
        let m = self.take();
        self.condition(a, sign, p, m);
        self.condition(b, sign, m, x);
    }

    fn code(&self, symbol: Symbol) -> u8 {
        match symbol {
            Symbol::Letter(letter) => self.letters.iter().position(|&l| l == letter).unwrap() as u8,
            Symbol::LeftMark => LEFT_MARK,
            Symbol::RightMark => RIGHT_MARK,
        }
    }
}

#[cfg(test)]
mod tests {
    use super::*;
    use crate::random::Random;
    use crate::texts::program;

    /// States and rows by document 01's sums.
    fn sums(block: &[Statement], k: usize) -> (usize, usize) {
        let mut states = 0;
        let mut rows = 0;
        let mut add = |(s, r): (usize, usize)| {
            states += s;
            rows += r;
        };
        for statement in block {
            match statement {
                Statement::Move(_) | Statement::GotoLeft | Statement::GotoRight | Statement::Change(_) => add((1, 1)),
                Statement::Accept | Statement::Reject => add((1, 0)),
                Statement::If(c, a, b) => {
                    add((3, 2));
                    add(condition_sums(c, k));
                    add(sums(a, k));
                    add(sums(b, k));
                }
                Statement::While(c, a) => {
                    add((2, 1));
                    add(condition_sums(c, k));
                    add(sums(a, k));
                }
                Statement::WhileChoose(a) => {
                    add((2, 3));
                    add(sums(a, k));
                }
                Statement::Branch(arms) => {
                    add((1 + arms.len(), 2 * arms.len()));
                    arms.iter().for_each(|a| add(sums(a, k)));
                }
            }
        }
        (states, rows)
    }

    fn condition_sums(c: &Condition, k: usize) -> (usize, usize) {
        match c {
            Condition::Read { .. } => (0, k + 2),
            Condition::Counter { .. } => (0, 2),
            Condition::Not(a) => condition_sums(a, k),
            Condition::And(a, b) | Condition::Or(a, b) => {
                let (sa, ra) = condition_sums(a, k);
                let (sb, rb) = condition_sums(b, k);
                (1 + sa + sb, ra + rb)
            }
        }
    }

    #[test]
    fn sizes_by_the_sums_and_well_formed() {
        let mut random = Random::new(1);
        for _ in 0..3_000 {
            let program = program(&mut random);
            let table = construct(&program);
            let (states, rows) = sums(&program.body, program.alphabet.len());
            assert_eq!((usize::from(table.states), table.rows.len()), (1 + states, rows));
            if table.states <= STATES && table.rows.len() <= ROWS {
                assert_eq!(image::decode(&image::encode(&table)), Some(table));
            }
        }
    }

    #[test]
    fn limits_met_and_passed_by_one() {
        let head = "alphabet=['a'];decr_on_zero=false;twoc(string)";
        let states = |n: usize| line(format!("{head}{{{}}}", "c++;".repeat(n)).as_bytes());
        assert_eq!(states(127), "ok 128 127 1055");
        assert_eq!(states(128), format!("no 10 {}", 46 + 2 + 4 * 128));
        let accepts = |n: usize| line(format!("{head}{{{}}}", "accept;".repeat(n)).as_bytes());
        assert_eq!(accepts(127), "ok 128 0 39");
        assert_eq!(accepts(128), format!("no 10 {}", 46 + 2 + 7 * 128));
        // 16 letters: a read atom has 18 rows; 56 of them have 1,008, the `if` has 2 and each plain statement 1
        let letters = (0..16).map(|i| format!("'{}'", (b'a' + i) as char)).collect::<Vec<_>>().join(",");
        let rows = |atoms: usize, plain: usize| {
            let condition = vec!["read==lend"; atoms].join("||");
            let text =
                format!("decr_on_zero=true;alphabet=[{letters}];twoc(string){{if({condition}){{}}{}}}", "c++;".repeat(plain));
            (line(text.as_bytes()), text.len())
        };
        assert_eq!(rows(56, 14).0, "ok 73 1024 8246");
        let (refusal, length) = rows(56, 15);
        assert_eq!(refusal, format!("no 11 {length}"));
        // both: 10 goes first
        let (refusal, length) = rows(56, 70);
        assert_eq!(refusal, format!("no 10 {length}"));
        // 3 to 9 go before both
        let many = "c++;".repeat(200);
        assert_eq!(line(format!("{head}{{{many}move(64);}}").as_bytes()), format!("no 7 {}", 46 + 1 + 800 + 5));
    }

    #[test]
    fn lengths_of_text_and_buffer() {
        let mut text = b"alphabet=['a'];decr_on_zero=false;twoc(string){}".to_vec();
        text.resize(4_096, b' ');
        assert_eq!(line(&text), "ok 1 0 39");
        assert_eq!(compile(&text, 8_245), Err(Refusal { number: 2, place: 0 }));
        text.push(b' ');
        assert_eq!(line(&text), "no 1 0");
        assert_eq!(compile(&text, 8_245), Err(Refusal { number: 1, place: 0 }));
        assert_eq!(compile(b"'", 8_245), Err(Refusal { number: 2, place: 0 }));
        assert_eq!(compile(b"'", 8_246), Err(Refusal { number: 3, place: 0 }));
    }
}
