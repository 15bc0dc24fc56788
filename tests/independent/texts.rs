//! Random programs and their texts: with blanks and comments, at the limits and past them, and with faults of every kind.

use crate::compile::construct;
use crate::random::{alphabet, letters, Random, LETTERS};
use crate::rule::{Block, Condition, Program, Statement, Symbol};
use crate::tokens::SIGNS;

struct Maker<'r> {
    random: &'r mut Random,
    letters: Vec<u8>,
    /// How many more statements there may be.
    left: usize,
    /// How many of a hundred statements hold blocks.
    holding: usize,
    /// Up to which change and move.
    reach: usize,
}

/// A program within the grammar's limits, except that its table or its text may be too large.
pub fn program(random: &mut Random) -> Program {
    let letters = alphabet(random);
    let left = random.pick(&[2, 5, 10, 20, 30, 40, 60]);
    let holding = random.pick(&[20, 35, 50]);
    let reach = random.pick(&[1, 1, 2, 31]);
    let decr_on_zero = random.chance(50);
    let mut maker = Maker { random, letters, left, holding, reach };
    let mut body = Vec::new();
    if maker.random.chance(60) {
        // a loop that walks over the word, so that runs get somewhere
        let mut walk = maker.block(2);
        walk.push(Statement::Move(1));
        let condition = Condition::Read { equal: false, symbol: Symbol::RightMark };
        body.push(Statement::Change(maker.random.below(2) as i64));
        body.push(Statement::Move(1));
        body.push(if maker.random.chance(70) { Statement::While(condition, walk) } else { Statement::WhileChoose(walk) });
    }
    while maker.left > 0 {
        body.push(maker.statement(1));
    }
    if maker.random.chance(50) {
        body.push(Statement::Accept);
    }
    Program { alphabet: maker.letters, decr_on_zero, body }
}

impl Maker<'_> {
    fn block(&mut self, depth: usize) -> Block {
        let mut block = Vec::new();
        let n = self.random.pick(&[0, 1, 1, 2, 2, 3, 5]);
        for _ in 0..n {
            if self.left > 0 {
                block.push(self.statement(depth));
            }
        }
        block
    }

    /// A statement of a block that stands `depth` deep.
    fn statement(&mut self, depth: usize) -> Statement {
        self.left = self.left.saturating_sub(1);
        if depth < 16 && self.random.chance(self.holding) {
            return match self.random.below(10) {
                0..=4 => {
                    let condition = self.condition(0);
                    let then = if self.random.chance(25) { vec![Statement::Accept] } else { self.block(depth + 1) };
                    let otherwise = if self.random.chance(40) { self.block(depth + 1) } else { Vec::new() };
                    Statement::If(condition, then, otherwise)
                }
                5 | 6 => Statement::While(self.condition(0), self.block(depth + 1)),
                7 => Statement::WhileChoose(self.block(depth + 1)),
                _ => {
                    let arms = self.random.pick(&[2, 2, 2, 3, 4, 8]);
                    Statement::Branch((0..arms).map(|_| self.block(depth + 1)).collect())
                }
            };
        }
        match self.random.below(40) {
            0..=15 => {
                let most = if self.reach == 31 { 63 } else { self.reach };
                let by = self.random.between(0, most) as i64;
                Statement::Move(if self.random.chance(70) { by } else { -by })
            }
            16 | 17 => Statement::GotoLeft,
            18 | 19 => Statement::GotoRight,
            20..=36 => {
                let by = self.random.between(usize::from(self.reach < 31), self.reach) as i64;
                Statement::Change(if self.random.chance(60) { by } else { -by })
            }
            37 | 38 => Statement::Accept,
            _ => Statement::Reject,
        }
    }

    fn condition(&mut self, inside: usize) -> Condition {
        let inner = |maker: &mut Self| Box::new(maker.condition(inside + 1));
        match self.random.below(10) {
            0 if inside < 6 => Condition::And(inner(self), inner(self)),
            1 if inside < 6 => Condition::Or(inner(self), inner(self)),
            2 if inside < 6 => Condition::Not(inner(self)),
            3..=5 => Condition::Counter { zero: self.random.chance(50) },
            _ => {
                let symbol = match self.random.below(6) {
                    0 => Symbol::LeftMark,
                    1 | 2 => Symbol::RightMark,
                    _ => Symbol::Letter(self.random.pick(&self.letters)),
                };
                Condition::Read { equal: self.random.chance(50), symbol }
            }
        }
    }
}

/// The tokens of a program, with now and then a parenthesis or an empty `else` more than needed.
pub fn written(random: &mut Random, program: &Program) -> Vec<String> {
    let mut writer = Writer { random, tokens: Vec::new() };
    let letters: Vec<String> = program.alphabet.iter().map(|&l| letter(l)).collect();
    writer.settings(&letters, program.decr_on_zero);
    writer.block(&program.body);
    writer.tokens
}

fn letter(l: u8) -> String {
    format!("'{}'", l as char)
}

struct Writer<'r> {
    random: &'r mut Random,
    tokens: Vec<String>,
}

impl Writer<'_> {
    /// Adds tokens that have a space between them here.
    fn put(&mut self, tokens: &str) {
        self.tokens.extend(tokens.split(' ').map(String::from));
    }

    fn settings(&mut self, letters: &[String], decr_on_zero: bool) {
        let alphabet_first = self.random.chance(50);
        for first in [true, false] {
            if first == alphabet_first {
                self.put(&format!("alphabet = [ {} ] ;", letters.join(" , ")));
            } else {
                self.put(&format!("decr_on_zero = {decr_on_zero} ;"));
            }
        }
        self.put("twoc ( string )");
    }

    fn block(&mut self, block: &[Statement]) {
        self.put("{");
        for statement in block {
            self.statement(statement);
        }
        self.put("}");
    }

    fn statement(&mut self, statement: &Statement) {
        match statement {
            Statement::Move(by) if *by < 0 || *by == 0 && self.random.chance(20) => self.put(&format!("move ( - {} ) ;", -by)),
            Statement::Move(by) => self.put(&format!("move ( {by} ) ;")),
            Statement::GotoLeft => self.put("goto ( lend ) ;"),
            Statement::GotoRight => self.put("goto ( rend ) ;"),
            Statement::Change(1) if self.random.chance(80) => self.put("c ++ ;"),
            Statement::Change(-1) if self.random.chance(80) => self.put("c -- ;"),
            Statement::Change(by) if *by < 0 || *by == 0 && self.random.chance(50) => self.put(&format!("c -= {} ;", -by)),
            Statement::Change(by) => self.put(&format!("c += {by} ;")),
            Statement::Accept => self.put("accept ;"),
            Statement::Reject => self.put("reject ;"),
            Statement::If(condition, then, otherwise) => {
                self.put("if (");
                self.condition(condition, 0);
                self.put(")");
                self.block(then);
                if !otherwise.is_empty() || self.random.chance(20) {
                    self.put("else");
                    self.block(otherwise);
                }
            }
            Statement::While(condition, block) => {
                self.put("while (");
                self.condition(condition, 0);
                self.put(")");
                self.block(block);
            }
            Statement::WhileChoose(block) => {
                self.put("while choose");
                self.block(block);
            }
            Statement::Branch(arms) => {
                for (i, arm) in arms.iter().enumerate() {
                    self.put(if i == 0 { "branch" } else { "also" });
                    self.block(arm);
                }
            }
        }
    }

    /// `level` is what may stand here without parentheses: 0 anything, 1 no `||`, 2 no `&&` either.
    fn condition(&mut self, condition: &Condition, level: usize) {
        let needs = match condition {
            Condition::Or(..) => level > 0,
            Condition::And(..) => level > 1,
            _ => false,
        };
        if needs || self.random.chance(4) {
            self.put("(");
            self.condition_as(condition);
            self.put(")");
        } else {
            self.condition_as(condition);
        }
    }

    fn condition_as(&mut self, condition: &Condition) {
        let sign = |equal: &bool| if *equal { "==" } else { "!=" };
        match condition {
            Condition::Read { equal, symbol } => {
                let symbol = match symbol {
                    Symbol::Letter(l) => letter(*l),
                    Symbol::LeftMark => "lend".into(),
                    Symbol::RightMark => "rend".into(),
                };
                self.put(&format!("read {} {symbol}", sign(equal)));
            }
            Condition::Counter { zero } => self.put(&format!("c {} 0", sign(zero))),
            Condition::Not(a) => {
                self.put("!");
                self.condition(a, 2);
            }
            Condition::And(a, b) => {
                self.condition(a, 2);
                self.put("&&");
                self.condition(b, 1);
            }
            Condition::Or(a, b) => {
                self.condition(a, 1);
                self.put("||");
                self.condition(b, 0);
            }
        }
    }
}

// Tokens at and past the limits.

/// How many kinds of limit there are.
pub const EDGES: usize = 8;

/// The tokens of a program that meets one limit closely: just below, exactly, or passed by one or more.
pub fn edge(random: &mut Random, kind: usize) -> Vec<String> {
    let mut alphabet = alphabet(random);
    let mut names: Vec<String> = alphabet.iter().map(|&l| letter(l)).collect();
    if kind == 0 {
        let n = random.between(15, 18);
        names = letters(random, n).iter().map(|&l| letter(l)).collect();
        if random.chance(30) {
            let (from, to) = (random.below(n), random.below(n));
            names[to] = names[from].clone();
        }
    }
    if kind >= 6 {
        alphabet = letters(random, 16);
        names = alphabet.iter().map(|&l| letter(l)).collect();
    }
    let decr_on_zero = random.chance(50);
    let mut writer = Writer { random, tokens: Vec::new() };
    writer.settings(&names, decr_on_zero);
    writer.put("{");
    let n = writer.random.between(15, 18);
    match kind {
        0 => {}
        1 => writer.deep_blocks(n),
        2 => writer.deep_condition(n),
        3 => {
            for i in 0..writer.random.pick(&[1, 2, 7, 8, 8, 9, 9, 10]) {
                writer.put(if i == 0 { "branch {" } else { "also {" });
                if writer.random.chance(20) {
                    writer.put("branch { } also { c ++ ; } also { }");
                }
                writer.put("}");
            }
        }
        4 => {
            for _ in 0..writer.random.between(1, 6) {
                let number = writer.random.pick(&NUMBERS);
                match writer.random.below(5) {
                    0 => writer.put(&format!("move ( {number} ) ;")),
                    1 => writer.put(&format!("move ( - {number} ) ;")),
                    2 => writer.put(&format!("c += {number} ;")),
                    3 => writer.put(&format!("c -= {number} ;")),
                    _ => writer.put(&format!("while ( c != {number} ) {{ }}")),
                }
            }
        }
        5 => {
            // 126 to 130 states, of which the program itself has 1
            let mut left = writer.random.between(125, 129);
            while left > 0 {
                let size = [1, 1, 3, 2, 2, 4, 4][writer.random.below(7)].min(left);
                match (size, writer.random.below(2)) {
                    (1, 0) => writer.put("c ++ ;"),
                    (1, _) => writer.put("accept ;"),
                    (2, 0) => writer.put("while choose { }"),
                    (2, _) => writer.put("while ( c == 0 ) { }"),
                    (3, 0) => writer.put("branch { } also { }"),
                    (3, _) => writer.put("if ( c == 0 ) { }"),
                    (_, 0) => writer.put("if ( ! ( c == 0 && c != 0 ) ) { }"),
                    _ => writer.put("if ( c == 0 || c == 0 ) { } else { }"),
                }
                left -= size;
            }
        }
        7 => {
            // far over either limit, both or none, and then perhaps something that is refused before them
            let condition = vec!["read == rend"; writer.random.between(40, 75)].join(" || ");
            writer.put(&format!("if ( {condition} ) {{ }}"));
            for _ in 0..writer.random.between(20, 300) {
                writer.put("c ++ ;");
            }
            let last = writer.random.pick(&["", "", "", "move ( 64 ) ;", "c = 1 ;", "c -= 032 ;", "+", "else { }"]);
            if !last.is_empty() {
                writer.put(last);
            }
        }
        _ => {
            // 1,022 to 1,026 rows: read atoms of 18, counter atoms of 2, the `if` of 2, the rest plain statements
            let mut left = writer.random.between(1020, 1024);
            writer.put("if (");
            let mut first = true;
            while left >= 20 || left >= 2 && writer.random.chance(50) {
                if !first {
                    let operator = writer.random.pick(&["&&", "||"]);
                    writer.put(operator);
                }
                first = false;
                if left < 20 || writer.random.chance(4) {
                    writer.put("c == 0");
                    left -= 2;
                } else {
                    let l = writer.random.pick(&alphabet);
                    writer.put(&format!("read != {}", letter(l)));
                    left -= 18;
                }
            }
            writer.put(") { }");
            for _ in 0..left {
                writer.put("c -- ;");
            }
        }
    }
    writer.put("}");
    writer.tokens
}

const NUMBERS: [&str; 26] = [
    "0",
    "1",
    "9",
    "10",
    "29",
    "30",
    "31",
    "32",
    "33",
    "61",
    "62",
    "63",
    "64",
    "65",
    "99",
    "00",
    "01",
    "09",
    "031",
    "063",
    "100",
    "256",
    "000",
    "4294967296",
    "18446744073709551616",
    "99999999999999999999999999",
];

impl Writer<'_> {
    /// Blocks nested so that the innermost stands `depth` deep; the program's own is open.
    fn deep_blocks(&mut self, depth: usize) {
        let mut closing = Vec::new();
        for _ in 1..depth {
            if self.random.chance(10) {
                self.put("c ++ ;");
            }
            let (open, close) = self.random.pick(&[
                ("if ( c == 0 ) {", "}"),
                ("if ( c == 0 ) {", "} else { }"),
                ("if ( c != 0 ) { } else {", "}"),
                ("while ( read != rend ) {", "}"),
                ("while choose {", "}"),
                ("branch {", "} also { }"),
                ("branch { } also {", "}"),
                ("branch { } also {", "} also { }"),
            ]);
            self.put(open);
            closing.push(close);
        }
        while let Some(close) = closing.pop() {
            self.put(close);
        }
    }

    /// A condition with `depth` parentheses and `!` open at its deepest.
    fn deep_condition(&mut self, depth: usize) {
        let start = self.random.pick(&["if (", "while ("]);
        self.put(start);
        let mut parentheses = 0;
        for i in 0..depth {
            if self.random.chance(50) {
                self.put("!");
            } else {
                self.put("(");
                parentheses += 1;
                // an operand before the deep one, itself with something open
                if i + 2 < depth && self.random.chance(30) {
                    let operand = self.random.pick(&["c == 0 &&", "! c == 0 ||", "( c != 0 ) &&", "! ( c != 0 ) ||"]);
                    self.put(operand);
                }
            }
        }
        self.put("read != rend");
        if self.random.chance(30) {
            let operand = self.random.pick(&["&& c == 0", "|| ! c == 0", "&& ( c == 0 )"]);
            self.put(operand);
        }
        for _ in 0..parentheses {
            self.put(")");
        }
        self.put(") { }");
    }
}

// Texts.

/// Tokens set apart by blanks and comments; now and then nothing where nothing is needed.
pub fn spaced(random: &mut Random, tokens: &[String]) -> Vec<u8> {
    let style = random.below(4);
    let mut text = Vec::new();
    let mut after_word = false;
    for token in tokens {
        let words = |b: u8| b == b'_' || b.is_ascii_alphanumeric();
        let needs = after_word && token.bytes().next().is_some_and(words);
        match style {
            0 => {}
            1 => text.push(b' '),
            2 => {
                let n = random.below(3);
                text.extend((0..n).map(|_| random.pick(b" \t\n\r")));
            }
            _ => {
                for _ in 0..random.below(3) {
                    if random.chance(10) {
                        let comment: &[u8] = random.pick(&[b"//\n", b"// c++; '\n", b"//\r\xff\x00 /*\n", b"///////\n"]);
                        text.extend(comment);
                    } else {
                        text.push(random.pick(b" \t\n\r"));
                    }
                }
            }
        }
        if needs && text.last().copied().is_some_and(words) {
            text.push(random.pick(b" \t\n\r"));
        }
        text.extend(token.as_bytes());
        after_word = token.bytes().last().is_some_and(words);
    }
    match random.below(12) {
        0 => text.extend(b"\n"),
        1 => text.extend(b" // end"),
        2 => text.extend(b"//\n\t"),
        3 => {
            // just about the longest text, by blanks or a comment at its end
            let comment = random.chance(50);
            let length = random.pick(&[4_095, 4_096, 4_096, 4_097, 4_098]);
            if text.len() + 2 < length {
                text.extend(if comment { b"//" } else { b"  " });
                text.resize(length, b' ');
            }
        }
        _ => {}
    }
    text
}

const WORDS: [&str; 30] = [
    "alphabet",
    "decr_on_zero",
    "true",
    "false",
    "twoc",
    "string",
    "move",
    "goto",
    "lend",
    "rend",
    "c",
    "accept",
    "reject",
    "if",
    "else",
    "while",
    "choose",
    "branch",
    "also",
    "read",
    "Read",
    "C",
    "c1",
    "_",
    "x",
    "whil",
    "whiles",
    "decr_on_zer",
    "IF",
    "a",
];

const BROKEN: [&str; 16] = ["+", "&", "|", "/", "'", "'a", "''", "'ab'", "'_'", "\"", "#", "\0", "\x0c", "\x7f", "\u{e9}", "*"];

fn some_token(random: &mut Random) -> String {
    match random.below(10) {
        0..=3 => random.pick(&WORDS).into(),
        4..=6 => random.pick(&SIGNS).into(),
        7 => random.pick(&NUMBERS).into(),
        8 => letter(random.pick(LETTERS)),
        _ => random.pick(&BROKEN).into(),
    }
}

/// One to three tokens taken out, put in, doubled, changed or exchanged.
pub fn mutate_tokens(random: &mut Random, tokens: &mut Vec<String>) {
    for _ in 0..random.between(1, 3) {
        if tokens.is_empty() {
            return;
        }
        let at = random.below(tokens.len());
        let other = random.below(tokens.len());
        match random.below(8) {
            0 => {
                tokens.remove(at);
            }
            1 => tokens.insert(at, some_token(random)),
            2 => tokens.insert(at, tokens[other].clone()),
            3 | 4 => tokens[at] = some_token(random),
            5 => tokens[at] = tokens[other].clone(),
            6 => tokens.swap(at, other),
            _ => {
                // another of its own kind
                let first = tokens[at].bytes().next().unwrap_or(b' ');
                tokens[at] = match first {
                    b'\'' => letter(random.pick(LETTERS)),
                    b'0'..=b'9' => random.pick(&NUMBERS).into(),
                    b'a'..=b'z' => random.pick(&WORDS).into(),
                    _ => random.pick(&SIGNS).into(),
                };
            }
        }
    }
    if random.chance(10) {
        tokens.truncate(random.below(tokens.len() + 1));
    }
}

/// One to four bytes changed, put in or taken out, or a piece doubled or cut away.
pub fn mutate_bytes(random: &mut Random, text: &mut Vec<u8>) {
    for _ in 0..random.between(1, 4) {
        if text.is_empty() {
            return;
        }
        let at = random.below(text.len());
        match random.below(9) {
            0 => text[at] ^= 1 << random.below(8),
            1 => text[at] = random.byte(),
            2 => text[at] = random.pick(b"=!&|+-(){}[],;'/ \n09azAZ_"),
            3 => text.insert(at, random.pick(b"=!&|+-(){}[],;'/ \n09azAZ_")),
            4 => text.insert(at, random.byte()),
            5 | 6 => {
                text.remove(at);
            }
            7 => {
                let end = (at + random.between(1, 20)).min(text.len());
                let piece = text[at..end].to_vec();
                text.splice(at..at, piece);
            }
            _ => {
                let end = (at + random.between(1, 20)).min(text.len());
                text.drain(at..end);
            }
        }
    }
}

/// A text of any of these kinds: as written, at a limit, with tokens or bytes changed, cut.
pub fn text(random: &mut Random) -> Vec<u8> {
    let mut tokens = if random.chance(60) {
        let program = program(random);
        written(random, &program)
    } else {
        let kind = random.below(EDGES);
        edge(random, kind)
    };
    let change = random.below(10);
    if change < 5 {
        mutate_tokens(random, &mut tokens);
    }
    let mut text = spaced(random, &tokens);
    match change {
        4..=6 => mutate_bytes(random, &mut text),
        7 => text.truncate(random.below(text.len() + 1)),
        _ => {}
    }
    text
}

/// A program whose table is small enough, with its tokens.
pub fn compiling(random: &mut Random) -> (Program, Vec<String>) {
    loop {
        let program = program(random);
        let table = construct(&program);
        if table.states <= 128 && table.rows.len() <= 1024 {
            let tokens = written(random, &program);
            return (program, tokens);
        }
    }
}

#[cfg(test)]
mod tests {
    use super::*;
    use crate::compile::line;
    use crate::interpret::interpret;
    use crate::judge::search;
    use crate::random::word;
    use crate::rule::read;
    use std::collections::BTreeMap;

    #[test]
    fn what_is_written_is_read_back() {
        let mut random = Random::new(3);
        for _ in 0..3_000 {
            let program = program(&mut random);
            let tokens = written(&mut random, &program);
            let text = spaced(&mut random, &tokens);
            // the reader has no limit on the text's length
            match read(&text) {
                Ok(again) => assert_eq!(again, program),
                Err(refusal) => assert_eq!(refusal.number, 8, "{}", String::from_utf8_lossy(&text)),
            }
        }
    }

    #[test]
    fn every_refusal_occurs() {
        let mut random = Random::new(4);
        let mut seen: BTreeMap<String, usize> = BTreeMap::new();
        for _ in 0..20_000 {
            let line = line(&text(&mut random));
            let first = line.split(' ').take(if line.starts_with("no") { 2 } else { 1 }).collect::<Vec<_>>().join(" ");
            *seen.entry(first).or_default() += 1;
        }
        for number in [1, 3, 4, 5, 6, 7, 8, 9, 10, 11] {
            assert!(seen.get(&format!("no {number}")).is_some_and(|n| *n > 20), "{seen:?}");
        }
        assert!(seen["ok"] > 2_000, "{seen:?}");
    }

    /// The theorem of the compiler, tried: a table says what its program says.
    #[test]
    fn table_and_program_agree() {
        let mut random = Random::new(5);
        let mut verdicts = [0; 4];
        for _ in 0..3_000 {
            let (program, _) = compiling(&mut random);
            let table = construct(&program);
            for _ in 0..3 {
                let word = word(&mut random, &program.alphabet);
                let limit = random.below(32);
                let (verdict, _) = search(&table, &word, limit);
                assert_eq!(interpret(&program, &word, limit), verdict);
                verdicts[verdict as usize] += 1;
            }
        }
        assert!(verdicts[1..].iter().all(|n| *n > 500), "{verdicts:?}");
    }
}
