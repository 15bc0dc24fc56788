//! A rule as a tree, and its reader by recursive descent, which gives refusals 3 to 9: document 01, "The text" and "Refusal
//! numbers". The grammar can be read with one token in hand, so that the first token which does not fit, or is past a limit, is
//! the first fault in the text.

use crate::tokens::{tokens, Kind, Token};

pub const LETTERS: usize = 16;
pub const BLOCKS_DEEP: usize = 16;
pub const OPEN_IN_CONDITION: usize = 16;
pub const ARMS: usize = 8;

#[derive(Clone, Copy, PartialEq, Eq, Debug)]
pub struct Refusal {
    pub number: u64,
    pub place: usize,
}

impl Refusal {
    /// As one number for C.
    pub fn answer(self) -> u64 {
        self.number * 1_000_000 + self.place as u64
    }
}

#[derive(Clone, Copy, PartialEq, Eq, Debug)]
pub enum Symbol {
    Letter(u8),
    LeftMark,
    RightMark,
}

#[derive(Clone, PartialEq, Eq, Debug)]
pub enum Condition {
    Read { equal: bool, symbol: Symbol },
    Counter { zero: bool },
    Not(Box<Condition>),
    And(Box<Condition>, Box<Condition>),
    Or(Box<Condition>, Box<Condition>),
}

pub type Block = Vec<Statement>;

#[derive(Clone, PartialEq, Eq, Debug)]
pub enum Statement {
    Move(i64),
    GotoLeft,
    GotoRight,
    Change(i64),
    Accept,
    Reject,
    If(Condition, Block, Block),
    While(Condition, Block),
    WhileChoose(Block),
    Branch(Vec<Block>),
}

#[derive(Clone, PartialEq, Eq, Debug)]
pub struct Program {
    pub alphabet: Vec<u8>,
    pub decr_on_zero: bool,
    pub body: Block,
}

/// The program that a text is, or what is refused first in it.
pub fn read(text: &[u8]) -> Result<Program, Refusal> {
    let mut reader = Reader { tokens: tokens(text), next: 0, alphabet: Vec::new() };
    reader.program()
}

struct Reader<'t> {
    tokens: Vec<Token<'t>>,
    next: usize,
    alphabet: Vec<u8>,
}

impl<'t> Reader<'t> {
    fn here(&self) -> Token<'t> {
        self.tokens[self.next]
    }

    /// The token here is refused with this number.
    fn refuse<T>(&self, number: u64) -> Result<T, Refusal> {
        Err(Refusal { number, place: self.here().at })
    }

    /// The token here does not fit: broken (3), or none that a program can have here (4).
    fn unfit<T>(&self) -> Result<T, Refusal> {
        self.refuse(if self.here().kind == Kind::Broken { 3 } else { 4 })
    }

    fn is_word(&self, word: &str) -> bool {
        self.here().kind == Kind::Word(word.as_bytes())
    }

    fn is_sign(&self, sign: &'static str) -> bool {
        self.here().kind == Kind::Sign(sign)
    }

    fn word(&mut self, word: &str) -> Result<(), Refusal> {
        if !self.is_word(word) {
            return self.unfit();
        }
        self.next += 1;
        Ok(())
    }

    fn sign(&mut self, sign: &'static str) -> Result<(), Refusal> {
        if !self.is_sign(sign) {
            return self.unfit();
        }
        self.next += 1;
        Ok(())
    }

    /// A number from 0 to `top`.
    fn number(&mut self, top: i64) -> Result<i64, Refusal> {
        let Kind::Number(digits) = self.here().kind else { return self.unfit() };
        let leading_zero = digits.len() > 1 && digits[0] == b'0';
        if leading_zero || digits.len() > 2 {
            return self.refuse(7);
        }
        let value = digits.iter().fold(0, |n, d| n * 10 + i64::from(d - b'0'));
        if value > top {
            return self.refuse(7);
        }
        self.next += 1;
        Ok(value)
    }

    fn program(&mut self) -> Result<Program, Refusal> {
        let decr_on_zero;
        if self.is_word("alphabet") {
            self.alphabet_setting()?;
            decr_on_zero = self.decr_setting()?;
        } else if self.is_word("decr_on_zero") {
            decr_on_zero = self.decr_setting()?;
            self.alphabet_setting()?;
        } else {
            return self.unfit();
        }
        self.word("twoc")?;
        self.sign("(")?;
        self.word("string")?;
        self.sign(")")?;
        let body = self.block(1)?;
        if self.here().kind != Kind::End {
            return self.unfit();
        }
        Ok(Program { alphabet: self.alphabet.clone(), decr_on_zero, body })
    }

    fn alphabet_setting(&mut self) -> Result<(), Refusal> {
        self.word("alphabet")?;
        self.sign("=")?;
        self.sign("[")?;
        loop {
            let Kind::Letter(letter) = self.here().kind else { return self.unfit() };
            if self.alphabet.contains(&letter) || self.alphabet.len() == LETTERS {
                return self.refuse(5);
            }
            self.alphabet.push(letter);
            self.next += 1;
            if !self.is_sign(",") {
                break;
            }
            self.next += 1;
        }
        self.sign("]")?;
        self.sign(";")
    }

    fn decr_setting(&mut self) -> Result<bool, Refusal> {
        self.word("decr_on_zero")?;
        self.sign("=")?;
        let value = self.is_word("true");
        if !value && !self.is_word("false") {
            return self.unfit();
        }
        self.next += 1;
        self.sign(";")?;
        Ok(value)
    }

    /// A block that stands `depth` deep, the outermost being 1.
    fn block(&mut self, depth: usize) -> Result<Block, Refusal> {
        if self.is_sign("{") && depth > BLOCKS_DEEP {
            return self.refuse(8);
        }
        self.sign("{")?;
        let mut statements = Vec::new();
        while !self.is_sign("}") {
            statements.push(self.statement(depth)?);
        }
        self.next += 1;
        Ok(statements)
    }

    /// A statement of a block that stands `depth` deep.
    fn statement(&mut self, depth: usize) -> Result<Statement, Refusal> {
        let Kind::Word(word) = self.here().kind else { return self.unfit() };
        match word {
            b"move" => self.move_statement(),
            b"goto" => self.goto_statement(),
            b"c" => self.counter_statement(),
            b"accept" => {
                self.next += 1;
                self.sign(";")?;
                Ok(Statement::Accept)
            }
            b"reject" => {
                self.next += 1;
                self.sign(";")?;
                Ok(Statement::Reject)
            }
            b"if" => {
                self.next += 1;
                let condition = self.condition()?;
                let then = self.block(depth + 1)?;
                let mut otherwise = Vec::new();
                if self.is_word("else") {
                    self.next += 1;
                    otherwise = self.block(depth + 1)?;
                }
                Ok(Statement::If(condition, then, otherwise))
            }
            b"while" => {
                self.next += 1;
                if self.is_word("choose") {
                    self.next += 1;
                    return Ok(Statement::WhileChoose(self.block(depth + 1)?));
                }
                let condition = self.condition()?;
                Ok(Statement::While(condition, self.block(depth + 1)?))
            }
            b"branch" => {
                self.next += 1;
                let mut arms = vec![self.block(depth + 1)?];
                self.word("also")?;
                arms.push(self.block(depth + 1)?);
                while self.is_word("also") {
                    if arms.len() == ARMS {
                        return self.refuse(9);
                    }
                    self.next += 1;
                    arms.push(self.block(depth + 1)?);
                }
                Ok(Statement::Branch(arms))
            }
            _ => self.unfit(),
        }
    }

    fn move_statement(&mut self) -> Result<Statement, Refusal> {
        self.word("move")?;
        self.sign("(")?;
        let back = self.is_sign("-");
        if back {
            self.next += 1;
        }
        let by = self.number(63)?;
        self.sign(")")?;
        self.sign(";")?;
        Ok(Statement::Move(if back { -by } else { by }))
    }

    fn goto_statement(&mut self) -> Result<Statement, Refusal> {
        self.word("goto")?;
        self.sign("(")?;
        let to = if self.is_word("lend") {
            Statement::GotoLeft
        } else if self.is_word("rend") {
            Statement::GotoRight
        } else {
            return self.unfit();
        };
        self.next += 1;
        self.sign(")")?;
        self.sign(";")?;
        Ok(to)
    }

    fn counter_statement(&mut self) -> Result<Statement, Refusal> {
        self.word("c")?;
        let Kind::Sign(sign) = self.here().kind else { return self.unfit() };
        if !["++", "--", "+=", "-="].contains(&sign) {
            return self.unfit();
        }
        self.next += 1;
        let by = match sign {
            "++" => 1,
            "--" => -1,
            "+=" => self.number(31)?,
            _ => -self.number(31)?,
        };
        self.sign(";")?;
        Ok(Statement::Change(by))
    }

    /// A whole condition with its own parentheses, which are not counted.
    fn condition(&mut self) -> Result<Condition, Refusal> {
        self.sign("(")?;
        let condition = self.disjunction(0)?;
        self.sign(")")?;
        Ok(condition)
    }

    /// Below, `open` parentheses and `!` are open around what is read.
    fn disjunction(&mut self, open: usize) -> Result<Condition, Refusal> {
        let left = self.conjunction(open)?;
        if !self.is_sign("||") {
            return Ok(left);
        }
        self.next += 1;
        Ok(Condition::Or(Box::new(left), Box::new(self.disjunction(open)?)))
    }

    fn conjunction(&mut self, open: usize) -> Result<Condition, Refusal> {
        let left = self.negation(open)?;
        if !self.is_sign("&&") {
            return Ok(left);
        }
        self.next += 1;
        Ok(Condition::And(Box::new(left), Box::new(self.conjunction(open)?)))
    }

    fn negation(&mut self, open: usize) -> Result<Condition, Refusal> {
        let opens = self.is_sign("!") || self.is_sign("(");
        if opens && open == OPEN_IN_CONDITION {
            return self.refuse(8);
        }
        if self.is_sign("!") {
            self.next += 1;
            return Ok(Condition::Not(Box::new(self.negation(open + 1)?)));
        }
        if self.is_sign("(") {
            self.next += 1;
            let inner = self.disjunction(open + 1)?;
            self.sign(")")?;
            return Ok(inner);
        }
        self.atom()
    }

    fn atom(&mut self) -> Result<Condition, Refusal> {
        if self.is_word("c") {
            self.next += 1;
            let zero = self.equality()?;
            self.number(0)?;
            return Ok(Condition::Counter { zero });
        }
        self.word("read")?;
        let equal = self.equality()?;
        let symbol = match self.here().kind {
            Kind::Word(b"lend") => Symbol::LeftMark,
            Kind::Word(b"rend") => Symbol::RightMark,
            Kind::Letter(letter) if self.alphabet.contains(&letter) => Symbol::Letter(letter),
            Kind::Letter(_) => return self.refuse(6),
            _ => return self.unfit(),
        };
        self.next += 1;
        Ok(Condition::Read { equal, symbol })
    }

    /// `==` gives true, `!=` false.
    fn equality(&mut self) -> Result<bool, Refusal> {
        let equal = self.is_sign("==");
        if !equal && !self.is_sign("!=") {
            return self.unfit();
        }
        self.next += 1;
        Ok(equal)
    }
}

#[cfg(test)]
mod tests {
    use super::*;

    const H: &str = "alphabet=['a'];decr_on_zero=false;twoc(string)";

    /// What the text gives: 0 if it is read.
    fn answer(text: &str) -> u64 {
        read(text.as_bytes()).map_or_else(Refusal::answer, |_| 0)
    }

    /// What H and this body give, with the place counted from the body's start.
    fn body(body: &str) -> (u64, u64) {
        match answer(&format!("{H}{body}")) {
            0 => (0, 0),
            n => (n / 1_000_000, n % 1_000_000 - H.len() as u64),
        }
    }

    #[test]
    fn settings() {
        assert_eq!(answer("decr_on_zero=true;alphabet=['a'];twoc(string){}"), 0);
        assert_eq!(answer("alphabet=['a'];alphabet=['a'];"), 4_000_015);
        assert_eq!(answer("decr_on_zero=true;decr_on_zero"), 4_000_018);
        assert_eq!(answer("decr_on_zero=True;"), 4_000_013);
        assert_eq!(answer("Alphabet"), 4_000_000);
        assert_eq!(answer("alphabet=[];"), 4_000_010);
        assert_eq!(answer("alphabet=['a',];"), 4_000_014);
        assert_eq!(answer("alphabet=['a';"), 4_000_013);
        assert_eq!(answer("alphabet=[a];"), 4_000_010);
        assert_eq!(answer("alphabet=['ab'];"), 3_000_010);
        assert_eq!(answer("alphabet == ['a'];"), 4_000_009);
        assert_eq!(answer("twoc(string){}"), 4_000_000);
        assert_eq!(answer("alphabet=['a'];twoc"), 4_000_015);
        let letters = |n: usize| (0..n).map(|i| format!("'{}'", (b'a' + i as u8) as char)).collect::<Vec<_>>().join(",");
        assert_eq!(answer(&format!("alphabet=[{}];decr_on_zero=true;twoc(string){{}}", letters(16))), 0);
        assert_eq!(answer(&format!("alphabet=[{}];decr_on_zero=true;twoc(string){{}}", letters(17))), 5_000_074);
        assert_eq!(answer(&format!("alphabet=[{},'a'];", letters(16))), 5_000_074);
        assert_eq!(answer(&format!("alphabet=[{},]", letters(16))), 4_000_074);
    }

    #[test]
    fn after_the_program() {
        assert_eq!(body("{} \n//x"), (0, 0));
        assert_eq!(body("{}}"), (4, 2));
        assert_eq!(body("{} c"), (4, 3));
        assert_eq!(body("{}'"), (3, 2));
        assert_eq!(body("{}/"), (3, 2));
        assert_eq!(body("{ // }"), (4, 6));
        assert_eq!(body("{  "), (4, 3));
        assert_eq!(body(";"), (4, 0));
    }

    #[test]
    fn statements() {
        for good in [
            "{move(0);move(63);move(-63);move(-0);move ( - 1 ) ;}",
            "{goto(lend);goto(rend);}",
            "{c++;c--;c+=0;c+=31;c-=31;c -= 0;}",
            "{accept;reject;accept;}",
            "{if(c==0){}else{}if(c!=0){}}",
            "{while choose{}while(c==0){}}",
            "{branch{}also{}branch{}also{}also{}also{}also{}also{}also{}also{}}",
        ] {
            assert_eq!(body(good), (0, 0), "{good}");
        }
        for (bad, number, place) in [
            ("{move(64);}", 7, 6),
            ("{move(-64);}", 7, 7),
            ("{move(00);}", 7, 6),
            ("{move(01);}", 7, 6),
            ("{move(100);}", 7, 6),
            ("{move(99999999999999999999999);}", 7, 6),
            ("{move(--1);}", 4, 6),
            ("{move(- -1);}", 4, 8),
            ("{move(1a);}", 4, 7),
            ("{move(a);}", 4, 6),
            ("{move();}", 4, 6),
            ("{move(1)}", 4, 8),
            ("{Move(1);}", 4, 1),
            ("{moved(1);}", 4, 1),
            ("{goto(left);}", 4, 6),
            ("{goto('a');}", 4, 6),
            ("{c+=32;}", 7, 4),
            ("{c-=32;}", 7, 4),
            ("{c+=-1;}", 4, 4),
            ("{c+=;}", 4, 4),
            ("{c=1;}", 4, 2),
            ("{c- -;}", 4, 2),
            ("{c+ +;}", 3, 2),
            ("{c;}", 4, 2),
            ("{accept}", 4, 7),
            ("{;}", 4, 1),
            ("{{}}", 4, 1),
            ("{else{}}", 4, 1),
            ("{if(c==0){}else if(c==0){}}", 4, 16),
            ("{if(c==0){}else{}else{}}", 4, 17),
            ("{if(c==0)accept;}", 4, 9),
            ("{if c==0{}}", 4, 4),
            ("{while(choose){}}", 4, 7),
            ("{while{}}", 4, 6),
            ("{branch{}}", 4, 9),
            ("{branch{}also}", 4, 13),
            ("{branch{}also{}also{}also{}also{}also{}also{}also{}also", 9, 51),
            ("{also{}}", 4, 1),
            ("{twoc}", 4, 1),
        ] {
            assert_eq!(body(bad), (number, place), "{bad}");
        }
    }

    #[test]
    fn conditions() {
        for good in ["read=='a'", "read!=lend", "read==rend", "c==0", "c!=0", "!c==0", "!!(c==0)", "((c==0)&&c==0)||c==0"] {
            assert_eq!(body(&format!("{{if({good}){{}}}}")), (0, 0), "{good}");
        }
        for (bad, number, place) in [
            ("read=='b'", 6, 6),
            ("read==b", 4, 6),
            ("read==0", 4, 6),
            ("read='a'", 4, 4),
            ("read<'a'", 3, 4),
            ("'a'==read", 4, 0),
            ("c==1", 7, 3),
            ("c==00", 7, 3),
            ("c!=10", 7, 3),
            ("c=='a'", 4, 3),
            ("c==lend", 4, 3),
            ("c++", 4, 1),
            ("true", 4, 0),
            ("", 4, 0),
            ("()", 4, 1),
            ("!", 4, 1),
            ("c==0&&", 4, 6),
            ("c==0||||c==0", 4, 6),
            ("c==0&c==0", 3, 4),
            ("c==0 c==0", 4, 5),
            ("(c==0", 4, 6),
        ] {
            assert_eq!(body(&format!("{{if({bad}){{}}}}")), (number, place + 4), "{bad}");
        }
    }

    fn condition(text: &str) -> Condition {
        let program = read(format!("{H}{{if({text}){{}}}}").as_bytes()).unwrap();
        match &program.body[0] {
            Statement::If(c, _, _) => c.clone(),
            _ => unreachable!(),
        }
    }

    #[test]
    fn binding_and_grouping() {
        for (text, same) in [
            ("c==0||c!=0&&read=='a'", "c==0||(c!=0&&read=='a')"),
            ("c==0&&c!=0||read=='a'", "(c==0&&c!=0)||read=='a'"),
            ("c==0||c!=0||read=='a'", "c==0||(c!=0||read=='a')"),
            ("c==0&&c!=0&&read=='a'", "c==0&&(c!=0&&read=='a')"),
            ("!c==0&&c!=0", "(!c==0)&&c!=0"),
            ("!!c==0||c!=0", "(!(!c==0))||c!=0"),
        ] {
            assert_eq!(condition(text), condition(same));
        }
        assert_ne!(condition("(c==0||c!=0)||read=='a'"), condition("c==0||c!=0||read=='a'"));
        assert_ne!(condition("!(c==0&&c!=0)"), condition("!c==0&&c!=0"));
    }

    #[test]
    fn sixteen_deep() {
        let blocks = |n: usize| format!("{}{}", "{while choose".repeat(n - 1) + "{", "}".repeat(n));
        assert_eq!(body(&blocks(16)), (0, 0));
        assert_eq!(body(&blocks(17)), (8, 13 * 16));
        for opens in ["(", "!", "(!", "!(", "!!(", "((!"] {
            let opening: String = opens.chars().cycle().take(16).collect();
            let closing = ")".repeat(opening.matches('(').count());
            let full = |x: &str| format!("{{if({x}){{}}}}");
            assert_eq!(body(&full(&format!("{opening}c==0{closing}"))), (0, 0));
            assert_eq!(body(&full(&format!("{opening}(c==0{closing}"))), (8, 4 + 16));
            assert_eq!(body(&full(&format!("{opening}!c==0{closing}"))), (8, 4 + 16));
            // what is closed counts no more
            assert_eq!(body(&full(&format!("{opening}c==0{closing}&&{opening}c==0{closing}||!(c==0)"))), (0, 0));
        }
        // inside the last open parenthesis a `!` is one too many at each operand
        let opening = "(".repeat(16);
        assert_eq!(body(&format!("{{if({opening}c==0&&!c==0")), (8, 4 + 16 + 6));
        let opening = "(".repeat(15);
        assert_eq!(body(&format!("{{if({opening}!c==0&&!c==0{}){{}}}}", ")".repeat(15))), (0, 0));
    }
}
