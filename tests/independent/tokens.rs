//! The tokens of a rule's text: document 01, "The text".

#[derive(Clone, Copy, PartialEq, Eq, Debug)]
pub enum Kind<'t> {
    Word(&'t [u8]),
    Number(&'t [u8]),
    Letter(u8),
    Sign(&'static str),
    /// No token starts here, or the one that does is not finished.
    Broken,
    /// The text's end; its place is the text's length.
    End,
}

#[derive(Clone, Copy, PartialEq, Eq, Debug)]
pub struct Token<'t> {
    pub kind: Kind<'t>,
    /// The place of its first byte.
    pub at: usize,
}

/// The signs, each before those that it begins with.
pub const SIGNS: [&str; 19] =
    ["==", "!=", "&&", "||", "++", "--", "+=", "-=", "=", "!", "-", "(", ")", "{", "}", "[", "]", ",", ";"];

/// How many bytes at the start of `rest` are of the kind `is`.
fn run(rest: &[u8], is: fn(u8) -> bool) -> usize {
    rest.iter().take_while(|&&b| is(b)).count()
}

/// How many bytes of white space and comments `rest` starts with.
fn blank(rest: &[u8]) -> usize {
    let mut n = 0;
    loop {
        let here = &rest[n..];
        let spaces = run(here, |b| b == b' ' || b == b'\t' || b == b'\n' || b == b'\r');
        let comment = if here.starts_with(b"//") { run(here, |b| b != b'\n') } else { 0 };
        if spaces + comment == 0 {
            return n;
        }
        n += spaces.max(comment);
    }
}

/// The token that `rest` starts with, and its length.
fn token(rest: &[u8]) -> (Kind<'_>, usize) {
    let Some(&first) = rest.first() else { return (Kind::End, 0) };
    if first.is_ascii_digit() {
        let n = run(rest, |b| b.is_ascii_digit());
        return (Kind::Number(&rest[..n]), n);
    }
    if first == b'_' || first.is_ascii_alphabetic() {
        let n = run(rest, |b| b == b'_' || b.is_ascii_alphanumeric());
        return (Kind::Word(&rest[..n]), n);
    }
    if first == b'\'' && rest.len() >= 3 && rest[1].is_ascii_alphanumeric() && rest[2] == b'\'' {
        return (Kind::Letter(rest[1]), 3);
    }
    match SIGNS.iter().find(|s| rest.starts_with(s.as_bytes())) {
        Some(sign) => (Kind::Sign(sign), sign.len()),
        None => (Kind::Broken, 0),
    }
}

/// All tokens in order. The last one, and only that one, is `Broken` or `End`.
pub fn tokens(text: &[u8]) -> Vec<Token<'_>> {
    let mut all = Vec::new();
    let mut at = 0;
    loop {
        at += blank(&text[at..]);
        let (kind, n) = token(&text[at..]);
        all.push(Token { kind, at });
        if n == 0 {
            return all;
        }
        at += n;
    }
}

#[cfg(test)]
mod tests {
    use super::*;

    fn kinds(text: &[u8]) -> Vec<Kind<'_>> {
        tokens(text).iter().map(|t| t.kind).collect()
    }

    #[test]
    fn longest_first() {
        use Kind::*;
        assert_eq!(kinds(b"---"), [Sign("--"), Sign("-"), End]);
        assert_eq!(kinds(b"==="), [Sign("=="), Sign("="), End]);
        assert_eq!(kinds(b"!!=!"), [Sign("!"), Sign("!="), Sign("!"), End]);
        assert_eq!(kinds(b"+++="), [Sign("++"), Sign("+="), End]);
        assert_eq!(kinds(b"while1 _x9 12ab"), [Word(b"while1"), Word(b"_x9"), Number(b"12"), Word(b"ab"), End]);
        assert_eq!(kinds(b"'a''Z''0'"), [Letter(b'a'), Letter(b'Z'), Letter(b'0'), End]);
    }

    #[test]
    fn every_sign_alone() {
        for sign in SIGNS {
            assert_eq!(kinds(sign.as_bytes()), [Kind::Sign(sign), Kind::End]);
        }
    }

    #[test]
    fn broken_ones() {
        for text in ["+", "&", "|", "/", "'", "'a", "''", "'_'", "'ab'", "\"", "\0", "\x0c", "\u{feff}", "*", ":", "<", "~"] {
            assert_eq!(tokens(text.as_bytes()), [Token { kind: Kind::Broken, at: 0 }], "{text:?}");
        }
        assert_eq!(tokens(b"c +1").last(), Some(&Token { kind: Kind::Broken, at: 2 }));
    }

    #[test]
    fn blanks_and_comments() {
        let end = |at| Token { kind: Kind::End, at };
        assert_eq!(tokens(b""), [end(0)]);
        assert_eq!(tokens(b" \t\r\n"), [end(4)]);
        assert_eq!(tokens(b"//"), [end(2)]);
        assert_eq!(tokens(b"// c ++ \r c"), [end(11)]);
        assert_eq!(tokens(b"//x\n//y\n"), [end(8)]);
        assert_eq!(tokens(b"///\nc")[0], Token { kind: Kind::Word(b"c"), at: 4 });
        assert_eq!(tokens(b"c//")[1], end(3));
    }
}
