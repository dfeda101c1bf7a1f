//! The words of a text, with their lines.

use std::fmt;

use crate::assemble::{Result, TextError};

#[derive(Clone, PartialEq, Eq, Debug)]
pub enum Token {
    /// A name or a number.
    Word(String),
    /// What stands in quotes.
    Text(Vec<u8>),
    /// One of `(){},:*`, or `…` for `...`.
    Sign(char),
    /// The text is over.
    End,
}

impl Token {
    pub fn word(&self) -> Option<&str> {
        match self {
            Token::Word(word) => Some(word),
            _ => None,
        }
    }
}

impl fmt::Display for Token {
    fn fmt(&self, f: &mut fmt::Formatter<'_>) -> fmt::Result {
        match self {
            Token::Word(word) => f.write_str(word),
            Token::Text(text) => write!(f, "\"{}\"", String::from_utf8_lossy(text)),
            Token::Sign('\u{2026}') => f.write_str("..."),
            Token::Sign(sign) => write!(f, "{sign}"),
            Token::End => f.write_str("the end"),
        }
    }
}

/// The tokens of a text and the place of the next one.
pub struct Tokens {
    tokens: Vec<(usize, Token)>,
    at: usize,
}

/// Splits a text; `#` starts a comment.
pub fn tokens(text: &str) -> Result<Tokens> {
    let mut tokens = Vec::new();
    for (at, line) in text.lines().enumerate() {
        let mut rest = line.trim_start();
        while !rest.is_empty() && !rest.starts_with('#') {
            let (token, len) = first_token(rest).map_err(|reason| TextError { line: at + 1, reason })?;
            tokens.push((at + 1, token));
            rest = rest[len..].trim_start();
        }
    }
    Ok(Tokens { tokens, at: 0 })
}

/// The first token of a line and its length.
fn first_token(line: &str) -> std::result::Result<(Token, usize), String> {
    let is_word = |c: char| c.is_alphanumeric() || c == '_';
    let first = line.chars().next().unwrap_or(' ');
    if line.starts_with("...") {
        return Ok((Token::Sign('\u{2026}'), 3));
    }
    if "(){},:*".contains(first) {
        return Ok((Token::Sign(first), 1));
    }
    if first == '"' {
        return quoted(line).map(|(text, len)| (Token::Text(text), len));
    }
    let sign = usize::from(first == '-');
    let len = line[sign..].find(|c| !is_word(c)).map_or(line.len(), |at| sign + at);
    if len == sign {
        return Err(format!("`{first}` is not understood"));
    }
    Ok((Token::Word(line[..len].to_string()), len))
}

/// The bytes of `"text"` at the front of a line, and its length; escapes are \n, \t, \\, \" and \xNN.
pub fn quoted(line: &str) -> std::result::Result<(Vec<u8>, usize), String> {
    let mut bytes = Vec::new();
    let mut chars = line.char_indices().skip(1);
    while let Some((at, c)) = chars.next() {
        match c {
            '"' => return Ok((bytes, at + 1)),
            '\\' => bytes.push(match chars.next() {
                Some((_, 'n')) => b'\n',
                Some((_, 't')) => b'\t',
                Some((_, c @ ('\\' | '"'))) => c as u8,
                Some((_, 'x')) => {
                    let digits = [chars.next(), chars.next()].map(|c| c.and_then(|(_, c)| c.to_digit(16)));
                    let [Some(high), Some(low)] = digits else {
                        return Err("two hexadecimal digits expected behind \\x".to_string());
                    };
                    (16 * high + low) as u8
                }
                _ => return Err("escapes are \\n, \\t, \\\\, \\\" and \\xNN".to_string()),
            }),
            c => bytes.extend(c.encode_utf8(&mut [0; 4]).bytes()),
        }
    }
    Err("a text without its closing quote".to_string())
}

impl Tokens {
    /// The next token, which stays.
    pub fn peek(&self) -> Token {
        self.tokens.get(self.at).map_or(Token::End, |(_, token)| token.clone())
    }

    /// Takes the next token.
    pub fn next_token(&mut self) -> Token {
        let token = self.peek();
        self.at += usize::from(token != Token::End);
        token
    }

    /// The line of the next token.
    pub fn line(&self) -> usize {
        self.tokens.get(self.at).or(self.tokens.last()).map_or(1, |&(line, _)| line)
    }

    /// Whether the next token is a word that is no number.
    pub fn sees_name(&self) -> bool {
        self.peek().word().is_some_and(|word| word.starts_with(|c: char| c.is_alphabetic() || c == '_'))
    }

    pub fn sees(&self, sign: char) -> bool {
        self.peek() == Token::Sign(sign)
    }

    /// Whether the token behind the next one is this sign.
    pub fn second_is(&self, sign: char) -> bool {
        self.tokens.get(self.at + 1).is_some_and(|(_, token)| *token == Token::Sign(sign))
    }

    /// Takes the next token if it is this sign.
    pub fn take(&mut self, sign: char) -> bool {
        let seen = self.sees(sign);
        self.at += usize::from(seen);
        seen
    }

    pub fn expect(&mut self, sign: char) -> Result<()> {
        if self.take(sign) { Ok(()) } else { self.unexpected(&Token::Sign(sign).to_string()) }
    }

    /// Takes this word.
    pub fn word(&mut self, word: &str) -> Result<()> {
        if self.peek().word() != Some(word) {
            return self.unexpected(word);
        }
        self.at += 1;
        Ok(())
    }

    /// Takes a word that is no number.
    pub fn name(&mut self) -> Result<String> {
        match self.peek() {
            Token::Word(word) if self.sees_name() => {
                self.at += 1;
                Ok(word)
            }
            _ => self.unexpected("a name"),
        }
    }

    /// Takes a text, if one is next.
    pub fn text(&mut self) -> Option<Vec<u8>> {
        match self.peek() {
            Token::Text(text) => {
                self.at += 1;
                Some(text)
            }
            _ => None,
        }
    }

    /// Takes a number, decimal or hexadecimal with `0x`, that fits its place.
    pub fn number<T: TryFrom<i128>>(&mut self) -> Result<T> {
        let Some(value) = self.peek().word().and_then(number) else {
            return self.unexpected("a number");
        };
        self.at += 1;
        T::try_from(value).map_err(|_| self.error(format!("{value} does not fit in {} bits", 8 * size_of::<T>())))
    }

    fn unexpected<T>(&self, expected: &str) -> Result<T> {
        let reason = format!("{expected} expected, not `{}`", self.peek());
        Err(TextError { line: self.line(), reason })
    }

    /// An error in the line of the last token taken.
    pub fn error(&self, reason: String) -> TextError {
        let last = self.at.checked_sub(1).and_then(|at| self.tokens.get(at));
        TextError { line: last.map_or(1, |&(line, _)| line), reason }
    }

    pub fn fail<T>(&self, reason: String) -> Result<T> {
        Err(self.error(reason))
    }
}

fn number(word: &str) -> Option<i128> {
    match word.strip_prefix("0x") {
        Some(digits) => i128::from_str_radix(digits, 16).ok(),
        None => word.parse().ok(),
    }
}
