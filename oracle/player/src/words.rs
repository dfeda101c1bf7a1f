//! The words of a line: runs without blanks, and each of `( ) [ ] ,` alone.

use std::str::FromStr;

#[derive(Clone, Copy, Debug)]
pub struct Words<'a> {
    rest: &'a str,
}

const ALONE: &[char] = &['(', ')', '[', ']', ','];

impl<'a> Words<'a> {
    pub fn new(line: &'a str) -> Words<'a> {
        Words { rest: line.trim() }
    }

    /// What is not read yet.
    pub fn rest(&self) -> &'a str {
        self.rest
    }

    pub fn peek(&self) -> Option<&'a str> {
        if self.rest.is_empty() {
            return None;
        }
        let end = match self.rest.find(|c: char| c.is_whitespace() || ALONE.contains(&c)) {
            Some(0) => 1,
            Some(end) => end,
            None => self.rest.len(),
        };
        Some(&self.rest[..end])
    }

    /// Reads the next word; `what` names it in the error if there is none.
    pub fn need(&mut self, what: &str) -> Result<&'a str, String> {
        let word = self.peek().ok_or_else(|| format!("{what} is missing"))?;
        self.rest = self.rest[word.len()..].trim_start();
        Ok(word)
    }

    /// Reads the next word if it is this one.
    pub fn take(&mut self, word: &str) -> bool {
        let found = self.peek() == Some(word);
        if found {
            self.rest = self.rest[word.len()..].trim_start();
        }
        found
    }

    pub fn expect(&mut self, word: &str) -> Result<(), String> {
        if self.take(word) {
            return Ok(());
        }
        Err(format!("`{word}` is missing before `{}`", self.rest))
    }

    pub fn number<T: FromStr>(&mut self, what: &str) -> Result<T, String> {
        let word = self.need(what)?;
        word.parse().map_err(|_| format!("`{word}` is not {what}"))
    }

    pub fn end(&self) -> Result<(), String> {
        if self.rest.is_empty() {
            return Ok(());
        }
        Err(format!("`{}` is left over", self.rest))
    }
}

/// Bytes from pairs of hexadecimal digits; blanks between pairs are allowed.
pub fn parse_hex(text: &str) -> Result<Vec<u8>, String> {
    let digits: Vec<char> = text.chars().filter(|c| !c.is_whitespace()).collect();
    if !digits.len().is_multiple_of(2) {
        return Err("an odd number of hexadecimal digits".into());
    }
    digits
        .chunks(2)
        .map(|pair| {
            let digit = |c: char| c.to_digit(16).ok_or_else(|| format!("`{c}` is no hexadecimal digit"));
            Ok((digit(pair[0])? * 16 + digit(pair[1])?) as u8)
        })
        .collect()
}

pub fn hex(bytes: &[u8]) -> String {
    bytes.iter().map(|byte| format!("{byte:02x}")).collect()
}

/// A text in quotes with its escapes; the rest of the line must be empty.
pub fn parse_quoted(text: &str) -> Result<Vec<u8>, String> {
    let inner = text.strip_prefix('"').and_then(|text| text.strip_suffix('"')).ok_or("a text in quotes is missing")?;
    let mut bytes = Vec::new();
    let mut chars = inner.chars();
    while let Some(c) = chars.next() {
        match c {
            '"' => return Err("a quote inside the text needs `\\\"`".into()),
            '\\' => bytes.push(escaped(&mut chars)?),
            _ => bytes.extend_from_slice(c.encode_utf8(&mut [0; 4]).as_bytes()),
        }
    }
    Ok(bytes)
}

fn escaped(chars: &mut std::str::Chars<'_>) -> Result<u8, String> {
    match chars.next() {
        Some('n') => Ok(b'\n'),
        Some('t') => Ok(b'\t'),
        Some('\\') => Ok(b'\\'),
        Some('"') => Ok(b'"'),
        Some('x') => match parse_hex(&chars.by_ref().take(2).collect::<String>())?.as_slice() {
            [byte] => Ok(*byte),
            _ => Err("`\\x` needs two digits".into()),
        },
        _ => Err("an unknown escape".into()),
    }
}

/// The text that `parse_quoted` reads as these bytes.
pub fn quoted(bytes: &[u8]) -> String {
    let mut text = String::from("\"");
    for &byte in bytes {
        match byte {
            b'\n' => text.push_str("\\n"),
            b'\t' => text.push_str("\\t"),
            b'\\' => text.push_str("\\\\"),
            b'"' => text.push_str("\\\""),
            b' '..=b'~' => text.push(byte as char),
            _ => text.push_str(&format!("\\x{byte:02x}")),
        }
    }
    text.push('"');
    text
}

#[cfg(test)]
mod tests {
    use super::*;

    #[test]
    fn words_of_a_line() {
        let mut words = Words::new(" start closure @0 (1,[-2]) ");
        let all: Vec<&str> = std::iter::from_fn(|| words.need("").ok()).collect();
        assert_eq!(all, ["start", "closure", "@0", "(", "1", ",", "[", "-2", "]", ")"]);
    }

    #[test]
    fn every_byte_comes_back_from_quotes_and_hex() {
        let bytes: Vec<u8> = (0..=255).collect();
        assert_eq!(parse_quoted(&quoted(&bytes)), Ok(bytes.clone()));
        assert_eq!(parse_hex(&hex(&bytes)), Ok(bytes));
        assert!(parse_quoted("\"a").is_err());
        assert!(parse_hex("0g").is_err());
    }
}
