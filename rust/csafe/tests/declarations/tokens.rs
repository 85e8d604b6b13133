//! The tokens of Rattle, Rust and C, as far as the three files need them.

use std::mem;

/// Words, texts in quotes and single characters, without spaces and comments.
pub struct Tokens<'a> {
    all: Vec<&'a str>,
    at: usize,
}

impl<'a> Tokens<'a> {
    /// The text has no comments.
    pub fn of(text: &'a str) -> Tokens<'a> {
        let mut all = Vec::new();
        let mut rest = text.trim_start();
        while !rest.is_empty() {
            let (token, later) = rest.split_at(token_len(rest));
            all.push(token);
            rest = later.trim_start();
        }
        Tokens { all, at: 0 }
    }

    pub fn next(&mut self) -> Option<&'a str> {
        let token = self.all.get(self.at).copied();
        self.at += 1;
        token
    }

    /// Takes these tokens, or tells what stands there.
    pub fn expect(&mut self, tokens: &[&str]) -> Result<(), String> {
        for token in tokens {
            let found = self.next().unwrap_or("the end");
            if found != *token {
                return Err(format!("`{found}` stands where `{token}` was expected"));
            }
        }
        Ok(())
    }

    pub fn word(&mut self) -> Result<&'a str, String> {
        match self.next() {
            Some(word) if word.starts_with(is_of_word) => Ok(word),
            other => Err(format!("{other:?} stands where a name was expected")),
        }
    }

    /// Moves right after the next place where these tokens stand, if there is one.
    pub fn move_past(&mut self, tokens: &[&str]) -> bool {
        let place = self.all[self.at..]
            .windows(tokens.len())
            .position(|window| window == tokens);
        self.at += place.map_or(0, |place| place + tokens.len());
        place.is_some()
    }

    pub fn count(&self, token: &str) -> usize {
        self.all.iter().filter(|other| **other == token).count()
    }

    /// What stands in parentheses, cut at the commas. A comma may stand after the last part.
    pub fn parts(&mut self) -> Result<Vec<Vec<&'a str>>, String> {
        self.expect(&["("])?;
        let (mut parts, mut part) = (Vec::new(), Vec::new());
        loop {
            match self.next() {
                Some(")") => break,
                Some(",") => parts.push(mem::take(&mut part)),
                Some(token) => part.push(token),
                None => return Err("a parenthesis is not closed".to_string()),
            }
        }
        if !part.is_empty() {
            parts.push(part);
        }
        Ok(parts)
    }
}

fn token_len(text: &str) -> usize {
    let first = text.chars().next().map_or(0, char::len_utf8);
    if let Some(quoted) = text.strip_prefix('"') {
        return quoted.find('"').map_or(text.len(), |end| end + 2);
    }
    match text.find(|letter| !is_of_word(letter)) {
        Some(len) => len.max(first),
        None => text.len(),
    }
}

fn is_of_word(letter: char) -> bool {
    letter.is_ascii_alphanumeric() || letter == '_'
}

/// The text with a space in place of each comment that runs from `open` to `close`.
pub fn without_comments(text: &str, open: &str, close: &str) -> String {
    let mut kept = String::new();
    let mut rest = text;
    while let Some((before, comment)) = rest.split_once(open) {
        kept.push_str(before);
        kept.push_str(if close == "\n" { "\n" } else { " " });
        rest = comment.split_once(close).map_or("", |(_, after)| after);
    }
    kept + rest
}
