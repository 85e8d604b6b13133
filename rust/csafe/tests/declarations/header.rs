//! The functions and constants of `csafe.h`.

use crate::signature::{Function, Parameter, Type};
use crate::tokens::{without_comments, Tokens};

type Constants = Vec<(String, usize)>;

/// What the header says, each in order.
#[derive(Default)]
pub struct Header {
    /// The names that the preprocessor gives to numbers.
    pub defines: Constants,
    pub enumerators: Constants,
    pub functions: Vec<Function>,
}

impl Header {
    pub fn read(text: &str) -> Result<Header, String> {
        let text = without_comments(text, "/*", "*/");
        let mut header = Header::default();
        let mut code = String::new();
        for line in text.lines() {
            if line.starts_with('#') {
                header.defines.extend(define(line)?);
            } else {
                code.push_str(line);
                code.push('\n');
            }
        }
        header.items(&mut Tokens::of(&code))?;
        Ok(header)
    }

    fn items(&mut self, tokens: &mut Tokens) -> Result<(), String> {
        let mut open = 0;
        while let Some(token) = tokens.next() {
            match token {
                "extern" => {
                    tokens.expect(&["\"C\"", "{"])?;
                    open += 1;
                }
                "}" if open == 1 => open = 0,
                "enum" => self.enumerators.extend(enumerators(tokens)?),
                "static" => helper(tokens)?,
                "uint64_t" => self.functions.push(function(tokens, &self.defines)?),
                _ => return Err(format!("`{token}` stands where a declaration was expected")),
            }
        }
        Ok(())
    }
}

/// The constant of a line of the preprocessor, if it has one.
fn define(line: &str) -> Result<Option<(String, usize)>, String> {
    let words: Vec<&str> = line.split_whitespace().collect();
    match words[..] {
        ["#ifndef" | "#define", "CSAFE_H"] | ["#ifdef", "__cplusplus"] | ["#endif"] => Ok(None),
        ["#include", "<stddef.h>" | "<stdint.h>"] => Ok(None),
        ["#define", name, number] => match number.parse() {
            Ok(number) => Ok(Some((name.to_string(), number))),
            Err(_) => Err(format!("{name} is {number}, which is no number")),
        },
        _ => Err(format!("`{line}` is unknown")),
    }
}

/// `{ NAME = NUMBER, ... };`
fn enumerators(tokens: &mut Tokens) -> Result<Constants, String> {
    tokens.expect(&["{"])?;
    let mut constants = Vec::new();
    loop {
        let name = tokens.word()?.to_string();
        tokens.expect(&["="])?;
        let number = tokens.word()?;
        let number = number
            .parse()
            .map_err(|_| format!("{number} is no number"))?;
        constants.push((name, number));
        match tokens.next() {
            Some(",") => {}
            Some("}") => break,
            other => return Err(format!("{other:?} stands after a number")),
        }
    }
    tokens.expect(&[";"])?;
    Ok(constants)
}

/// A function that takes an answer apart. The test in C calls them.
fn helper(tokens: &mut Tokens) -> Result<(), String> {
    tokens.expect(&["inline"])?;
    let (result, name) = (tokens.word()?, tokens.word()?);
    let parts = tokens.parts()?;
    if parts != [["uint64_t", "answer"]] {
        return Err(format!("{name} takes {parts:?}"));
    }
    tokens.expect(&["{", "return", "(", result, ")"])?;
    match tokens.move_past(&[";", "}"]) {
        true => Ok(()),
        false => Err(format!("{name} has no end")),
    }
}

fn function(tokens: &mut Tokens, defines: &Constants) -> Result<Function, String> {
    let name = tokens.word()?.to_string();
    let mut parameters = Vec::new();
    for part in tokens.parts()? {
        parameters.push(parameter(&part, defines)?);
    }
    tokens.expect(&[";"])?;
    Ok(Function { name, parameters })
}

fn parameter(part: &[&str], defines: &Constants) -> Result<Parameter, String> {
    let (name, kind) = match part {
        ["uint8_t", name] => (name, Type::U8),
        ["uint16_t", name] => (name, Type::U16),
        ["uint32_t", name] => (name, Type::U32),
        ["uint64_t", name] => (name, Type::U64),
        ["size_t", name] => (name, Type::Length),
        ["const", "uint8_t", "*", name] => (name, Type::ConstBytes),
        ["uint8_t", "*", name] => (name, Type::MutBytes),
        ["uint32_t", "*", name] => (name, Type::MutU32),
        ["uint64_t", "*", name] => (name, Type::MutU64),
        ["uint8_t", name, "[", len, "]"] => (name, Type::MutArray(defined(len, defines)?)),
        _ => return Err(format!("{} is an unknown parameter", part.join(" "))),
    };
    Ok((name.to_string(), kind))
}

fn defined(name: &str, defines: &Constants) -> Result<usize, String> {
    match defines.iter().find(|(other, _)| other == name) {
        Some((_, number)) => Ok(*number),
        None => Err(format!("{name} is not defined")),
    }
}
