//! The functions that `src/ffi.rs` declares.

use crate::signature::{Function, Parameter, Type};
use crate::tokens::{without_comments, Tokens};

/// The functions of the one block of declarations, in order.
pub fn declared(text: &str) -> Result<Vec<Function>, String> {
    let text = without_comments(text, "//", "\n");
    let mut tokens = Tokens::of(&text);
    let blocks = tokens.count("extern");
    if blocks != 1 || !tokens.move_past(&["extern", "\"C\"", "{"]) {
        return Err(format!(
            "`extern` stands {blocks} times, where one block was expected"
        ));
    }
    let mut functions = Vec::new();
    loop {
        match tokens.next() {
            Some("pub") => functions.push(function(&mut tokens)?),
            Some("}") => return Ok(functions),
            other => return Err(format!("{other:?} stands in the block")),
        }
    }
}

fn function(tokens: &mut Tokens) -> Result<Function, String> {
    tokens.expect(&["fn"])?;
    let name = tokens.word()?.to_string();
    let parts = tokens.parts()?;
    tokens.expect(&["-", ">", "u64", ";"])?;
    let parameters = parts
        .iter()
        .map(|part| parameter(part))
        .collect::<Result<_, _>>()?;
    Ok(Function { name, parameters })
}

fn parameter(part: &[&str]) -> Result<Parameter, String> {
    let [name, ":", kind @ ..] = part else {
        return Err(format!("{part:?} is no parameter"));
    };
    let kind = match kind {
        ["u8"] => Type::U8,
        ["u16"] => Type::U16,
        ["u32"] => Type::U32,
        ["u64"] => Type::U64,
        ["usize"] => Type::Length,
        ["*", "const", "u8"] => Type::ConstBytes,
        ["*", "mut", "u8"] => Type::MutBytes,
        ["*", "mut", "u32"] => Type::MutU32,
        ["*", "mut", "u64"] => Type::MutU64,
        _ => return Err(format!("{} is an unknown type", kind.concat())),
    };
    Ok((name.to_string(), kind))
}
