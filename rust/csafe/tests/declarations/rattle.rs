//! The exported functions of the Rattle source.

use crate::signature::{Function, Parameter, Type};
use crate::tokens::{without_comments, Tokens};

/// Every `#[unsafe(no_mangle)] pub extern "C" fn`, in order.
pub fn exported(text: &str) -> Result<Vec<Function>, String> {
    let text = without_comments(text, "//", "\n");
    let mut tokens = Tokens::of(&text);
    let mut functions = Vec::new();
    while tokens.move_past(&["#", "[", "unsafe", "(", "no_mangle", ")", "]"]) {
        functions.push(function(&mut tokens)?);
    }
    for word in ["extern", "no_mangle"] {
        let count = tokens.count(word);
        if count != functions.len() {
            return Err(format!(
                "`{word}` stands {count} times, for {} functions",
                functions.len()
            ));
        }
    }
    Ok(functions)
}

fn function(tokens: &mut Tokens) -> Result<Function, String> {
    tokens.expect(&["pub", "extern", "\"C\"", "fn"])?;
    let name = tokens.word()?.to_string();
    let mut parameters = Vec::new();
    for part in tokens.parts()? {
        parameters.extend(lent(&part)?);
    }
    tokens.expect(&["-", ">", "u64"])?;
    Ok(Function { name, parameters })
}

/// What a C program gives for one parameter. A slice is a pointer and a length.
fn lent(part: &[&str]) -> Result<Vec<Parameter>, String> {
    let [name, ":", kind @ ..] = part else {
        return Err(format!("{part:?} is no parameter"));
    };
    let one = |kind| Ok(vec![(name.to_string(), kind)]);
    let slice = |kind| {
        let length = (format!("{name}_len"), Type::Length);
        Ok(vec![(name.to_string(), kind), length])
    };
    match kind {
        ["u8"] => one(Type::U8),
        ["u16"] => one(Type::U16),
        ["u32"] => one(Type::U32),
        ["u64"] => one(Type::U64),
        ["&", "mut", "u32"] => one(Type::MutU32),
        ["&", "mut", "u64"] => one(Type::MutU64),
        ["&", "[", "u8", "]"] => slice(Type::ConstBytes),
        ["&", "mut", "[", "u8", "]"] => slice(Type::MutBytes),
        ["&", "mut", "[", "u8", ";", len, "]"] => match len.parse() {
            Ok(len) => one(Type::MutArray(len)),
            Err(_) => Err(format!("{len} is no length")),
        },
        _ => Err(format!("{} is an unknown type", kind.concat())),
    }
}
