//! What a declaration says, and how two lists of them are compared.

/// What a parameter is when a C program calls the function.
#[derive(Clone, Copy, Debug, PartialEq, Eq)]
pub enum Type {
    U8,
    U16,
    U32,
    U64,
    /// The length of the slice before it.
    Length,
    ConstBytes,
    MutBytes,
    /// A pointer to this many bytes, without their length.
    MutArray(usize),
    MutU32,
    MutU64,
}

pub type Parameter = (String, Type);

/// A function that answers a `u64`, as all of them do.
#[derive(Clone, Debug, PartialEq, Eq)]
pub struct Function {
    pub name: String,
    pub parameters: Vec<Parameter>,
}

/// Parameters whose unit stands in their type in Rattle and in their name elsewhere.
#[rustfmt::skip]
const WITH_UNIT: [(&str, &str, &str); 4] = [
    ("csafe_write_distance_workout", "split", "split_metres"),
    ("csafe_write_time_workout", "split", "split_hundredths"),
    ("csafe_write_distance_workout_frame", "split", "split_metres"),
    ("csafe_write_time_workout_frame", "split", "split_hundredths"),
];

/// Answers the first difference between what is expected and what is found.
pub fn compare(expected: &[Function], found: &[Function]) -> Result<(), String> {
    for function in expected {
        if !found.iter().any(|other| other.name == function.name) {
            return Err(format!("{} is missing", function.name));
        }
    }
    for (at, function) in found.iter().enumerate() {
        match expected.get(at) {
            Some(other) if other.name == function.name => compare_function(other, function)?,
            _ => return Err(format!("{} is not expected there", function.name)),
        }
    }
    Ok(())
}

fn compare_function(expected: &Function, found: &Function) -> Result<(), String> {
    let name = &expected.name;
    let (count, found_count) = (expected.parameters.len(), found.parameters.len());
    if count != found_count {
        return Err(format!("{name} has {found_count} parameters, not {count}"));
    }
    for (parameter, other) in expected.parameters.iter().zip(&found.parameters) {
        if parameter.1 != other.1 || !named_alike(name, &parameter.0, &other.0) {
            return Err(format!("{name} has {other:?}, not {parameter:?}"));
        }
    }
    Ok(())
}

fn named_alike(function: &str, expected: &str, found: &str) -> bool {
    expected == found || WITH_UNIT.contains(&(function, expected, found))
}

/// The same functions, with pointers to bytes in place of arrays.
pub fn without_array_lengths(functions: &[Function]) -> Vec<Function> {
    let mut functions = functions.to_vec();
    for (_, kind) in functions
        .iter_mut()
        .flat_map(|function| &mut function.parameters)
    {
        if matches!(kind, Type::MutArray(_)) {
            *kind = Type::MutBytes;
        }
    }
    functions
}
