//! What both sides answered and left in their outputs.

use crate::common::SEED;
pub use crate::lent_output::Output;

/// Compares what both sides answered and left in their outputs. `len` tells the length of the result.
pub fn same<T: PartialEq + std::fmt::Debug>(
    ours: (&Result<T, u8>, &Output),
    theirs: (&Result<T, u8>, &Output),
    len: impl Fn(&T) -> usize,
    input: &dyn Fn() -> String,
) {
    assert_eq!(
        ours.0,
        theirs.0,
        "ours (left) and the independent answer (right) differ: {}",
        told(input)
    );
    let written = ours.0.as_ref().map_or(0, &len);
    assert!(
        ours.1.kept_past(written),
        "bytes past the result changed: {}",
        told(input)
    );
    assert!(
        theirs.1.kept_past(written),
        "the independent side changed bytes past the result: {}",
        told(input)
    );
    assert!(
        ours.1.result(written) == theirs.1.result(written),
        "the results differ: ours {}, independent {}: {}",
        hex(ours.1.result(written)),
        hex(theirs.1.result(written)),
        told(input)
    );
}

/// The seed and the input of a failure.
pub fn told(input: &dyn Fn() -> String) -> String {
    format!("seed {SEED:#018X}, {}", input())
}

/// The bytes in hexadecimal. One that is repeated often is told with its number, as `41*65536`.
pub fn hex(bytes: &[u8]) -> String {
    let mut texts = Vec::new();
    for run in bytes.chunk_by(|byte, next| byte == next) {
        match run {
            [byte, _, _, _, _, ..] => texts.push(format!("{byte:02X}*{}", run.len())),
            _ => texts.extend(run.iter().map(|byte| format!("{byte:02X}"))),
        }
    }
    format!("[{}]", texts.join(" "))
}
