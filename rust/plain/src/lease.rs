//! The lease table: who may stop which machine.
//!
//! The table is lent as 2,048 bytes, a 64-bit token for each of 256 addresses,
//! lowest byte first; token 0 marks a free address.

use crate::frame::{self, HOST};
use crate::refusal;

const TABLE_LEN: usize = 256 * TOKEN_LEN;
const TOKEN_LEN: usize = 8;
const FREE: [u8; TOKEN_LEN] = [0; TOKEN_LEN];

/// Set the screen state to terminate the workout.
const TERMINATE: [u8; 6] = [0x76, 0x04, 0x13, 0x02, 0x01, 0x02];

/// Holds a free address for `token`.
///
/// Refusals, in this order: 18, 9, 14, 10.
pub fn hold(table: &mut [u8], address: u32, token: u64) -> Result<(), u8> {
    let address = machine(table, address)?;
    if token == 0 {
        return Err(refusal::TOKEN_ZERO);
    }
    let lease = &mut table.as_chunks_mut().0[usize::from(address)];
    if *lease != FREE {
        return Err(refusal::HELD);
    }
    *lease = token.to_le_bytes();
    Ok(())
}

/// Frees an address with the token that holds it.
///
/// Refusals, in this order: 18, 9, 11.
pub fn release(table: &mut [u8], address: u32, token: u64) -> Result<(), u8> {
    let address = machine(table, address)?;
    check_holder(table, address, token)?;
    table.as_chunks_mut().0[usize::from(address)] = FREE;
    Ok(())
}

/// Writes the frame that stops the machine, for the token that holds it, and
/// returns its length.
///
/// Refusals, in this order: 18, 9, 11, 1.
pub fn stop(table: &[u8], address: u32, token: u64, out: &mut [u8]) -> Result<usize, u8> {
    let address = machine(table, address)?;
    check_holder(table, address, token)?;
    frame::write_extended(address, HOST, &TERMINATE, out)
}

/// The address as a machine's, once the table has its size.
fn machine(table: &[u8], address: u32) -> Result<u8, u8> {
    if table.len() != TABLE_LEN {
        return Err(refusal::TABLE_SIZE);
    }
    frame::machine(address)
}

/// Token 0 never holds, although a free address has 0 in the table.
fn check_holder(table: &[u8], address: u8, token: u64) -> Result<(), u8> {
    let lease = table.as_chunks().0[usize::from(address)];
    if token == 0 || lease != token.to_le_bytes() {
        return Err(refusal::NOT_HOLDER);
    }
    Ok(())
}
