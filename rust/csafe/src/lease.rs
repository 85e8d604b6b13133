//! Who may stop which machine: a token for each address.
//!
//! [`LeaseTable`] owns its bytes. The functions of this module do the same on bytes that stand elsewhere, as in
//! shared memory or a mapped file. They take a table of any length and any number as an address, and refuse what is
//! none.
//!
//! # What the caller has to see to
//!
//! Nobody else may access lent bytes during a call: no thread, and where they are in shared memory or a mapped file no
//! other process. The functions take no lock. A mutex, or whatever keeps the others away, is the caller's.
//!
//! A token is as good as the caller's choice of it: it has to be hard to guess, and the line to the machine is not
//! secret. Nothing is promised about how long a comparison of tokens takes, so the time of a refusal may tell how much
//! of a token was right.

use core::fmt;

use crate::{ffi, Error};

/// The length of a table: eight bytes for each of 256 addresses in order, lowest byte first, all 0 where it is free.
pub const TABLE_LEN: usize = 2_048;

/// The most bytes that a stop has on the wire.
pub const STOP_LIMIT: usize = 12;

/// Takes a free address on a lent table. Only its own eight bytes change.
///
/// # Errors
///
/// In this order:
///
/// 1. [`Error::BadTable`]: the table is not [`TABLE_LEN`] long.
/// 2. [`Error::BadAddress`]: the address is not one of 01 to FC.
/// 3. [`Error::ZeroToken`]: the token is 0.
/// 4. [`Error::AlreadyHeld`]: the address is held, with whatever token.
///
/// ```
/// use csafe::{lease, Error};
///
/// let mut table = [0; lease::TABLE_LEN];
/// lease::hold(&mut table, 0x05, 71)?;
/// assert_eq!(table[8 * 0x05], 71);
/// assert_eq!(lease::hold(&mut table[1..], 0x05, 71), Err(Error::BadTable));
/// # Ok::<(), Error>(())
/// ```
#[inline]
pub fn hold(table: &mut [u8], address: u32, token: u64) -> Result<(), Error> {
    ffi::hold(table, address, token).accepted()?;
    Ok(())
}

/// Frees an address on a lent table for its holder. Only its own eight bytes change.
///
/// # Errors
///
/// In this order:
///
/// 1. [`Error::BadTable`]: the table is not [`TABLE_LEN`] long.
/// 2. [`Error::BadAddress`]: the address is not one of 01 to FC.
/// 3. [`Error::NotHolder`]: the token is 0 or not the holder's, or the address is free.
#[inline]
pub fn release(table: &mut [u8], address: u32, token: u64) -> Result<(), Error> {
    ffi::release(table, address, token).accepted()?;
    Ok(())
}

/// Writes, for the holder of an address on a lent table, the frame that ends the machine's workout, and answers its
/// length, which is at most [`STOP_LIMIT`].
///
/// # Errors
///
/// In this order:
///
/// 1. [`Error::BadTable`]: the table is not [`TABLE_LEN`] long.
/// 2. [`Error::BadAddress`]: the address is not one of 01 to FC.
/// 3. [`Error::NotHolder`]: the token is 0 or not the holder's, or the address is free.
/// 4. [`Error::NoRoom`]: the output is shorter than the frame.
#[inline]
pub fn stop(table: &[u8], address: u32, token: u64, out: &mut [u8]) -> Result<usize, Error> {
    Ok(ffi::stop(table, address, token, out).accepted()?.len())
}

/// A table of the tokens that hold the machines, one for each address.
///
/// It is [`TABLE_LEN`] bytes where it stands, and a move copies them.
///
/// ```
/// use csafe::{lease, Error, LeaseTable};
///
/// let mut leases = LeaseTable::new();
/// leases.hold(0x05, 71)?;
/// assert_eq!(leases.hold(0x05, 72), Err(Error::AlreadyHeld));
///
/// let mut wire = [0; lease::STOP_LIMIT];
/// assert_eq!(leases.stop(0x05, 72, &mut wire), Err(Error::NotHolder));
/// let len = leases.stop(0x05, 71, &mut wire)?;
/// assert_eq!(wire[..len], [0xF0, 0x05, 0x00, 0x76, 0x04, 0x13, 0x02, 0x01, 0x02, 0x60, 0xF2]);
///
/// leases.release(0x05, 71)?;
/// assert_eq!(leases.stop(0x05, 71, &mut wire), Err(Error::NotHolder));
/// # Ok::<(), Error>(())
/// ```
#[derive(Clone, PartialEq, Eq)]
pub struct LeaseTable {
    bytes: [u8; TABLE_LEN],
}

impl LeaseTable {
    /// A table on which every address is free.
    #[inline]
    #[must_use]
    pub const fn new() -> LeaseTable {
        LeaseTable::from_bytes([0; TABLE_LEN])
    }

    /// A table from bytes that were kept. Any bytes are a table. A slice is taken by [`TryFrom`].
    ///
    /// ```
    /// use csafe::{Error, LeaseTable};
    ///
    /// let mut leases = LeaseTable::new();
    /// leases.hold(0x05, 71)?;
    /// let kept = *leases.as_bytes();
    /// assert!(LeaseTable::from_bytes(kept) == leases);
    /// assert!(LeaseTable::try_from(&kept[..])? == leases);
    /// assert_eq!(LeaseTable::try_from(&kept[1..]).err(), Some(Error::BadTable));
    /// # Ok::<(), Error>(())
    /// ```
    #[inline]
    #[must_use]
    pub const fn from_bytes(bytes: [u8; TABLE_LEN]) -> LeaseTable {
        LeaseTable { bytes }
    }

    /// The table's bytes. They hold the tokens in the clear.
    #[inline]
    #[must_use]
    pub const fn as_bytes(&self) -> &[u8; TABLE_LEN] {
        &self.bytes
    }

    /// Takes a free address. Only its own eight bytes change.
    ///
    /// # Errors
    ///
    /// In this order:
    ///
    /// 1. [`Error::BadAddress`]: the address is not one of 01 to FC.
    /// 2. [`Error::ZeroToken`]: the token is 0.
    /// 3. [`Error::AlreadyHeld`]: the address is held, with whatever token.
    #[inline]
    pub fn hold(&mut self, address: u8, token: u64) -> Result<(), Error> {
        hold(&mut self.bytes, address.into(), token)
    }

    /// Frees an address for its holder. Only its own eight bytes change.
    ///
    /// # Errors
    ///
    /// In this order:
    ///
    /// 1. [`Error::BadAddress`]: the address is not one of 01 to FC.
    /// 2. [`Error::NotHolder`]: the token is 0 or not the holder's, or the address is free.
    #[inline]
    pub fn release(&mut self, address: u8, token: u64) -> Result<(), Error> {
        release(&mut self.bytes, address.into(), token)
    }

    /// Writes, for the holder, the frame that ends the machine's workout, and answers its length, which is at most
    /// [`STOP_LIMIT`]. The holder keeps the address and may stop it again.
    ///
    /// # Errors
    ///
    /// In this order:
    ///
    /// 1. [`Error::BadAddress`]: the address is not one of 01 to FC.
    /// 2. [`Error::NotHolder`]: the token is 0 or not the holder's, or the address is free.
    /// 3. [`Error::NoRoom`]: the output is shorter than the frame.
    #[inline]
    pub fn stop(&self, address: u8, token: u64, out: &mut [u8]) -> Result<usize, Error> {
        stop(&self.bytes, address.into(), token, out)
    }
}

impl Default for LeaseTable {
    #[inline]
    fn default() -> LeaseTable {
        LeaseTable::new()
    }
}

/// Another length than [`TABLE_LEN`] is [`Error::BadTable`].
impl TryFrom<&[u8]> for LeaseTable {
    type Error = Error;

    fn try_from(bytes: &[u8]) -> Result<LeaseTable, Error> {
        match bytes.try_into() {
            Ok(bytes) => Ok(LeaseTable::from_bytes(bytes)),
            Err(_) => Err(Error::BadTable),
        }
    }
}

/// Shows no tokens, so that a log can't give one away.
impl fmt::Debug for LeaseTable {
    fn fmt(&self, f: &mut fmt::Formatter<'_>) -> fmt::Result {
        f.debug_struct("LeaseTable").finish_non_exhaustive()
    }
}

#[cfg(test)]
mod tests {
    use super::*;

    /// Calls on every address by the holder and by others, on a table that is lent and on one that is owned.
    #[test]
    fn an_owned_table_answers_as_a_lent_one() {
        let (mut lent, mut owned) = ([0; TABLE_LEN], LeaseTable::new());
        for address in 0..=u8::MAX {
            let number = u32::from(address);
            for token in [0, 71, 72, 71] {
                let (mut wire, mut owned_wire) = ([0; STOP_LIMIT], [0; STOP_LIMIT]);
                let held = hold(&mut lent, number, token);
                assert_eq!(owned.hold(address, token), held);
                let stopped = stop(&lent, number, token, &mut wire);
                assert_eq!(owned.stop(address, token, &mut owned_wire), stopped);
                assert_eq!(owned_wire, wire);
                assert_eq!(owned.as_bytes(), &lent);
                assert_eq!(
                    owned.release(address, 71),
                    release(&mut lent, number, 71),
                    "address {address:02X}"
                );
                assert_eq!(owned.as_bytes(), &lent);
            }
        }
    }
}
