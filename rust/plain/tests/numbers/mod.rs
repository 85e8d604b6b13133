//! The numbers of several bytes in the CSAFE definition's appendix B, and that of
//! the PM3/PM4 interface definition (N4817). A name has the line in the document.

/// The byte that stands first where a number is printed.
#[derive(Clone, Copy, PartialEq, Eq)]
pub enum First {
    Low,
    High,
}

/// Numbers put together: name, bytes as printed (in decimal), which is first, value.
#[rustfmt::skip]
pub const COMBINED: &[(&str, &[u8], First, u64)] = &[
    ("N3627", &[0, 200], First::High, 200),
    ("N3629", &[1, 150], First::High, 406),
    ("N3631", &[8, 0], First::High, 2_048),
    ("N3633", &[50, 15], First::High, 12_815),
    ("N3635", &[100, 23], First::High, 25_623),
    ("N3655", &[33, 3, 0], First::Low, 801),
    ("N3656", &[150, 8, 4], First::Low, 264_342),
    // Printed 663,106.
    ("N3657", &[50, 30, 10], First::Low, 663_090),
    ("N3674", &[4, 3, 2, 1], First::Low, 16_909_060),
    ("N3676", &[1, 2, 3, 4], First::Low, 67_305_985),
    // The first two bytes of D0 07 24.
    ("N4817", &[0xD0, 0x07], First::Low, 2_000),
];

/// Numbers taken apart: name, value, bytes as printed, which is first.
#[rustfmt::skip]
pub const TAKEN_APART: &[(&str, u64, &[u8], First)] = &[
    ("N3705", 257, &[1, 1], First::High),
    ("N3709", 32_767, &[127, 255], First::High),
    ("N3713", 63, &[0, 63], First::High),
    ("N3717", 60_000, &[234, 96], First::High),
    ("N3745", 65_537, &[1, 0, 1], First::Low),
    ("N3748", 150_000, &[240, 73, 2], First::Low),
    ("N3751", 57, &[57, 0, 0], First::Low),
    ("N3777", 16_909_060, &[4, 3, 2, 1], First::Low),
    ("N3782", 67_305_985, &[1, 2, 3, 4], First::Low),
];
