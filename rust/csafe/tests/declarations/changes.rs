//! Changed copies of the files, each of which has to be told apart.

use crate::Texts;

/// What stands in a file, what is put in its place, and the name or type that has to be reported.
type Change = (&'static str, &'static str, &'static str);

#[rustfmt::skip]
const OF_SOURCE: [Change; 18] = [
    ("to: u8, from: u8", "from: u8, to: u8", "csafe_write_extended"),
    ("csafe_extended_length(to: u8, from: u8", "csafe_extended_length(from: u8, to: u8", "csafe_extended_length"),
    ("csafe_standard_length(contents: &[u8]", "csafe_standard_length(contents: &mut [u8]", "csafe_standard_length"),
    ("#[unsafe(no_mangle)]\npub extern \"C\" fn csafe_finish", "fn csafe_finish", "csafe_finish"),
    ("watts: u16", "watts: u32", "csafe_write_distance_workout"),
    ("csafe_stop(table: &[u8]", "csafe_stop(table: &mut [u8]", "csafe_stop"),
    ("[u8; 118]", "[u8; 117]", "csafe_feed"),
    ("token: u64", "token: i64", "i64"),
    ("#[unsafe(no_mangle)]", "", "extern"),
    ("counts: &mut u64, position: &mut u32) -> u64", "counts: &mut u64, position: &mut u32) -> u32", "u32"),
    ("counts: &mut u64, position: &mut u32)", "counts: &mut u64, position: &mut u64)", "csafe_finish"),
    ("csafe_finish(state: &mut u64, counts", "csafe_finish(counts: &mut u64, state", "csafe_finish"),
    ("csafe_trace_read(wire: &[u8]", "csafe_trace_read(wire: &mut [u8]", "csafe_trace_read"),
    ("letter: u8,\n    tens: u8", "tens: u8,\n    letter: u8", "csafe_packet_write"),
    ("[u8; 254]", "[u8; 253]", "csafe_packet_feed"),
    ("csafe_packet_read(wire: &[u8]", "csafe_packet_read(wire: &mut [u8]", "csafe_packet_read"),
    ("csafe_packet_finish(state: &mut u64", "csafe_packet_finish(state: &mut u32", "csafe_packet_finish"),
    ("address: u32", "address: u8", "csafe_write_distance_workout_frame"),
];

#[rustfmt::skip]
const OF_BLOCK: [Change; 18] = [
    ("to: u8, from: u8", "from: u8, to: u8", "csafe_write_extended"),
    ("csafe_extended_length(to: u8, from: u8", "csafe_extended_length(from: u8, to: u8", "csafe_extended_length"),
    ("csafe_standard_length(contents: *const u8", "csafe_standard_length(contents: *mut u8", "csafe_standard_length"),
    ("pub fn csafe_finish(state: *mut u64, counts: *mut u64, position: *mut u32) -> u64;", "", "csafe_finish"),
    ("pub fn csafe_finish", "pub fn csafe_reset(state: *mut u64) -> u64; pub fn csafe_finish", "csafe_reset"),
    ("watts: u16", "watts: u32", "csafe_write_distance_workout"),
    ("contents_len: usize", "contents_len: u32", "csafe_write_standard"),
    ("wire: *const u8", "wire: *mut u8", "csafe_read"),
    ("taken: *mut u64", "taken: *mut u16", "u16"),
    ("position: *mut u32", "position: *mut u64", "csafe_feed"),
    ("state: *mut u64, counts: *mut u64", "counts: *mut u64, state: *mut u64", "csafe_feed"),
    ("address: u32, token: u64)", "address: u32)", "csafe_hold"),
    ("wire_len", "length", "csafe_read"),
    ("csafe_trace_read(wire: *const u8", "csafe_trace_read(wire: *mut u8", "csafe_trace_read"),
    ("letter: u8, tens: u8", "tens: u8, letter: u8", "csafe_packet_write"),
    ("csafe_packet_read(wire: *const u8", "csafe_packet_read(wire: *mut u8", "csafe_packet_read"),
    ("pub fn csafe_packet_finish(state: *mut u64) -> u64;", "", "csafe_packet_finish"),
    ("address: u32", "address: u8", "csafe_write_distance_workout_frame"),
];

#[rustfmt::skip]
const OF_HEADER: [Change; 19] = [
    ("uint8_t to, uint8_t from", "uint8_t from, uint8_t to", "csafe_write_extended"),
    ("csafe_extended_length(uint8_t to, uint8_t from", "csafe_extended_length(uint8_t from, uint8_t to",
        "csafe_extended_length"),
    ("csafe_standard_length(const uint8_t", "csafe_standard_length(uint8_t", "csafe_standard_length"),
    ("uint64_t csafe_finish(uint64_t *state, uint64_t *counts, uint32_t *position);", "", "csafe_finish"),
    ("uint64_t csafe_finish", "uint64_t csafe_reset(uint64_t *state); uint64_t csafe_finish", "csafe_reset"),
    ("uint32_t *position", "uint64_t *position", "csafe_feed"),
    ("uint64_t *state, uint64_t *counts", "uint64_t *counts, uint64_t *state", "csafe_feed"),
    ("uint16_t watts", "uint32_t watts", "csafe_write_distance_workout"),
    ("size_t contents_len", "uint32_t contents_len", "csafe_write_standard"),
    ("const uint8_t *wire", "uint8_t *wire", "csafe_read"),
    ("#define CSAFE_LINE_LEN 118", "#define CSAFE_LINE_LEN 117", "csafe_feed"),
    ("split_metres", "split_hundredths", "csafe_write_distance_workout"),
    ("enum {", "union {", "union"),
    ("csafe_trace_read(const uint8_t", "csafe_trace_read(uint8_t", "csafe_trace_read"),
    ("uint8_t letter, uint8_t tens", "uint8_t tens, uint8_t letter", "csafe_packet_write"),
    ("csafe_packet_read(const uint8_t", "csafe_packet_read(uint8_t", "csafe_packet_read"),
    ("uint64_t csafe_packet_finish(uint64_t *state);", "", "csafe_packet_finish"),
    ("#define CSAFE_PACKET_LINE_LEN 254", "#define CSAFE_PACKET_LINE_LEN 253", "csafe_packet_feed"),
    ("uint32_t address", "uint8_t address", "csafe_write_distance_workout_frame"),
];

/// Makes each change at the first place where it applies, and has it reported.
fn check_reported(changes: &[Change], text: fn(&mut Texts) -> &mut String) {
    for (from, to, reported) in changes {
        let mut texts = Texts::read();
        let text = text(&mut texts);
        assert!(text.contains(from), "there is no `{from}` to change");
        *text = text.replacen(from, to, 1);
        let Err(difference) = texts.check() else {
            panic!("`{from}` changed to `{to}` is not noticed");
        };
        assert!(
            difference.contains(reported),
            "`{from}` changed to `{to}` is told as: {difference}"
        );
    }
}

#[test]
fn a_changed_source_is_told_apart() {
    check_reported(&OF_SOURCE, |texts| &mut texts.source);
}

#[test]
fn a_changed_block_is_told_apart() {
    check_reported(&OF_BLOCK, |texts| &mut texts.ffi);
}

#[test]
fn a_changed_header_is_told_apart() {
    check_reported(&OF_HEADER, |texts| &mut texts.header);
}
