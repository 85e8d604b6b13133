/*
 * CSAFE frames of a live line and of stored traces, programmed workouts, machine leases and treadmill packets.
 *
 * Link target/staticlib/libexports.a, which `tools/staticlibs exports` makes. Two kinds of functions, at the end, stand in
 * libraries of their own: those for stored traces in target/staticlib/libtrace_exports.a, which
 * `tools/staticlibs trace_exports` makes, and those for treadmill packets in target/staticlib/libcoscom_exports.a, which
 * `tools/staticlibs coscom_exports` makes.
 *
 * A slice is a pointer and a length. Every function takes any numbers and any slices, returns, and answers one
 * 64-bit number: a result or a refusal. A refusal changes no lent byte, but that a packet reader, and a line reader
 * that is not full, goes on, and that every call of one sets the numbers that it answers with. After a result the bytes
 * of the output past it are as they were.
 *
 * The slices and numbers that are lent to one call must not overlap, and nobody else may access them during the call:
 * no thread, and where they are in shared memory or a mapped file no other process. The functions take no lock. The
 * pointer of an empty slice is not followed. No pointer to a number or to a reader's bytes may be null.
 *
 * Bytes and addresses of two digits, as F3, are hexadecimal in these comments.
 */
#ifndef CSAFE_H
#define CSAFE_H

#include <stddef.h>
#include <stdint.h>

#ifdef __cplusplus
extern "C" {
#endif

/* The most bytes of a frame on the wire, its flags and escapes included. */
#define CSAFE_WIRE_LIMIT 120

/*
 * The most bytes of a frame's contents. Only a standard frame has so many, and only a trace has standard frames; an
 * extended one has at most 115. An output of this length has room for every frame that is read.
 */
#define CSAFE_CONTENTS_LIMIT 117

/* The bytes of a line reader. */
#define CSAFE_LINE_LEN 118

/* The most bytes that one call of a line reader or of a packet reader takes. */
#define CSAFE_CHUNK_LIMIT 65536

/* The most bytes that a line reader takes since it was new or finished last. */
#define CSAFE_LINE_LIMIT 4294967295

/* The bytes of a workout's contents. */
#define CSAFE_WORKOUT_LEN 23

/* No workout's frame has more bytes than this on the wire, so an output of this length has room for every one. */
#define CSAFE_WORKOUT_FRAME_LIMIT 54

/* The most bytes of a stop on the wire. */
#define CSAFE_STOP_LIMIT 12

/* The bytes of a lease table. */
#define CSAFE_TABLE_LEN 2048

/* The most bytes of a treadmill packet on the wire, its flags included. */
#define CSAFE_PACKET_LIMIT 256

/* The most bytes of a packet's data unit. An output of this length has room for every packet that is read. */
#define CSAFE_UNIT_LIMIT 249

/* The bytes of a packet around its data unit, which is the room that writing needs beside the data unit's own. */
#define CSAFE_PACKET_OVERHEAD 7

/* The bytes of a packet reader. */
#define CSAFE_PACKET_LINE_LEN 254

/*
 * The numbers of the refusals that the functions below give. Each function's comment lists its own in order: the first
 * that holds is given. Any other number than CSAFE_OK is a refusal too.
 */
enum {
    CSAFE_OK = 0,
    CSAFE_NO_ROOM = 1,        /* the output is shorter than the result */
    CSAFE_TOO_LONG = 2,       /* the frame is over 120 bytes on the wire, or the packet over 256 */
    CSAFE_BAD_ESCAPE = 3,     /* F3 is not followed by 00 to 03 */
    CSAFE_TOO_SHORT = 4,      /* a checksum or an address is missing, or a packet has under 5 bytes between its flags */
    CSAFE_BAD_CHECKSUM = 5,   /* the checksum is not that of the contents, or of a packet's header and data unit */
    CSAFE_TRUNCATED = 6,      /* not one frame or packet from its start flag to its stop flag */
    CSAFE_BAD_ADDRESS = 9,    /* the address is not one of 01 to FC */
    CSAFE_ALREADY_HELD = 10,  /* the address is held already */
    CSAFE_NOT_HOLDER = 11,    /* the token is 0 or not the holder's, or the address is free */
    CSAFE_OUT_OF_LIMITS = 12, /* a number of the workout is outside its limits */
    CSAFE_ZERO_TOKEN = 14,    /* the token is 0 */
    CSAFE_FULL = 16,          /* the line reader takes no more bytes before it is finished */
    CSAFE_UNNAMED = 17,       /* a standard frame names no sender, so a live line takes none */
    CSAFE_BAD_TABLE = 18,     /* the lease table is not 2,048 bytes long */
    CSAFE_BAD_CHARACTER = 22  /* a byte of a packet is not allowed at its place */
};

/*
 * The kinds of a frame that was read, and what stands for a kind where a line reader told nothing. Only the functions
 * for traces read standard frames.
 */
enum {
    CSAFE_STANDARD = 0,
    CSAFE_EXTENDED = 1,
    CSAFE_NOTHING = 2
};

/*
 * The layout of an answer of all functions but those for packets:
 *
 *   bits  0 to  7   the refusal's number, 0 for a result
 *   bits  8 to 15   the kind of the frame that was read, 2 where a line reader told nothing
 *   bits 16 to 23   its destination, 0 for a standard frame
 *   bits 24 to 31   its source, 0 for a standard frame
 *   bits 32 to 63   the length of the result: contents read, bytes written, or bytes that writing takes
 *
 * A refusal has its number and is 0 otherwise. Kind, destination and source are 0 for all functions that read no frame,
 * and the length is 0 for hold and release.
 *
 * The layout of an answer of the functions for packets:
 *
 *   bits  0 to  7   the refusal's number, 0 for a result
 *   bits  8 to 15   the letter of the header that was read, as the byte that it is on the wire
 *   bits 16 to 23   the byte of the header's first digit
 *   bits 24 to 31   the byte of its second digit
 *   bits 32 to 63   the length of the result: data unit read, or bytes written
 *
 * A refusal has its number and is 0 otherwise. Letter and digits are 0 where no packet was read. Where a packet reader
 * told nothing, the whole answer is 0, and CSAFE_NOTHING is not used. It is not 0 where a packet is told, because a
 * letter is not.
 */

/* The refusal's number, CSAFE_OK for a result. */
static inline uint8_t csafe_number(uint64_t answer) { return (uint8_t)(answer & 0xFF); }

/* The kind of the frame that was read. */
static inline uint8_t csafe_kind(uint64_t answer) { return (uint8_t)((answer >> 8) & 0xFF); }

/* The destination of the extended frame that was read. The checksum does not cover it. */
static inline uint8_t csafe_to(uint64_t answer) { return (uint8_t)((answer >> 16) & 0xFF); }

/* The source of the extended frame that was read. The checksum does not cover it. */
static inline uint8_t csafe_from(uint64_t answer) { return (uint8_t)((answer >> 24) & 0xFF); }

/* The length of the result. */
static inline uint32_t csafe_length(uint64_t answer) { return (uint32_t)(answer >> 32); }

/* The letter of the packet that was read, 0 where a packet reader told nothing. */
static inline uint8_t csafe_letter(uint64_t answer) { return (uint8_t)((answer >> 8) & 0xFF); }

/* The byte of the first digit in the header of the packet that was read. */
static inline uint8_t csafe_tens(uint64_t answer) { return (uint8_t)((answer >> 16) & 0xFF); }

/* The byte of the second digit in the header of the packet that was read. */
static inline uint8_t csafe_ones(uint64_t answer) { return (uint8_t)((answer >> 24) & 0xFF); }

/*
 * Writes nothing. A standard frame names no sender, so none goes out on a live line, and a program that asks for one is
 * told so. What it has to send goes through csafe_write_extended. csafe_trace_write_standard writes one into a stored
 * trace.
 * Refused: CSAFE_UNNAMED, always.
 */
uint64_t csafe_write_standard(const uint8_t *contents, size_t contents_len, uint8_t *out, size_t out_len);

/*
 * Writes an extended frame first in the output and answers its length on the wire. Any addresses are taken. A frame
 * that stops a workout goes through csafe_stop, which asks for the holder's token.
 * Refused, in this order: CSAFE_TOO_LONG, CSAFE_NO_ROOM.
 */
uint64_t csafe_write_extended(uint8_t to, uint8_t from, const uint8_t *contents, size_t contents_len, uint8_t *out,
                              size_t out_len);

/*
 * Tells no length, because csafe_write_standard writes no frame. A program that asks for it is told why.
 * csafe_trace_standard_length tells the length in a stored trace.
 * Refused: CSAFE_UNNAMED, always.
 */
uint64_t csafe_standard_length(const uint8_t *contents, size_t contents_len);

/*
 * Answers how many bytes an extended frame takes on the wire, which is the room that csafe_write_extended needs. Any
 * addresses are taken, and one that is F0 to F3 takes two bytes.
 * Refused: CSAFE_TOO_LONG.
 */
uint64_t csafe_extended_length(uint8_t to, uint8_t from, const uint8_t *contents, size_t contents_len);

/*
 * Reads a slice that has to be one frame of a live line, from its start flag to its stop flag. Puts its contents first
 * in the output and answers its kind, its addresses and the length of its contents. A standard frame is refused, one
 * that is damaged for its damage.
 * Refused, in this order: CSAFE_TRUNCATED, CSAFE_TOO_LONG, CSAFE_BAD_ESCAPE, CSAFE_TOO_SHORT, CSAFE_BAD_CHECKSUM,
 * CSAFE_UNNAMED, CSAFE_NO_ROOM.
 */
uint64_t csafe_read(const uint8_t *wire, size_t wire_len, uint8_t *out, size_t out_len);

/*
 * Feeds bytes of a live line to a reader up to the first that is answered, and sets `taken` to how many were taken and
 * `position` to the position of the answer.
 *
 * A reader is CSAFE_LINE_LEN bytes and two numbers that go with them, its state and its counts. A new one has 0 for
 * both. Any bytes and any numbers are a reader. The state says how many of the bytes are held, and more than there are
 * counts as all. The counts have
 *
 *   bits  0 to 31   the position of the last start flag, which matters only while a candidate is open
 *   bits 32 to 63   how many bytes were taken since the reader was new or finished last
 *
 * No call holds a flag. Where the caller's own bytes have one among those held, the candidate is refused at its stop
 * flag as CSAFE_TRUNCATED, unless it is too long.
 *
 * A candidate for a frame begins at a start flag. At its stop flag it is answered as csafe_read answers a slice, its
 * contents being the first bytes of the reader, or refused. Where nothing is told, the kind is CSAFE_NOTHING and all
 * bytes were taken, or the first CSAFE_CHUNK_LIMIT of them, or, where the reader becomes full before that, as many as
 * it could still take. The next call has to start right after the last byte taken. However a stream that the reader
 * can take is cut into calls, its answers are those of its bytes fed one by one.
 *
 * The position of an answer, a refusal too, is that of the candidate's start flag: how many bytes the reader had taken
 * before it since it was new or finished last. It is 0 where nothing is told.
 *
 * An input longer than CSAFE_CHUNK_LIMIT is cut to its first CSAFE_CHUNK_LIMIT bytes, so where nothing is told of
 * those, that many were taken. Of an empty input none are taken and nothing is told.
 *
 * A reader takes CSAFE_LINE_LIMIT bytes. A call stops before the byte that would be one more, and tells nothing of it.
 * Where that is its first byte, the call is refused as CSAFE_FULL, whatever the byte is. Then `taken` and `position`
 * are 0, and the reader stays as it is. It takes bytes again after csafe_finish. A loop that feeds again what was not
 * taken has to finish the reader here, or it never ends.
 *
 * Refused at the first byte, before any other: CSAFE_FULL where the reader has taken CSAFE_LINE_LIMIT bytes.
 * Refused where a start flag comes before the stop flag: CSAFE_TRUNCATED, and the flag begins the next candidate.
 * Refused at the stop flag, in this order: CSAFE_TOO_LONG, CSAFE_BAD_ESCAPE, CSAFE_TOO_SHORT, CSAFE_BAD_CHECKSUM,
 * CSAFE_UNNAMED.
 */
uint64_t csafe_feed(uint8_t bytes[CSAFE_LINE_LEN], uint64_t *state, uint64_t *counts, const uint8_t *input,
                    size_t input_len, uint64_t *taken, uint32_t *position);

/*
 * Ends the input of a reader, of a live line or of a trace, which is as new afterwards: both numbers are 0, positions
 * begin at 0 again, and one that was full takes bytes. The reader's bytes stay as they are. Sets `position` to that of
 * the start flag of the open candidate. Where none was open, the kind is CSAFE_NOTHING and the position 0.
 * Refused: CSAFE_TRUNCATED where a candidate for a frame was open.
 */
uint64_t csafe_finish(uint64_t *state, uint64_t *counts, uint32_t *position);

/*
 * Writes the contents of a workout over a distance first in the output and answers their length, CSAFE_WORKOUT_LEN.
 * The distance is 100 to 50,000 m, the split at least 100 m and at most the distance. There are at most 30 splits, the
 * last of which may be shorter. The power is any number.
 * Refused, in this order: CSAFE_OUT_OF_LIMITS, CSAFE_NO_ROOM.
 */
uint64_t csafe_write_distance_workout(uint32_t metres, uint32_t split_metres, uint16_t watts, uint8_t *out,
                                      size_t out_len);

/*
 * Writes the contents of a workout over a time first in the output and answers their length, CSAFE_WORKOUT_LEN. The
 * time is 20 to 35,999 s, the split at least 2,000 hundredths of a second and at most the time. There are at most 30
 * splits, the last of which may be shorter. The power is any number.
 * Refused, in this order: CSAFE_OUT_OF_LIMITS, CSAFE_NO_ROOM.
 */
uint64_t csafe_write_time_workout(uint32_t seconds, uint32_t split_hundredths, uint16_t watts, uint8_t *out,
                                  size_t out_len);

/*
 * Writes the extended frame from the host, 00, to this address whose contents are those that
 * csafe_write_distance_workout writes. It stands first in the output, and its length on the wire is answered, which is
 * at most CSAFE_WORKOUT_FRAME_LIMIT.
 * Refused, in this order: CSAFE_BAD_ADDRESS, CSAFE_OUT_OF_LIMITS, CSAFE_NO_ROOM.
 */
uint64_t csafe_write_distance_workout_frame(uint32_t address, uint32_t metres, uint32_t split_metres, uint16_t watts,
                                            uint8_t *out, size_t out_len);

/*
 * Writes the extended frame from the host, 00, to this address whose contents are those that
 * csafe_write_time_workout writes. It stands first in the output, and its length on the wire is answered, which is at
 * most CSAFE_WORKOUT_FRAME_LIMIT.
 * Refused, in this order: CSAFE_BAD_ADDRESS, CSAFE_OUT_OF_LIMITS, CSAFE_NO_ROOM.
 */
uint64_t csafe_write_time_workout_frame(uint32_t address, uint32_t seconds, uint32_t split_hundredths, uint16_t watts,
                                        uint8_t *out, size_t out_len);

/*
 * Takes a free address on a lease table. Only its own eight bytes change.
 *
 * A table has eight bytes for each of 256 addresses in order, lowest byte first, all 0 where the address is free. A new
 * table is all 0. A token has to be hard to guess. Nothing is promised about how long a comparison of tokens takes.
 * Refused, in this order: CSAFE_BAD_TABLE, CSAFE_BAD_ADDRESS, CSAFE_ZERO_TOKEN, CSAFE_ALREADY_HELD.
 */
uint64_t csafe_hold(uint8_t *table, size_t table_len, uint32_t address, uint64_t token);

/*
 * Frees an address for its holder. Only its own eight bytes change.
 * Refused, in this order: CSAFE_BAD_TABLE, CSAFE_BAD_ADDRESS, CSAFE_NOT_HOLDER.
 */
uint64_t csafe_release(uint8_t *table, size_t table_len, uint32_t address, uint64_t token);

/*
 * Writes, for the holder, the frame that ends the machine's workout first in the output and answers its length on the
 * wire, which is at most CSAFE_STOP_LIMIT. The holder keeps the address.
 * Refused, in this order: CSAFE_BAD_TABLE, CSAFE_BAD_ADDRESS, CSAFE_NOT_HOLDER, CSAFE_NO_ROOM.
 */
uint64_t csafe_stop(const uint8_t *table, size_t table_len, uint32_t address, uint64_t token, uint8_t *out,
                    size_t out_len);

/*
 * The functions for stored traces, in which standard frames are read as they stand. They are for traces that are kept
 * on disk and for tests. Bytes that go to a machine or come from one must not go through them. A program that has no
 * trace to read or write does without their library.
 */

/*
 * Writes a standard frame of a trace first in the output and answers its length on the wire.
 * Refused, in this order: CSAFE_TOO_LONG, CSAFE_NO_ROOM.
 */
uint64_t csafe_trace_write_standard(const uint8_t *contents, size_t contents_len, uint8_t *out, size_t out_len);

/*
 * Answers how many bytes a standard frame of a trace takes on the wire, which is the room that
 * csafe_trace_write_standard needs.
 * Refused: CSAFE_TOO_LONG.
 */
uint64_t csafe_trace_standard_length(const uint8_t *contents, size_t contents_len);

/*
 * As csafe_read, of a trace: a frame of either kind is read.
 * Refused, in this order: CSAFE_TRUNCATED, CSAFE_TOO_LONG, CSAFE_BAD_ESCAPE, CSAFE_TOO_SHORT, CSAFE_BAD_CHECKSUM,
 * CSAFE_NO_ROOM.
 */
uint64_t csafe_trace_read(const uint8_t *wire, size_t wire_len, uint8_t *out, size_t out_len);

/*
 * As csafe_feed, of a trace: at its stop flag a candidate is answered as csafe_trace_read answers a slice. The reader
 * does not hold whether it is fed a trace, so all bytes of a trace are fed here.
 * Refused at the first byte, before any other: CSAFE_FULL where the reader has taken CSAFE_LINE_LIMIT bytes.
 * Refused where a start flag comes before the stop flag: CSAFE_TRUNCATED, and the flag begins the next candidate.
 * Refused at the stop flag, in this order: CSAFE_TOO_LONG, CSAFE_BAD_ESCAPE, CSAFE_TOO_SHORT, CSAFE_BAD_CHECKSUM.
 */
uint64_t csafe_trace_feed(uint8_t bytes[CSAFE_LINE_LEN], uint64_t *state, uint64_t *counts, const uint8_t *input,
                          size_t input_len, uint64_t *taken, uint32_t *position);

/*
 * The functions for treadmill packets, of the coscom protocol. They stand in target/staticlib/libcoscom_exports.a, and
 * a program that serves no treadmill does without it.
 *
 * A packet is the start flag 01, a header, a data unit, a checksum and the stop flag 17. The header is a letter A to Z
 * and two digits. The data unit has the bytes 20 to 7E and 1D alone, so that no flag stands in it and nothing is
 * escaped. The checksum is the sum of header and data unit modulo 100, as two digits. A packet has at most
 * CSAFE_PACKET_LIMIT bytes.
 */

/*
 * Writes a packet first in the output and answers its length on the wire, which is CSAFE_PACKET_OVERHEAD more than that
 * of the data unit. The header is the letter and the bytes of the two digits, as 53, 30 and 32 for S02.
 * Refused, in this order: CSAFE_TOO_LONG, CSAFE_BAD_CHARACTER, CSAFE_NO_ROOM.
 */
uint64_t csafe_packet_write(uint8_t letter, uint8_t tens, uint8_t ones, const uint8_t *unit, size_t unit_len,
                            uint8_t *out, size_t out_len);

/*
 * Reads a slice that has to be one packet, from its start flag to its stop flag. Puts its data unit first in the output
 * and answers its header and the length of its data unit.
 * Refused, in this order: CSAFE_TRUNCATED, CSAFE_TOO_LONG, CSAFE_TOO_SHORT, CSAFE_BAD_CHARACTER, CSAFE_BAD_CHECKSUM,
 * CSAFE_NO_ROOM.
 */
uint64_t csafe_packet_read(const uint8_t *wire, size_t wire_len, uint8_t *out, size_t out_len);

/*
 * Feeds bytes of a treadmill's line to a packet reader up to the first that is answered, and sets `taken` to how many
 * were taken.
 *
 * A packet reader is CSAFE_PACKET_LINE_LEN bytes and a number that goes with them, its state, which is 0 for a new one.
 * Any bytes and any number are a reader. The state has
 *
 *   bits  0 to  1   0 outside of a candidate, 1 in one, 2 or 3 in one that has more than CSAFE_PACKET_LINE_LEN bytes
 *                   after its start flag; no call leaves 3
 *   bits  2 to 63   how many of the bytes are held, and more than there are counts as all
 *
 * No call holds a flag. Where the caller's own bytes have one among those held, the candidate is refused at its stop
 * flag as CSAFE_TRUNCATED, unless it is too long.
 *
 * A candidate for a packet begins at a start flag. At its stop flag it is answered as csafe_packet_read answers a
 * slice, its data unit being the first bytes of the reader, or refused. Where nothing is told, the answer is 0 and all
 * bytes were taken, or the first CSAFE_CHUNK_LIMIT of a longer input, which is cut to them. The next call has to start
 * right after the last byte taken. However a stream is cut into calls, its answers are those of its bytes fed one by
 * one. Of an empty input none are taken and nothing is told.
 *
 * A packet reader counts no bytes. It tells no positions, and there is no limit to how many it takes.
 *
 * Refused where a start flag comes before the stop flag: CSAFE_TRUNCATED, and the flag begins the next candidate.
 * Refused at the stop flag, in this order: CSAFE_TOO_LONG, CSAFE_TOO_SHORT, CSAFE_BAD_CHARACTER, CSAFE_BAD_CHECKSUM.
 */
uint64_t csafe_packet_feed(uint8_t bytes[CSAFE_PACKET_LINE_LEN], uint64_t *state, const uint8_t *input,
                           size_t input_len, uint64_t *taken);

/*
 * Ends the input of a packet reader, which is as new afterwards: its state is 0. Its bytes stay as they are. Where no
 * candidate was open, the answer is 0.
 * Refused: CSAFE_TRUNCATED where a candidate for a packet was open.
 */
uint64_t csafe_packet_finish(uint64_t *state);

#ifdef __cplusplus
}
#endif

#endif
