/*
 * Calls each function of csafe.h with each of its refusals, and with a result where it has one, and prints the answers.
 * What reads frames is called for a live line and for a trace on the same bytes.
 */
#include "csafe.h"

#include <stdio.h>
#include <string.h>

/* Where bytes come from. */
enum origin { LIVE, TRACE };

/* What the numbers for the bytes taken and for the position hold before a call. No call of this program answers it, so
 * one that is left alone is seen. */
#define UNWRITTEN 777

static const char *name_of(uint8_t number)
{
    switch (number) {
    case CSAFE_OK: return "ok";
    case CSAFE_NO_ROOM: return "no room";
    case CSAFE_TOO_LONG: return "too long";
    case CSAFE_BAD_ESCAPE: return "bad escape";
    case CSAFE_TOO_SHORT: return "too short";
    case CSAFE_BAD_CHECKSUM: return "bad checksum";
    case CSAFE_TRUNCATED: return "truncated";
    case CSAFE_BAD_ADDRESS: return "bad address";
    case CSAFE_ALREADY_HELD: return "already held";
    case CSAFE_NOT_HOLDER: return "not holder";
    case CSAFE_OUT_OF_LIMITS: return "out of limits";
    case CSAFE_ZERO_TOKEN: return "zero token";
    case CSAFE_FULL: return "full";
    case CSAFE_UNNAMED: return "unnamed";
    case CSAFE_BAD_TABLE: return "bad table";
    case CSAFE_BAD_CHARACTER: return "bad character";
    default: return "unknown";
    }
}

static const char *kind_of(uint8_t kind)
{
    switch (kind) {
    case CSAFE_STANDARD: return "";
    case CSAFE_EXTENDED: return " extended";
    case CSAFE_NOTHING: return " nothing";
    default: return " unknown";
    }
}

static void print_fields(const char *call, uint64_t answer)
{
    printf("%s: %u %s%s to=%02X from=%02X len=%u", call, csafe_number(answer), name_of(csafe_number(answer)),
           kind_of(csafe_kind(answer)), csafe_to(answer), csafe_from(answer), (unsigned)csafe_length(answer));
}

/* The bytes of a result, and the end of its line. */
static void print_result(uint64_t answer, const uint8_t *out)
{
    for (uint32_t i = 0; i < csafe_length(answer); i++) {
        printf(" %02X", out[i]);
    }
    printf("\n");
}

static void print_answer(const char *call, uint64_t answer, const uint8_t *out)
{
    print_fields(call, answer);
    print_result(answer, out);
}

/* No bytes belong to a length that is only told. */
static void print_length(const char *call, uint64_t answer)
{
    print_fields(call, answer);
    printf("\n");
}

static void write_frames(void)
{
    static const uint8_t contents[] = {0x24, 0x02, 0x03, 0x00};
    static const uint8_t long_contents[CSAFE_CONTENTS_LIMIT + 1] = {0};
    uint8_t wire[CSAFE_WIRE_LIMIT];
    uint64_t answer = csafe_write_standard(contents, sizeof contents, wire, sizeof wire);
    print_answer("write_standard", answer, wire);
    answer = csafe_write_standard(long_contents, sizeof long_contents, wire, 0);
    print_answer("write_standard", answer, wire);
    answer = csafe_write_extended(0xF1, 0x05, contents, sizeof contents, wire, sizeof wire);
    print_answer("write_extended", answer, wire);
    answer = csafe_write_extended(0xF1, 0x05, long_contents, sizeof long_contents, wire, sizeof wire);
    print_answer("write_extended", answer, wire);
    print_answer("write_extended", csafe_write_extended(0xF1, 0x05, contents, sizeof contents, wire, 9), wire);
}

/* A length that was told is the room that the writer needs. */
static void measure_frames(void)
{
    static const uint8_t contents[] = {0x24, 0x02, 0xF2};
    static const uint8_t long_contents[CSAFE_CONTENTS_LIMIT + 1] = {0};
    const size_t len = sizeof contents;
    uint8_t wire[CSAFE_WIRE_LIMIT];
    uint64_t answer = csafe_extended_length(0x05, 0xF1, contents, len);
    print_length("extended_length", answer);
    print_answer("write_extended", csafe_write_extended(0x05, 0xF1, contents, len, wire, csafe_length(answer)), wire);
    print_length("extended_length", csafe_extended_length(0x05, 0xF1, long_contents, sizeof long_contents));
    print_length("standard_length", csafe_standard_length(contents, len));
    print_length("standard_length", csafe_standard_length(long_contents, sizeof long_contents));
}

static void read_and_print(enum origin origin, const uint8_t *wire, size_t wire_len, size_t room)
{
    uint8_t contents[CSAFE_CONTENTS_LIMIT];
    if (origin == TRACE) {
        print_answer("trace_read", csafe_trace_read(wire, wire_len, contents, room), contents);
    } else {
        print_answer("read", csafe_read(wire, wire_len, contents, room), contents);
    }
}

static void read_frames(enum origin origin)
{
    static const uint8_t standard[] = {0xF1, 0x24, 0x02, 0x03, 0x00, 0x25, 0xF2};
    static const uint8_t extended[] = {0xF0, 0xF3, 0x01, 0x05, 0x41, 0x41, 0xF2};
    static const uint8_t bad_escape[] = {0xF0, 0x05, 0x00, 0xF3, 0x04, 0xF2};
    static const uint8_t too_short[] = {0xF0, 0x05, 0x00, 0xF2};
    static const uint8_t bad_checksum[] = {0xF1, 0x24, 0x02, 0x03, 0x00, 0x24, 0xF2};
    uint8_t too_long[CSAFE_WIRE_LIMIT + 1] = {0};
    too_long[0] = 0xF1;
    too_long[CSAFE_WIRE_LIMIT] = 0xF2;
    read_and_print(origin, extended, sizeof extended, CSAFE_CONTENTS_LIMIT);
    read_and_print(origin, standard, sizeof standard - 1, CSAFE_CONTENTS_LIMIT);
    read_and_print(origin, too_long, sizeof too_long, CSAFE_CONTENTS_LIMIT);
    read_and_print(origin, bad_escape, sizeof bad_escape, CSAFE_CONTENTS_LIMIT);
    read_and_print(origin, too_short, sizeof too_short, CSAFE_CONTENTS_LIMIT);
    read_and_print(origin, bad_checksum, sizeof bad_checksum, CSAFE_CONTENTS_LIMIT);
    read_and_print(origin, standard, sizeof standard, CSAFE_CONTENTS_LIMIT);
    read_and_print(origin, standard, sizeof standard, 3);
    read_and_print(origin, extended, sizeof extended, 0);
}

struct reader {
    uint8_t bytes[CSAFE_LINE_LEN];
    uint64_t state;
    uint64_t counts;
};

static struct reader new_reader(void)
{
    struct reader reader = {{0}, 0, 0};
    return reader;
}

/* Prints what a call left in the numbers. The lower half of the counts means something in a candidate alone. */
static void print_numbers(const struct reader *reader, uint64_t taken, uint32_t position)
{
    printf("at %lu, taken %lu, state %lu, count %lu", (unsigned long)position, (unsigned long)taken,
           (unsigned long)reader->state, (unsigned long)(reader->counts >> 32));
    if (reader->state != 0) {
        printf(", open at %lu", (unsigned long)(reader->counts & CSAFE_LINE_LIMIT));
    }
    printf("\n");
}

/* Feeds the input by as many calls as it needs, one at least, until all of it is taken or a call takes none. */
static void feed_and_print(enum origin origin, struct reader *reader, const uint8_t *input, size_t input_len)
{
    size_t at = 0;
    uint64_t taken;
    do {
        const uint8_t *rest = input + at;
        const size_t rest_len = input_len - at;
        uint8_t *bytes = reader->bytes;
        uint32_t position = UNWRITTEN;
        taken = UNWRITTEN;
        if (origin == TRACE) {
            print_answer("trace_feed", csafe_trace_feed(bytes, &reader->state, &reader->counts, rest, rest_len, &taken,
                                                        &position), bytes);
        } else {
            print_answer("feed", csafe_feed(bytes, &reader->state, &reader->counts, rest, rest_len, &taken, &position),
                         bytes);
        }
        print_numbers(reader, taken, position);
        at += (size_t)taken;
    } while (taken > 0 && at < input_len);
}

static void finish_and_print(struct reader *reader)
{
    uint32_t position = UNWRITTEN;
    print_answer("finish", csafe_finish(&reader->state, &reader->counts, &position), reader->bytes);
    print_numbers(reader, 0, position);
}

/* The stop flag stands right after the bytes that the first call takes. */
static void feed_a_long_chunk(enum origin origin)
{
    static uint8_t chunk[CSAFE_CHUNK_LIMIT + 2];
    struct reader reader = new_reader();
    chunk[CSAFE_CHUNK_LIMIT - 5] = 0xF0;
    chunk[CSAFE_CHUNK_LIMIT - 4] = 0x00;
    chunk[CSAFE_CHUNK_LIMIT - 3] = 0x05;
    chunk[CSAFE_CHUNK_LIMIT - 2] = 0x41;
    chunk[CSAFE_CHUNK_LIMIT - 1] = 0x41;
    chunk[CSAFE_CHUNK_LIMIT] = 0xF2;
    feed_and_print(origin, &reader, chunk, sizeof chunk);
}

/* A reader that was finished is fed a standard frame again. */
static void read_line(enum origin origin)
{
    static const uint8_t first[] = {0x55, 0xF1, 0x76, 0x04, 0xF0, 0xF3, 0x01, 0x05, 0x41, 0x41, 0xF2, 0xF1, 0xF3};
    static const uint8_t standard[] = {0xF1, 0x41, 0x41, 0xF2};
    static const uint8_t second[] = {0x04, 0xF2, 0xF1, 0xF2, 0xF1, 0x41, 0x42, 0xF2, 0xF1, 0x41, 0x41, 0xF2, 0xF1};
    uint8_t too_long[CSAFE_LINE_LEN + 2] = {0};
    struct reader reader = new_reader();
    too_long[CSAFE_LINE_LEN + 1] = 0xF2;
    feed_and_print(origin, &reader, first, sizeof first);
    feed_and_print(origin, &reader, second, sizeof second);
    feed_and_print(origin, &reader, too_long, sizeof too_long);
    feed_and_print(origin, &reader, first, 3);
    finish_and_print(&reader);
    finish_and_print(&reader);
    feed_and_print(origin, &reader, standard, sizeof standard);
}

/* The first frame ends with the last byte that the reader takes but one. A full reader does not refuse an empty input. */
static void fill_reader(enum origin origin)
{
    static const uint8_t frames[] = {0xF0, 0x00, 0x05, 0x41, 0x41, 0xF2, 0xF0, 0x00, 0x05, 0x41, 0x41, 0xF2};
    const size_t len = sizeof frames / 2;
    struct reader reader = new_reader();
    reader.counts = (uint64_t)(CSAFE_LINE_LIMIT - len - 1) << 32;
    feed_and_print(origin, &reader, frames, sizeof frames);
    feed_and_print(origin, &reader, frames, 0);
    finish_and_print(&reader);
    feed_and_print(origin, &reader, frames, len);
}

static void write_trace_frames(void)
{
    static const uint8_t contents[] = {0x24, 0x02, 0xF2};
    static const uint8_t long_contents[CSAFE_CONTENTS_LIMIT + 1] = {0};
    const size_t len = sizeof contents;
    uint8_t wire[CSAFE_WIRE_LIMIT];
    uint64_t answer = csafe_trace_standard_length(contents, len);
    const size_t wire_len = csafe_length(answer);
    print_length("trace_standard_length", answer);
    print_length("trace_standard_length", csafe_trace_standard_length(long_contents, sizeof long_contents));
    print_answer("trace_write_standard", csafe_trace_write_standard(contents, len, wire, wire_len), wire);
    answer = csafe_trace_write_standard(long_contents, sizeof long_contents, wire, 0);
    print_answer("trace_write_standard", answer, wire);
    print_answer("trace_write_standard", csafe_trace_write_standard(contents, len, wire, wire_len - 1), wire);
}

static void workouts(void)
{
    uint8_t out[CSAFE_WORKOUT_LEN];
    print_answer("write_distance_workout", csafe_write_distance_workout(2001, 500, 200, out, sizeof out), out);
    print_answer("write_distance_workout", csafe_write_distance_workout(50000, 1666, 200, out, sizeof out), out);
    print_answer("write_distance_workout", csafe_write_distance_workout(2001, 500, 200, out, 22), out);
    print_answer("write_time_workout", csafe_write_time_workout(1200, 24000, 100, out, sizeof out), out);
    print_answer("write_time_workout", csafe_write_time_workout(1200, 3999, 100, out, sizeof out), out);
    print_answer("write_time_workout", csafe_write_time_workout(1200, 24000, 100, out, 22), out);
}

/* The second frame has an escape for each byte that can need one, and no workout's is longer. */
static void workout_frames(void)
{
    uint8_t out[CSAFE_WORKOUT_FRAME_LIMIT];
    const size_t len = sizeof out;
    const char *distance = "write_distance_workout_frame";
    const char *time = "write_time_workout_frame";
    print_answer(distance, csafe_write_distance_workout_frame(0xF1, 2001, 500, 200, out, len), out);
    print_answer(distance, csafe_write_distance_workout_frame(0xF0, 12528, 4336, 0xF0F0, out, len), out);
    print_answer(distance, csafe_write_distance_workout_frame(0x105, 99, 500, 200, out, 0), out);
    print_answer(distance, csafe_write_distance_workout_frame(0x05, 99, 500, 200, out, 0), out);
    print_answer(distance, csafe_write_distance_workout_frame(0x05, 2001, 500, 200, out, 27), out);
    print_answer(time, csafe_write_time_workout_frame(0x05, 1200, 24000, 100, out, 28), out);
    print_answer(time, csafe_write_time_workout_frame(0xFD, 1200, 3999, 100, out, 0), out);
    print_answer(time, csafe_write_time_workout_frame(0xFC, 1200, 3999, 100, out, 0), out);
    print_answer(time, csafe_write_time_workout_frame(0xFC, 1200, 24000, 100, out, 27), out);
}

static void leases(void)
{
    static uint8_t table[CSAFE_TABLE_LEN];
    const size_t len = sizeof table;
    uint8_t wire[CSAFE_STOP_LIMIT];
    print_answer("hold", csafe_hold(table, len, 0xF1, 71), wire);
    print_answer("hold", csafe_hold(table, len - 1, 0xF1, 71), wire);
    print_answer("hold", csafe_hold(table, len, 0xFD, 71), wire);
    print_answer("hold", csafe_hold(table, len, 0x01, 0), wire);
    print_answer("hold", csafe_hold(table, len, 0xF1, 72), wire);
    print_answer("stop", csafe_stop(table, len, 0xF1, 71, wire, sizeof wire), wire);
    print_answer("stop", csafe_stop(table, len - 1, 0xF1, 71, wire, sizeof wire), wire);
    print_answer("stop", csafe_stop(table, len, 0x1F1, 71, wire, sizeof wire), wire);
    print_answer("stop", csafe_stop(table, len, 0xF1, 72, wire, sizeof wire), wire);
    print_answer("stop", csafe_stop(table, len, 0xF1, 71, wire, 11), wire);
    print_answer("release", csafe_release(table, len - 1, 0xF1, 71), wire);
    print_answer("release", csafe_release(table, len, 0x00, 71), wire);
    print_answer("release", csafe_release(table, len, 0xF1, 0), wire);
    print_answer("release", csafe_release(table, len, 0xF1, 71), wire);
}

static void print_packet(const char *call, uint64_t answer, const uint8_t *out)
{
    printf("%s: %u %s letter=%02X tens=%02X ones=%02X len=%u", call, csafe_number(answer),
           name_of(csafe_number(answer)), csafe_letter(answer), csafe_tens(answer), csafe_ones(answer),
           (unsigned)csafe_length(answer));
    print_result(answer, out);
}

static void write_packets(void)
{
    static const uint8_t unit[] = {0x31, 0x2E, 0x35, 0x30};
    static const uint8_t wrong_unit[] = {0x31, 0x2E, 0x35, 0x7F};
    static const uint8_t long_unit[CSAFE_UNIT_LIMIT + 1] = {0};
    const size_t len = sizeof unit;
    uint8_t wire[CSAFE_PACKET_LIMIT];
    print_packet("packet_write", csafe_packet_write('S', '0', '1', unit, len, wire, sizeof wire), wire);
    print_packet("packet_write", csafe_packet_write('s', '0', '1', long_unit, sizeof long_unit, wire, 0), wire);
    print_packet("packet_write", csafe_packet_write('S', '0', 'I', unit, len, wire, 0), wire);
    print_packet("packet_write", csafe_packet_write('S', '0', '1', wrong_unit, len, wire, 0), wire);
    print_packet("packet_write", csafe_packet_write('S', '0', '1', unit, len, wire, 10), wire);
}

static void read_packet(const uint8_t *wire, size_t wire_len, size_t room)
{
    uint8_t unit[CSAFE_UNIT_LIMIT];
    print_packet("packet_read", csafe_packet_read(wire, wire_len, unit, room), unit);
}

static void read_packets(void)
{
    static const uint8_t sound[] = {0x01, 0x53, 0x30, 0x31, 0x31, 0x2E, 0x35, 0x30, 0x37, 0x36, 0x17};
    static const uint8_t too_short[] = {0x01, 0x53, 0x30, 0x31, 0x38, 0x17};
    static const uint8_t bad_character[] = {0x01, 0x53, 0x30, 0x31, 0x38, 0x41, 0x17};
    static const uint8_t bad_checksum[] = {0x01, 0x53, 0x30, 0x31, 0x38, 0x31, 0x17};
    uint8_t too_long[CSAFE_PACKET_LIMIT + 1] = {0};
    too_long[0] = 0x01;
    too_long[CSAFE_PACKET_LIMIT] = 0x17;
    read_packet(sound, sizeof sound, CSAFE_UNIT_LIMIT);
    read_packet(sound, sizeof sound - 1, CSAFE_UNIT_LIMIT);
    read_packet(too_long, sizeof too_long, CSAFE_UNIT_LIMIT);
    read_packet(too_short, sizeof too_short, CSAFE_UNIT_LIMIT);
    read_packet(bad_character, sizeof bad_character, CSAFE_UNIT_LIMIT);
    read_packet(bad_checksum, sizeof bad_checksum, CSAFE_UNIT_LIMIT);
    read_packet(sound, sizeof sound, 3);
}

struct packet_reader {
    uint8_t bytes[CSAFE_PACKET_LINE_LEN];
    uint64_t state;
};

static struct packet_reader new_packet_reader(void)
{
    struct packet_reader reader = {{0}, 0};
    return reader;
}

/* Feeds the input by as many calls as it needs, one at least, until all of it is taken or a call takes none. */
static void feed_packets(struct packet_reader *reader, const uint8_t *input, size_t input_len)
{
    size_t at = 0;
    uint64_t taken;
    do {
        uint64_t answer;
        taken = UNWRITTEN;
        answer = csafe_packet_feed(reader->bytes, &reader->state, input + at, input_len - at, &taken);
        print_packet("packet_feed", answer, reader->bytes);
        printf("taken %lu, state %lu\n", (unsigned long)taken, (unsigned long)reader->state);
        at += (size_t)taken;
    } while (taken > 0 && at < input_len);
}

static void finish_packets(struct packet_reader *reader)
{
    print_packet("packet_finish", csafe_packet_finish(&reader->state), reader->bytes);
    printf("state %lu\n", (unsigned long)reader->state);
}

/* The first packet comes in two inputs, after a candidate that it truncates. */
static void read_packet_line(void)
{
    static const uint8_t first[] = {0x06, 0x01, 0x53, 0x01, 0x53, 0x30, 0x31, 0x31, 0x2E};
    static const uint8_t second[] = {0x35, 0x30, 0x37, 0x36, 0x17, 0x15, 0x01, 0x53, 0x17, 0x01, 0x53, 0x30,
                                     0x31, 0x38, 0x41, 0x17, 0x01, 0x53, 0x30, 0x31, 0x38, 0x31, 0x17, 0x01};
    uint8_t too_long[CSAFE_PACKET_LINE_LEN + 2] = {0};
    struct packet_reader reader = new_packet_reader();
    too_long[CSAFE_PACKET_LINE_LEN + 1] = 0x17;
    feed_packets(&reader, first, sizeof first);
    feed_packets(&reader, second, sizeof second);
    feed_packets(&reader, too_long, sizeof too_long);
    feed_packets(&reader, first, 0);
    feed_packets(&reader, first, 3);
    finish_packets(&reader);
    finish_packets(&reader);
}

/* The stop flag stands right after the bytes that the first call takes. */
static void feed_a_long_chunk_of_packets(void)
{
    static const uint8_t packet[] = {0x01, 0x53, 0x30, 0x31, 0x38, 0x30, 0x17};
    static uint8_t chunk[CSAFE_CHUNK_LIMIT + 2];
    struct packet_reader reader = new_packet_reader();
    memcpy(chunk + CSAFE_CHUNK_LIMIT + 1 - sizeof packet, packet, sizeof packet);
    feed_packets(&reader, chunk, sizeof chunk);
}

int main(void)
{
    write_frames();
    measure_frames();
    read_frames(LIVE);
    read_line(LIVE);
    feed_a_long_chunk(LIVE);
    fill_reader(LIVE);
    write_trace_frames();
    read_frames(TRACE);
    read_line(TRACE);
    feed_a_long_chunk(TRACE);
    fill_reader(TRACE);
    workouts();
    workout_frames();
    leases();
    write_packets();
    read_packets();
    read_packet_line();
    feed_a_long_chunk_of_packets();
    return 0;
}
