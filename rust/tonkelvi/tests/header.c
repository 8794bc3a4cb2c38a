/* Packets A, with both markers, K, D, a packet of the last layer, A and K as one layer, A and an absent packet with their headers gathered
 * in front, and a row whose headers are moved there and back, by the calls of include/tonkelvi.h alone, as C and as C++; ends with 0 where
 * every answer is right. With an argument it writes the version and the sentences of all refusals, a line each, instead. */
#include "tonkelvi.h"

#include <assert.h>
#include <stdalign.h>
#include <stdio.h>
#include <stdlib.h>
#include <string.h>

static_assert(sizeof(struct tonkelvi_segment) == 24 && alignof(struct tonkelvi_segment) == 8, "a segment's size and alignment");
static_assert(offsetof(struct tonkelvi_segment, block) == 0 && offsetof(struct tonkelvi_segment, opens) == 4
              && offsetof(struct tonkelvi_segment, passes) == 8 && offsetof(struct tonkelvi_segment, bytes) == 12
              && offsetof(struct tonkelvi_segment, start) == 16, "where a segment's fields stand");

static int expect(int right, int line) {
    return right ? 0 : line;
}
#define EXPECT(right) do { int failed = expect(right, 1 + (__LINE__ - 1) % 250); if (failed) return failed; } while (0)

static int texts(void) {
    uint32_t number;
    printf("%d %s\n", TONKELVI_VERSION, TONKELVI_VERSION_TEXT);
    for (number = TONKELVI_SHAPE; number <= TONKELVI_PACKED; number++) puts(tonkelvi_text(number));
    return 0;
}

/* Packet K, two blocks of 5 bytes each; then an absent packet; then K again with one struct too few. */
static int starts(void) {
    const uint32_t bands[9] = {2, 1, 5, 0, 0, 0, 0, 0, 0};
    const uint8_t header[3] = {0xf9, 0x69, 0x40};
    const struct tonkelvi_segment wanted[3] = {{0, 1, 1, 5, 0}, {1, 1, 1, 5, 5}, {7, 7, 7, 7, 7}}, wiped = {0, 0, 0, 0, 0};
    struct tonkelvi_segment records[3] = {{7, 7, 7, 7, 7}, {7, 7, 7, 7, 7}, {7, 7, 7, 7, 7}};
    uint32_t state[39], scratch[39], reports[8], work[12];
    uint64_t answer[6];

    EXPECT(tonkelvi_start_reader(1, bands, 9, 0, NULL, 0, state, 39) == 0);
    EXPECT(tonkelvi_read(state, 39, scratch, 39, header, 3, false, false, reports, 8, work, 12, records, 3, answer, 6) == 0);
    EXPECT(answer[2] == 2 && answer[5] == 0 && memcmp(records, wanted, sizeof wanted) == 0);
    EXPECT(tonkelvi_read(state, 39, scratch, 39, NULL, 0, false, false, reports, 8, work, 12, records, 3, answer, 6) == 0);
    EXPECT(answer[2] == 0 && answer[5] == 1 && memcmp(records, wanted, sizeof wanted) == 0);
    EXPECT(tonkelvi_start_reader(1, bands, 9, 0, NULL, 0, state, 39) == 0);
    EXPECT(tonkelvi_read(state, 39, scratch, 39, header, 3, false, false, reports, 8, work, 4, records + 1, 1, answer, 6)
           == TONKELVI_RECORDS);
    EXPECT(memcmp(&records[0], &wanted[0], sizeof wiped) == 0 && memcmp(&records[1], &wiped, sizeof wiped) == 0);
    EXPECT(memcmp(&records[2], &wanted[2], sizeof wiped) == 0);
    return 0;
}

/* Packet D whole and cut: bits past the end; with an answer of another length, nothing changes. */
static int past_end(void) {
    const uint32_t bands[9] = {1, 1, 5, 0, 0, 0, 0, 0, 0};
    const uint8_t header[4] = {0xff, 0x78, 0x06, 0x40};
    const uint64_t past[5] = {1, 12, 13, 5, 0};
    struct tonkelvi_segment record;
    uint32_t fresh[23], state[23], scratch[23], reports[4], work[4];
    uint64_t answer[7] = {9, 9, 9, 9, 9, 9, 9};
    size_t n;

    EXPECT(tonkelvi_start_reader(1, bands, 9, 0, NULL, 0, fresh, 23) == 0);
    memcpy(state, fresh, sizeof fresh);
    for (n = 0; n < 8; n++) {
        if (n == 6) continue;
        EXPECT(tonkelvi_read(state, 23, scratch, 23, header, 4, false, false, reports, 4, work, 4, &record, 1, answer, n) == TONKELVI_LIST);
        EXPECT(memcmp(state, fresh, sizeof fresh) == 0 && answer[0] == 9 && answer[5] == 9 && answer[6] == 9);
    }
    for (n = 0; n < 5; n++) {
        memcpy(state, fresh, sizeof fresh);
        EXPECT(tonkelvi_read(state, 23, scratch, 23, header, n, false, false, reports, 4, work, 4, &record, 1, answer, 6) == 0);
        EXPECT(answer[1] == n && answer[5] == past[n] && answer[6] == 9);
    }
    return 0;
}

/* Layer 65,534 measured without a pass; then a block first included in it, with a bit for each layer before, written and read; then there
 * is no layer left. */
static int last_layer(void) {
    const uint32_t bands[9] = {1, 1, 5, 0, 0, 0, 0, 0, 0}, planes[1] = {5}, counts[1] = {1}, lengths[1] = {5}, none[1] = {0};
    const uint8_t marks[1] = {0}, body[5] = {1, 2, 3, 4, 5};
    struct tonkelvi_segment record;
    static uint8_t output[8198];
    uint32_t state[23], scratch[23], reports[4], work[4];
    uint64_t answer[6];

    EXPECT(tonkelvi_start_writer(1, bands, 9, 0, planes, 1, state, 23) == 0 && state[13] == 65535 && state[16] == 0);
    state[3] = 65534;
    EXPECT(tonkelvi_measure(state, 23, scratch, 23, none, 1, NULL, 0, NULL, 0, false, false, answer, 2) == 0 && answer[0] == 1);
    EXPECT(scratch[3] == 65535 && memcmp(scratch + 4, state + 4, 19 * sizeof state[0]) == 0);
    EXPECT(tonkelvi_measure(state, 23, scratch, 23, counts, 1, lengths, 1, marks, 1, false, false, answer, 2) == 0 && answer[0] == 8193);
    EXPECT(tonkelvi_write(state, 23, scratch, 23, counts, 1, lengths, 1, marks, 1, body, 5, false, false, 0, output, 8198, answer, 1) == 0);
    EXPECT(answer[0] == 8198 && output[0] == 0x80 && output[8191] == 0x01 && output[8192] == 0x94 && output[8193] == 1);
    EXPECT(tonkelvi_measure(state, 23, scratch, 23, counts, 1, lengths, 1, marks, 1, false, false, answer, 2) == TONKELVI_LAYERS);
    EXPECT(state[3] == 65535 && answer[0] == 0);

    EXPECT(tonkelvi_start_reader(1, bands, 9, 0, NULL, 0, state, 23) == 0 && state[13] == 65535 && state[16] == 999);
    state[3] = 65534;
    EXPECT(tonkelvi_read(state, 23, scratch, 23, output, 8198, false, false, reports, 4, work, 4, &record, 1, answer, 6) == 0);
    EXPECT(answer[1] == 8193 && answer[2] == 1 && reports[0] == 1 && record.bytes == 5);
    EXPECT(tonkelvi_read(state, 23, scratch, 23, output, 8198, false, false, reports, 4, work, 4, &record, 1, answer, 6)
           == TONKELVI_LAYERS);
    state[3] = 65536;
    EXPECT(tonkelvi_describe(state, 23, answer, 3) == TONKELVI_STATE);
    return 0;
}

/* A and K behind one another, whole, and refused: with an answer of another length, 17 precincts, a scratch one word short, an output one
 * byte short, a precinct too few and one too many. */
static int layer(void) {
    const uint32_t bands[9] = {1, 1, 5, 0, 0, 0, 0, 0, 0}, wide[9] = {2, 1, 5, 0, 0, 0, 0, 0, 0}, planes[2] = {5, 4};
    const uint32_t numbers[17] = {7}, counts[3] = {1, 1, 1}, lengths[3] = {5, 5, 5};
    const uint8_t marks[3] = {0, 0, 0}, bodies[15] = {1, 2, 3, 4, 5, 6, 7, 8, 9, 10, 11, 12, 13, 14, 15};
    const uint8_t packets[20] = {0xe5, 1, 2, 3, 4, 5, 0xf9, 0x69, 0x40, 6, 7, 8, 9, 10, 11, 12, 13, 14, 15, 9}, zeros[20] = {0};
    uint32_t fresh[62], states[62], scratch[62];
    uint8_t output[20];
    uint64_t answer[3];
    size_t n;

    EXPECT(tonkelvi_start_writer(1, bands, 9, 0, planes, 1, fresh, 23) == 0);
    EXPECT(tonkelvi_start_writer(1, wide, 9, 0, planes, 2, fresh + 23, 39) == 0);
    memcpy(states, fresh, sizeof fresh);
    memset(scratch, 9, sizeof scratch);
    memset(output, 9, sizeof output);
#define LAYER(n_scratch, n_numbers, n_output, n_answer) tonkelvi_write_layer(states, 62, scratch, n_scratch, numbers, n_numbers, \
    counts, 3, lengths, 3, marks, 3, bodies, 15, false, false, output, n_output, answer, n_answer)
    answer[0] = answer[1] = answer[2] = 9;
    for (n = 0; n < 4; n++) {
        EXPECT(n == 2 || LAYER(61, 17, 18, n) == TONKELVI_LIST);
        EXPECT(answer[0] == 9 && answer[1] == 9 && answer[2] == 9);
    }
    EXPECT(LAYER(61, 17, 18, 2) == TONKELVI_PRECINCTS && answer[0] == 0 && answer[1] == 0);
    EXPECT(LAYER(61, 0, 18, 2) == 0 && answer[0] == 0 && answer[1] == 0);
    EXPECT(tonkelvi_write_layer(NULL, 0, NULL, 0, NULL, 0, NULL, 0, NULL, 0, NULL, 0, NULL, 0, true, true, NULL, 0, answer, 2) == 0);
    EXPECT(scratch[0] == 0x09090909 && output[0] == 9);
    EXPECT(LAYER(61, 2, 18, 2) == TONKELVI_STATE && answer[0] == 0);
    EXPECT(scratch[60] == 0 && scratch[61] == 0x09090909 && memcmp(output, zeros, 18) == 0 && output[18] == 9);
    EXPECT(LAYER(62, 2, 18, 2) == TONKELVI_SPACE && answer[0] == 1 && answer[1] == 0);
    EXPECT(memcmp(output, zeros, 18) == 0 && output[18] == 9 && scratch[0] == 0 && scratch[61] == 0);
    EXPECT(LAYER(62, 1, 18, 2) == TONKELVI_STATE && answer[0] == 0 && LAYER(62, 3, 20, 2) == TONKELVI_STATE && answer[0] == 2);
    EXPECT(memcmp(states, fresh, sizeof fresh) == 0);
    output[19] = 9;
    EXPECT(LAYER(62, 2, 20, 2) == 0 && answer[0] == 0 && answer[1] == 19 && memcmp(output, packets, sizeof packets) == 0);
    EXPECT(states[3] == 1 && states[26] == 1 && memcmp(states, scratch, sizeof states) == 0);
#undef LAYER
    return 0;
}

/* A and a packet that is absent, headers in front and bodies behind: whole, with too few bytes for SOP and none of the headers, with an
 * answer of another length, and with too few records. */
static int gathered(void) {
    const uint32_t bands[9] = {1, 1, 5, 0, 0, 0, 0, 0, 0};
    const uint8_t headers[6] = {0xe5, 0xff, 0x92, 0x00, 0xff, 0x92};
    const uint8_t bodies[17] = {0xff, 0x91, 0, 4, 0, 0, 1, 2, 3, 4, 5, 0xff, 0x91, 0, 4, 0, 1};
    const uint64_t first[7] = {1, 3, 6, 1, 0, 0, 0}, second[7] = {0, 3, 6, 0, 0, 0, 0}, third[7] = {0, 0, 0, 0, 1, 1, 1}, none[7] = {0};
    const struct tonkelvi_segment record = {0, 1, 1, 5, 0}, wiped = {0, 0, 0, 0, 0};
    struct tonkelvi_segment records[2] = {{7, 7, 7, 7, 7}, {7, 7, 7, 7, 7}};
    uint32_t fresh[23], state[23], scratch[23], reports[4], work[8];
    uint64_t answer[8] = {9, 9, 9, 9, 9, 9, 9, 9};
    size_t n;

    EXPECT(tonkelvi_start_reader(1, bands, 9, 0, NULL, 0, fresh, 23) == 0);
    memcpy(state, fresh, sizeof fresh);
#define READ(headers, n_headers, bodies, n_bodies, n_records, n_answer) tonkelvi_read_gathered(state, 23, scratch, 23, headers, n_headers, \
    bodies, n_bodies, true, true, reports, 4, work, 4 * n_records, records, n_records, answer, n_answer)
    for (n = 0; n < 9; n++) {
        EXPECT(n == 7 || READ(headers, 6, bodies, 17, 2, n) == TONKELVI_LIST);
        EXPECT(answer[0] == 9 && answer[7] == 9 && records[0].block == 7 && memcmp(state, fresh, sizeof fresh) == 0);
    }
    EXPECT(READ(headers, 6, bodies, 17, 0, 7) == TONKELVI_RECORDS && memcmp(answer, none, sizeof none) == 0 && records[0].block == 7);
    EXPECT(READ(headers, 6, bodies, 17, 2, 7) == 0 && memcmp(answer, first, sizeof first) == 0);
    EXPECT(memcmp(&records[0], &record, sizeof record) == 0 && records[1].block == 7 && reports[0] == 1 && reports[3] == 1);
    EXPECT(READ(headers + 3, 3, bodies + 11, 6, 2, 7) == 0 && memcmp(answer, second, sizeof second) == 0 && state[3] == 2);
    EXPECT(READ(NULL, 0, bodies, 5, 2, 7) == 0 && memcmp(answer, third, sizeof third) == 0 && state[3] == 3);
    /* 12: the header ends in a last byte FF of the headers, whatever the bodies are */
    memcpy(state, fresh, sizeof fresh);
    EXPECT(READ((const uint8_t *)"\xfe\xad\xff", 3, bodies, 17, 2, 7) == TONKELVI_HEADER_END);
    EXPECT(memcmp(answer, none, sizeof none) == 0 && memcmp(&records[0], &wiped, sizeof wiped) == 0);
    EXPECT(memcmp(state, fresh, sizeof fresh) == 0);
#undef READ
    return 0;
}

/* A of a second precinct, an absent packet of the first, and K of a third, with both markers; and one byte more. */
static const uint8_t ROW[45] = {0xff, 0x91, 0, 4, 0, 0, 0xe5, 0xff, 0x92, 1, 2, 3, 4, 5, 0xff, 0x91, 0, 4, 0, 1, 0x00, 0xff, 0x92,
    0xff, 0x91, 0, 4, 0, 2, 0xf9, 0x69, 0x40, 0xff, 0x92, 6, 7, 8, 9, 10, 11, 12, 13, 14, 15, 9};
static const uint8_t HEADERS[16] = {0xff, 0x61, 0, 14, 0, 0xe5, 0xff, 0x92, 0x00, 0xff, 0x92, 0xf9, 0x69, 0x40, 0xff, 0x92};
static const uint8_t BODIES[34] = {0xff, 0x91, 0, 4, 0, 0, 1, 2, 3, 4, 5, 0xff, 0x91, 0, 4, 0, 1, 0xff, 0x91, 0, 4, 0, 2,
    6, 7, 8, 9, 10, 11, 12, 13, 14, 15, 9};
static const uint32_t PLACES[3] = {1, 0, 2}, NO_STATE[3] = {1, 3, 2};

/* Whether these words and these bytes of two outputs are 0, and the byte behind each output is 9. */
static int wiped(const uint32_t *scratch, const uint8_t *output, size_t n, const uint8_t *other, size_t m) {
    size_t i;
    for (i = 0; i < 85; i++) if (scratch[i] != 0) return 0;
    for (i = 0; i < n; i++) if (output[i] != 0) return 0;
    for (i = 0; i < m; i++) if (other[i] != 0) return 0;
    return output[n] == 9 && other[m] == 9;
}

/* ROW into HEADERS and BODIES: with an answer of another length, refused with the move's numbers, and done. */
static int gather(const uint32_t *fresh, const uint32_t *after) {
    uint32_t states[85], scratch[86];
    uint8_t headers[17], bodies[34];
    uint64_t answer[3] = {9, 9, 9};
    size_t n;

    memcpy(states, fresh, sizeof states);
    memset(scratch, 9, sizeof scratch);
    memset(headers, 9, sizeof headers);
    memset(bodies, 9, sizeof bodies);
#define GATHER(n_row, n_states, n_scratch, places, n_headers, n_bodies, n_answer) tonkelvi_gather_headers(ROW, n_row, states, n_states, \
    scratch, n_scratch, places, 3, true, true, headers, n_headers, bodies, n_bodies, answer, n_answer)
    for (n = 0; n < 4; n++) {
        EXPECT(n == 2 || GATHER(43, 84, 86, NO_STATE, 16, 33, n) == TONKELVI_LIST);
        EXPECT(answer[0] == 9 && answer[2] == 9 && scratch[0] == 0x09090909 && headers[0] == 9 && bodies[0] == 9);
    }
    EXPECT(GATHER(44, 85, 86, PLACES, 16, 33, 2) == TONKELVI_STATE && answer[0] == 0 && answer[1] == 0 && scratch[85] == 0);
    EXPECT(wiped(scratch, headers, 16, bodies, 33));
    EXPECT(GATHER(44, 84, 84, PLACES, 16, 33, 2) == TONKELVI_STATE && GATHER(44, 85, 85, NO_STATE, 16, 33, 2) == TONKELVI_STATE);
    memset(scratch, 9, sizeof scratch);
    EXPECT(GATHER(43, 85, 85, PLACES, 16, 33, 2) == TONKELVI_BODY && wiped(scratch, headers, 16, bodies, 33));
    EXPECT(GATHER(45, 85, 85, PLACES, 16, 33, 2) == TONKELVI_BODY && wiped(scratch, headers, 16, bodies, 33));
    EXPECT(GATHER(44, 85, 85, PLACES, 15, 33, 2) == TONKELVI_SPACE && GATHER(44, 85, 85, PLACES, 16, 32, 2) == TONKELVI_SPACE);
    EXPECT(wiped(scratch, headers, 16, bodies, 33) && memcmp(states, fresh, sizeof states) == 0);
    EXPECT(GATHER(44, 85, 85, PLACES, 17, 34, 2) == 0 && answer[0] == 16 && answer[1] == 33);
    EXPECT(memcmp(headers, HEADERS, 16) == 0 && headers[16] == 9 && memcmp(bodies, BODIES, 33) == 0 && bodies[33] == 9);
    EXPECT(memcmp(states, fresh, sizeof states) == 0 && memcmp(scratch, after, sizeof states) == 0);
#undef GATHER
    return 0;
}

/* HEADERS and BODIES into ROW, likewise. */
static int spread(const uint32_t *fresh, const uint32_t *after) {
    const uint8_t other[22] = {0xff, 0x61, 0, 4, 0, 0xe5, 0xff, 0x61, 0, 13, 2, 0xff, 0x92, 0x00, 0xff, 0x92, 0xf9, 0x69, 0x40, 0xff, 0x92};
    uint32_t states[85], scratch[86];
    uint8_t segments[22], row[46];
    uint64_t answer[2] = {9, 9};

    memcpy(states, fresh, sizeof states);
    memset(scratch, 9, sizeof scratch);
    memset(row, 9, sizeof row);
    memcpy(segments, other, sizeof other);
#define SPREAD(headers, n_headers, n_bodies, n_scratch, places, n_row, n_answer) tonkelvi_spread_headers(headers, n_headers, BODIES, \
    n_bodies, states, 85, scratch, n_scratch, places, 3, true, true, row, n_row, answer, n_answer)
    EXPECT(SPREAD(segments, 21, 33, 84, NO_STATE, 44, 0) == TONKELVI_LIST);
    EXPECT(SPREAD(segments, 21, 33, 84, NO_STATE, 44, 2) == TONKELVI_LIST);
    EXPECT(answer[0] == 9 && answer[1] == 9 && scratch[0] == 0x09090909 && row[0] == 9);
    EXPECT(SPREAD(segments, 21, 33, 86, NO_STATE, 44, 1) == TONKELVI_PACKED && answer[0] == 0 && scratch[85] == 0);
    EXPECT(wiped(scratch, row, 44, row, 44));
    segments[10] = 1;
    EXPECT(SPREAD(segments, 20, 33, 85, PLACES, 44, 1) == TONKELVI_PACKED);
    EXPECT(SPREAD(segments, 22, 33, 85, PLACES, 44, 1) == TONKELVI_PACKED);
    EXPECT(SPREAD(segments, 21, 33, 86, PLACES, 44, 1) == TONKELVI_STATE);
    EXPECT(SPREAD(segments, 21, 33, 85, NO_STATE, 44, 1) == TONKELVI_STATE);
    EXPECT(SPREAD(segments, 21, 32, 85, PLACES, 44, 1) == TONKELVI_BODY && SPREAD(segments, 21, 34, 85, PLACES, 44, 1) == TONKELVI_BODY);
    EXPECT(SPREAD(segments, 21, 33, 85, PLACES, 43, 1) == TONKELVI_SPACE && wiped(scratch, row, 44, row, 44));
    EXPECT(SPREAD(segments, 21, 33, 85, PLACES, 46, 1) == 0 && answer[0] == 44 && memcmp(row, ROW, 44) == 0 && row[44] == 9);
    memset(scratch, 9, sizeof scratch);
    EXPECT(SPREAD(HEADERS, 16, 33, 85, PLACES, 44, 1) == 0 && answer[0] == 44 && memcmp(row, ROW, 44) == 0);
    EXPECT(memcmp(states, fresh, sizeof states) == 0 && memcmp(scratch, after, sizeof states) == 0 && answer[1] == 9);
#undef SPREAD
    return 0;
}

/* Both moves, on three fresh readers; after them each is as if it had read its packet from the row. */
static int moves(void) {
    const uint32_t bands[9] = {1, 1, 5, 0, 0, 0, 0, 0, 0}, wide[9] = {2, 1, 5, 0, 0, 0, 0, 0, 0};
    struct tonkelvi_segment records[2];
    uint32_t fresh[85], after[85], scratch[39], reports[8], work[8];
    uint64_t answer[6];

    EXPECT(tonkelvi_start_reader(1, bands, 9, 0, NULL, 0, fresh, 23) == 0);
    EXPECT(tonkelvi_start_reader(1, bands, 9, 0, NULL, 0, fresh + 23, 23) == 0);
    EXPECT(tonkelvi_start_reader(1, wide, 9, 0, NULL, 0, fresh + 46, 39) == 0);
    memcpy(after, fresh, sizeof fresh);
#define READ(state, n, at, blocks) tonkelvi_read(state, n, scratch, n, ROW + at, 44 - at, true, true, reports, 4 * blocks, work, 8, \
    records, 2, answer, 6)
    EXPECT(READ(after + 23, 23, 0, 1) == 0 && READ(after, 23, 14, 1) == 0 && READ(after + 46, 39, 23, 2) == 0 && answer[1] == 11);
#undef READ
    int failed = gather(fresh, after);
    return failed ? failed : spread(fresh, after);
}

int main(int argc, char **argv) {
    const uint32_t bands[10] = {1, 1, 5, 0, 0, 0, 0, 0, 0, 0};
    const uint32_t planes[1] = {5}, counts[1] = {1}, lengths[1] = {5};
    const uint8_t marks[1] = {0}, body[5] = {1, 2, 3, 4, 5};
    const uint8_t packet[14] = {0xff, 0x91, 0, 4, 0, 1, 0xe5, 0xff, 0x92, 1, 2, 3, 4, 5};
    const uint32_t report[4] = {1, 0, 5, 1};
    const struct tonkelvi_segment record = {0, 1, 1, 5, 0}, unused = {7, 7, 7, 7, 7};
    struct tonkelvi_segment records[2] = {{7, 7, 7, 7, 7}, {7, 7, 7, 7, 7}};
    uint32_t reports[4], work[9];
    uint8_t output[14];
    uint64_t answer[6];

    (void)argv;
    if (argc > 1) return texts();
    EXPECT(tonkelvi_text(0)[0] == 0 && tonkelvi_text(17)[0] == 0);

    size_t n = tonkelvi_state_length(1, bands, 9);
    EXPECT(n == 13 + 6 + 4);
    EXPECT(tonkelvi_state_length(0, bands, 9) == 0 && tonkelvi_state_length(1, bands, 8) == 0 && tonkelvi_state_length(1, NULL, 0) == 0);
    uint32_t *state = (uint32_t *)calloc(n, sizeof *state), *scratch = (uint32_t *)calloc(n, sizeof *scratch);
    EXPECT(state && scratch);

    EXPECT(tonkelvi_describe(state, n, answer, 3) == TONKELVI_STATE && answer[0] == 0 && answer[1] == 0 && answer[2] == 0);
    EXPECT(tonkelvi_start_writer(1, bands, 10, 0x40, planes, 1, state, n) == TONKELVI_LIST);
    EXPECT(tonkelvi_start_writer(1, bands, 9, 0x40, planes, 1, state, n) == TONKELVI_STYLE && state[0] == 0);
    EXPECT(tonkelvi_start_writer(1, bands, 9, 0, planes, 1, state, n) == 0);
    EXPECT(tonkelvi_measure(state, n, scratch, n, counts, 1, lengths, 1, marks, 1, true, true, answer, 5) == TONKELVI_LIST);
    EXPECT(tonkelvi_measure(state, n, scratch, n, counts, 1, lengths, 1, marks, 1, true, true, answer, 2) == 0);
    EXPECT(answer[0] == 9 && answer[1] == 5);
    EXPECT(tonkelvi_write(state, n, scratch, n, counts, 1, lengths, 1, marks, 1, body, 5, true, true, 65537, output, 13, answer, 1)
           == TONKELVI_SPACE);
    EXPECT(tonkelvi_write(state, n, scratch, n, counts, 1, lengths, 1, marks, 1, body, 5, true, true, 65537, output, 14, answer, 1) == 0);
    EXPECT(answer[0] == 14 && memcmp(output, packet, 14) == 0);
    EXPECT(tonkelvi_describe(state, n, answer, 2) == TONKELVI_LIST && answer[0] == 14);
    EXPECT(tonkelvi_describe(state, n, answer, 3) == 0 && answer[0] == 1 && answer[1] == 1 && answer[2] == 1);

    EXPECT(tonkelvi_start_reader(1, bands, 9, 0, NULL, 0, state, n) == 0);
    EXPECT(tonkelvi_read(state, n, scratch, n, packet, 14, true, true, reports, 4, NULL, 0, NULL, 0, answer, 6) == TONKELVI_RECORDS);
    EXPECT(tonkelvi_read(state, n, scratch, n, packet, 14, true, true, reports, 4, work, 7, records, 2, answer, 6) == TONKELVI_LIST);
    EXPECT(tonkelvi_read(state, n, scratch, n, packet, 14, true, true, reports, 4, work, 9, records, 2, answer, 6) == TONKELVI_LIST);
    EXPECT(memcmp(records, &unused, sizeof unused) == 0);
    EXPECT(tonkelvi_read(state, n, scratch, n, packet, 14, true, true, reports, 4, work, 8, records, 2, answer, 6) == 0);
    EXPECT(answer[0] == 1 && answer[1] == 9 && answer[2] == 1 && answer[3] == 0 && answer[4] == 0 && answer[5] == 0);
    EXPECT(memcmp(reports, report, sizeof report) == 0);
    EXPECT(memcmp(&records[0], &record, sizeof record) == 0 && memcmp(&records[1], &unused, sizeof unused) == 0);
    EXPECT(tonkelvi_read(state, n, scratch, n, NULL, 0, false, false, reports, 4, work, 8, records, 2, answer, 6) == 0);
    EXPECT(answer[0] == 0 && answer[1] == 0 && answer[5] == 1);
    EXPECT(tonkelvi_describe(state, n, answer, 3) == 0 && answer[0] == 2 && answer[1] == 2 && answer[2] == 1);
    free(state);
    free(scratch);
    int failed = starts();
    if (!failed) failed = past_end();
    if (!failed) failed = last_layer();
    if (!failed) failed = layer();
    if (!failed) failed = gathered();
    return failed ? failed : moves();
}
