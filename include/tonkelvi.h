/* Tonkelvi: JPEG 2000 packet headers, layer by layer. Link with libtonkelvi.a, which tools/library.sh makes. */
#ifndef TONKELVI_H
#define TONKELVI_H

#include <stdbool.h>
#include <stddef.h>
#include <stdint.h>

#ifdef __cplusplus
extern "C" {
#endif

/* The version: major * 10000 + minor * 100 + patch, and as text. */
#define TONKELVI_VERSION 300
#define TONKELVI_VERSION_TEXT "0.3.0"

/*
 * Lists. Each list is passed as a pointer to its first element and its number of elements; the pointer of an empty list is not used
 * and may be NULL. All memory is the caller's: nothing is allocated, freed or kept after the call. Lists that one call may change
 * must not overlap each other or any other list of that call. A list that is passed as `const` is only read.
 *
 * Threads. There are no globals. Calls on different lists may run at the same time in any number of threads; a list that a call may
 * change belongs to that call alone while it runs.
 *
 * Arguments. No argument is undefined behaviour but a pointer or length that does not describe memory of the caller's, properly aligned.
 * Whatever the numbers, lists and bytes are, a call ends, stays inside its lists and gives 0 or one of the refusals below.
 *
 * Result. Every call but tonkelvi_state_length gives 0, or the number of the first refusal that applies, in the order given there.
 * Further answers come in a lent list of 64-bit words, `answer`, of exactly the length given at each call. With another length the
 * call gives 3 and changes nothing. Otherwise its words are 0 after a refusal, but for the place that tonkelvi_write_layer tells.
 *
 * State. A list of 32-bit words that the calls keep between them: role (1 writer, 2 reader), band count, style, next layer; across, down
 * and planes of each of three bands, 0 where unused; then band by band the nodes of the inclusion tree, the nodes of the zero-plane tree
 * (value, low, known each) and the blocks (passes so far, length bits, limit and passes of the current segment). It may be copied, stored
 * and taken up again. In the inclusion tree the value 65,535 says "not yet", and any other value a layer; in a state that a version before
 * 0.3.0 has stored 999 says "not yet" there: put 65,535 in its place. Blocks are numbered from 0, band by band, row by row.
 *
 * Scratch. A list as long as the state, or where a call takes several states as long as these together, with any content. It holds after
 *     measure, 0                  the state after the packet
 *     write, either read, 0       the state after the packet, as the state does
 *     write_layer, 0              the states after the packets, as the states do; with no precinct what it held before
 *     either move, 0              the states after the packets; the states themselves are only looked at
 *     write, 11                   zeros
 *     either read, 9, 12 or 13    zeros
 *     write_layer, 3 to 11        zeros, whatever its length; with 3 for `answer` what it held before
 *     either move, 5 to 16        zeros, whatever its length; with 3 for `answer` what it held before
 *     any other refusal           what it held before
 * The moves are tonkelvi_gather_headers and tonkelvi_spread_headers.
 *
 * Linking. The archive has no names but those declared here, and needs memset alone. It has no unwind tables (.eh_frame): a call neither
 * throws nor calls back, but a debugger or profiler cannot walk through its frames by them.
 */

/* Why a call was turned away. A refused call leaves every state as it was. */
enum tonkelvi_refusal {
    TONKELVI_SHAPE = 1,       /* band count not 1 to 3, or a side above 64 */
    TONKELVI_STYLE = 2,       /* style bit 0x40 or 0x80 set */
    TONKELVI_LIST = 3,        /* a list of the wrong length */
    TONKELVI_PLANES = 4,      /* a band above 998 bit-planes, or a block above its band */
    TONKELVI_STATE = 5,       /* wrong role, wrong length of state or scratch, or a word out of range; in a move, a place without a state */
    TONKELVI_LAYERS = 6,      /* next layer is 65,535 */
    TONKELVI_PASSES = 7,      /* a pass count above 164 */
    TONKELVI_LENGTH = 8,      /* a written segment of 2^31 bytes or more */
    TONKELVI_WIDTH = 9,       /* a length field wider than 32 bits */
    TONKELVI_BODY = 10,       /* body bytes differ from the sum of pass lengths; in a move, a body goes past its list, or bytes are left */
    TONKELVI_SPACE = 11,      /* the packet is longer than the output, which is wiped to 0; in a move, what is put in an output is longer */
    TONKELVI_HEADER_END = 12, /* the last bit read lies in a byte FF and the input ends with that byte */
    TONKELVI_RECORDS = 13,    /* more segments than records lent */
    TONKELVI_PRECINCTS = 14,  /* more than 16 precincts in one layer */
    TONKELVI_SEGMENTS = 15,   /* more than 256 segments */
    TONKELVI_PACKED = 16      /* a PPT segment cut short, with a length field below 4, without FF 61, or with an index out of order */
};
/* In reading, 9, 12 and 13 wipe reports, work and records to 0. A refused layer wipes its output to 0, but with 14 and with 3 for
 * `answer`, and a refused move its outputs, but with 3 for `answer`. But for these, 11, scratch and `answer` a refusal changes no list. */

/* One sentence for a refusal, and "" for any other number. */
static inline const char *tonkelvi_text(uint32_t refusal) {
    switch (refusal) {
    case TONKELVI_SHAPE: return "The band count is not 1 to 3, or a band has more than 64 blocks across or down.";
    case TONKELVI_STYLE: return "The style has a high-throughput bit, 0x40 or 0x80.";
    case TONKELVI_LIST: return "A list has another length than the call asks.";
    case TONKELVI_PLANES: return "A band has more than 998 bit-planes, or a block has more than its band.";
    case TONKELVI_STATE: return "The state is of the other role, or its length or one of its words is out of range.";
    case TONKELVI_LAYERS: return "All 65,535 layers have been coded.";
    case TONKELVI_PASSES: return "A block has more than 164 passes in one layer.";
    case TONKELVI_LENGTH: return "A segment has 2^31 bytes or more.";
    case TONKELVI_WIDTH: return "A length field is wider than 32 bits.";
    case TONKELVI_BODY: return "The body has another length than the pass lengths add up to.";
    case TONKELVI_SPACE: return "The packet is longer than the output.";
    case TONKELVI_HEADER_END: return "The input ends with a byte FF that the header ends in.";
    case TONKELVI_RECORDS: return "The packet has more segments than records were lent.";
    case TONKELVI_PRECINCTS: return "More than 16 precincts were given for one layer.";
    case TONKELVI_SEGMENTS: return "The packet headers need more than 256 marker segments.";
    case TONKELVI_PACKED: return "A PPT marker segment is cut short, too short or without its marker, or its index is out of order.";
    default: return "";
    }
}

/* The words of a state for the first `count` of three bands, or 0 where a start would give 1. `bands`, 9 words: blocks across, blocks
 * down and bit-planes of each band; what is given for bands beyond the count is ignored. With another length of it the result is 0. */
size_t tonkelvi_state_length(
    uint32_t count,
    const uint32_t *bands, size_t n_bands);

/* Fills a state for a writer at layer 0. `bands` as in tonkelvi_state_length; with another length than 9 the call gives 3 before all else.
 * `style` is the code-block style of the codestream. `planes` has each block's bit-planes; a block that is never included is given 0.
 * Refusals: 1, 2, 3, 4. */
uint32_t tonkelvi_start_writer(
    uint32_t count,
    const uint32_t *bands, size_t n_bands,
    uint8_t style,
    const uint32_t *planes, size_t n_planes,
    uint32_t *state, size_t n_state);

/* The same for a reader; `planes` is to be an empty list. */
uint32_t tonkelvi_start_reader(
    uint32_t count,
    const uint32_t *bands, size_t n_bands,
    uint8_t style,
    const uint32_t *planes, size_t n_planes,
    uint32_t *state, size_t n_state);

/* Measures the next packet of a writer, which is not written: the state stays. `counts` has each block's passes in this layer; `lengths`
 * and `marks`, block by block, each pass's bytes and whether it is terminated (not 0). `sop` and `eph` say whether the markers are used.
 * answer, 2 words: header bytes with markers, body bytes. Refusals: 5, 6, 3, 7, 8, 9. */
uint32_t tonkelvi_measure(
    const uint32_t *state, size_t n_state,
    uint32_t *scratch, size_t n_scratch,
    const uint32_t *counts, size_t n_counts,
    const uint32_t *lengths, size_t n_lengths,
    const uint8_t *marks, size_t n_marks,
    bool sop, bool eph,
    uint64_t *answer, size_t n_answer);

/* Writes the next packet to the front of `output`: SOP with the low 16 bits of `number`, header, EPH, body. Output after it is
 * unchanged. Where no block has passes the header is the byte 00, and in the state only the next layer moves.
 * answer, 1 word: the packet's bytes. Refusals: 5, 6, 3, 7, 8, 9, 10, 11. */
uint32_t tonkelvi_write(
    uint32_t *state, size_t n_state,
    uint32_t *scratch, size_t n_scratch,
    const uint32_t *counts, size_t n_counts,
    const uint32_t *lengths, size_t n_lengths,
    const uint8_t *marks, size_t n_marks,
    const uint8_t *body, size_t n_body,
    bool sop, bool eph, uint32_t number,
    uint8_t *output, size_t n_output,
    uint64_t *answer, size_t n_answer);

/* Writes the next packet of each of up to 16 precincts, one behind another at the front of `output`, in the list's order; or none of them.
 * `packet_numbers` is the list of the precincts: one number for each, for its SOP, as in tonkelvi_write. `states` has their writers' states
 * behind one another, and so have `counts`, `lengths`, `marks` and `bodies` what each of them brings. The precincts may be of any shapes
 * and in any layers. `sop` and `eph` hold for all of them.
 *
 * With 0, states, scratch and output are what calls of tonkelvi_write, one for each precinct in that order, would leave, each with its
 * parts of the lists and with what the packets before leave of the output; output after the last packet is unchanged. An empty list gives 0
 * and writes 0 bytes: no other list but `answer` is looked at or changed.
 *
 * Refusals: 14, which changes no list but `answer`; 5 at place 0 for a scratch not as long as `states`; then 5, 6, 3, 7, 8, 9, 10, 11 for
 * each precinct in full before the next. A precinct that is not the last has exactly its part of each list, or less where the list ends: as
 * many words of `states` as its own first words ask, a count for each block, lengths and marks by the sum of its counts, bytes of `bodies`
 * by the sum of its lengths. The last has all that is left. So a part cut short, and what is left over at the last, gives 5 in `states`, 3
 * in `counts`, `lengths` and `marks`, 10 in `bodies`; and 11 is given where a packet does not fit behind those before it. A refused layer
 * leaves all states as they were, and but for 14 all of output and scratch is wiped to 0.
 * answer, 2 words: the refused precinct's place in the list, from 0 (0 with success and with 14); the bytes of all packets.
 *
 * Where each packet begins in the output is not told. tonkelvi_measure on each state before the call gives the packets' lengths, and their
 * sum is the output that is needed; or the packets are read back one after another, each by tonkelvi_read on its reader's state: the next
 * begins behind the bytes taken and those of the segments. */
uint32_t tonkelvi_write_layer(
    uint32_t *states, size_t n_states,
    uint32_t *scratch, size_t n_scratch,
    const uint32_t *packet_numbers, size_t n_packet_numbers,
    const uint32_t *counts, size_t n_counts,
    const uint32_t *lengths, size_t n_lengths,
    const uint8_t *marks, size_t n_marks,
    const uint8_t *bodies, size_t n_bodies,
    bool sop, bool eph,
    uint8_t *output, size_t n_output,
    uint64_t *answer, size_t n_answer);

/* A segment, or the part of one that a packet brings. */
struct tonkelvi_segment {
    uint32_t block;
    uint32_t opens; /* 1 if its first pass is in this packet, or else 0 */
    uint32_t passes;
    uint32_t bytes;
    uint64_t start; /* bytes of the packet's body before its own; markers and header are not counted. Below 2^53 */
};

/* Reads the next packet's markers and header from the front of `src`.
 * reports, 4 words a block: 0 absent, 1 first time, 2 again; zero planes; block planes; passes. Planes are 0 unless the first is 1.
 * records: the packet's segments, in order, at the front of the list; the structs after them are unchanged. The start of each is the sum
 * of the bytes of those before it. Always enough for each block are 3 where the style has neither bit 0x01 nor 0x04, 110 with 0x01 alone,
 * and 164 with 0x04.
 * work: a list of exactly 4 words for each struct of `records`, with any content. It must be lent because the engine allocates nothing:
 * it collects the segments there, and fills the structs from it once the header has been read without a refusal. Then the words at its
 * front are block, opens, passes and bytes of each segment, and the others are unchanged.
 * answer, 6 words: 1 if the packet is present, or else 0; bytes taken with markers; segments; SOP mark; EPH mark; bits past the end. A
 * mark is 0 in order or not used, 1 too few bytes, 2 not found. The last word counts the header's bits that were taken behind the end of
 * `src`, where they are 0; stuffed bits and markers are none. If it is 0, more input changes nothing of what was told, but where a mark is
 * 1; if not, the header is cut off. Refusals: 5, 6, 3, then 9 before 13 at each segment, then 12. */
uint32_t tonkelvi_read(
    uint32_t *state, size_t n_state,
    uint32_t *scratch, size_t n_scratch,
    const uint8_t *src, size_t n_src,
    bool sop, bool eph,
    uint32_t *reports, size_t n_reports,
    uint32_t *work, size_t n_work,
    struct tonkelvi_segment *records, size_t n_records,
    uint64_t *answer, size_t n_answer);

/* Reads the next packet where headers are gathered in front of the bodies (PPM and PPT; T.800, A.7.4 and A.7.5): its header, and EPH behind
 * it, from the front of `headers`, as tonkelvi_read does from an input without SOP, and SOP from the front of `src`, where the body stands
 * behind it. `headers` is plain header bytes, one header behind another; the marker segments around them are not part of it. Reports,
 * records and work are as in tonkelvi_read.
 * answer, 7 words: 1 if the packet is present, or else 0; bytes of `headers` taken, with EPH; bytes of `src` taken, 6 where SOP is used and
 * found, or else 0; segments; SOP mark; EPH mark; bits past the end of `headers`. Refusals: as in tonkelvi_read. */
uint32_t tonkelvi_read_gathered(
    uint32_t *state, size_t n_state,
    uint32_t *scratch, size_t n_scratch,
    const uint8_t *headers, size_t n_headers,
    const uint8_t *src, size_t n_src,
    bool sop, bool eph,
    uint32_t *reports, size_t n_reports,
    uint32_t *work, size_t n_work,
    struct tonkelvi_segment *records, size_t n_records,
    uint64_t *answer, size_t n_answer);

/* Moves the packet headers of a tile-part, each with its EPH, into PPT marker segments (T.800, A.7.5) at the front of `headers`, and what
 * is left of the packets to the front of `bodies`: each one's SOP, where it is used and found, and its body. `row` has the packets behind
 * one another, `states` their precincts' readers likewise, and `places` for each packet its precinct's place among the states, from 0.
 * Precincts may be of any shapes, and their packets stand in any order; a state need not have a packet.
 *
 * A segment is FF 61, a length field of two bytes, which counts itself and all behind it, an index of one byte, from 0 on, and header
 * bytes: 65,532 of them but in the last one, so that a header may go on in the next segment. Without header bytes there is none. Always
 * enough are as many bytes of `headers` as the row has, and 5 more for each 65,532 of them that are begun, and of `bodies` as many as the
 * row has.
 *
 * With 0, scratch holds the states after the packets, and both outputs are unchanged behind what was put in them. tonkelvi_spread_headers
 * with the same states and places then restores the row, if each packet has the markers that are used.
 *
 * Refusals: 5 before any packet is read, for a state that is out of range or cut short, words left over behind the last one, a scratch not
 * as long as `states`, or a place without a state; then for each packet in full before the next 6, 9 and 12 as in tonkelvi_read, 10 where
 * its body goes past the row, 15 where a 257th segment is needed, 11 where either output has too little room; 10 for bytes of the row that
 * are left. A marker that is not found is no refusal. But for 3 for `answer`, a refused move wipes all of headers, bodies and scratch to 0.
 * answer, 2 words: the bytes put in `headers`; those put in `bodies`. */
uint32_t tonkelvi_gather_headers(
    const uint8_t *row, size_t n_row,
    const uint32_t *states, size_t n_states,
    uint32_t *scratch, size_t n_scratch,
    const uint32_t *places, size_t n_places,
    bool sop, bool eph,
    uint8_t *headers, size_t n_headers,
    uint8_t *bodies, size_t n_bodies,
    uint64_t *answer, size_t n_answer);

/* The move back: the packet headers in the PPT marker segments `headers`, each put in front of its body again, behind its SOP where that is
 * used and found in `bodies`; the packets come to the front of `row`. States and places are as in tonkelvi_gather_headers. The segments
 * may be cut otherwise than there, into parts of at least one byte. As many bytes of `row` as `headers` and `bodies` have are enough.
 *
 * With 0, scratch holds the states after the packets, and the row is unchanged behind them.
 *
 * Refusals: 16 before all else, for a segment that is cut short, has a length field below 4 or no FF 61, or for indexes that do not run 0,
 * 1, 2 and so on, so that a 257th segment gives 16 too; 5 as in tonkelvi_gather_headers; then for each packet in full before the next 6, 9
 * and 12 as in tonkelvi_read_gathered, 10 where its SOP and body go past `bodies`, 11 where the row has too little room; 10 for bytes of
 * headers or bodies that are left. But for 3 for `answer`, a refused move wipes all of row and scratch to 0.
 * answer, 1 word: the bytes put in `row`. */
uint32_t tonkelvi_spread_headers(
    const uint8_t *headers, size_t n_headers,
    const uint8_t *bodies, size_t n_bodies,
    const uint32_t *states, size_t n_states,
    uint32_t *scratch, size_t n_scratch,
    const uint32_t *places, size_t n_places,
    bool sop, bool eph,
    uint8_t *row, size_t n_row,
    uint64_t *answer, size_t n_answer);

/* Tells what a state is. answer, 3 words: role, next layer, blocks. Refusals: 5, where the state is neither a writer's nor a reader's
 * in range. */
uint32_t tonkelvi_describe(
    const uint32_t *state, size_t n_state,
    uint64_t *answer, size_t n_answer);

#ifdef __cplusplus
}
#endif

#endif
