/*
 * Wakkemosut: a proved reader of IS-IS sub-TLV areas over a tape that the caller lends (docs/01-scope.md).
 *
 * An area is the run of sub-TLVs inside a TLV. Clear a tape, push areas onto it, look at each call's answer, and go over the
 * records that were written: bindings/c/example.c does all of this.
 *
 * What a caller owes: every pointer is good for its length for the whole call (for reads where the parameter is const, for
 * reads and writes elsewhere), is aligned as its type asks, and no two lent parts overlap. A tape is of uint64_t and aligned as
 * such: an array of these is, and what malloc gives; a place in an array of octets need not be. A length of 0 takes any pointer,
 * NULL too. `numbers` and `record` are places of four and six words and are written whatever they held. Nothing else is asked:
 * every other input is answered.
 *
 * Nothing is kept from one call to the next, no pointer either, and nothing is allocated. So calls may run in several threads at
 * once, as long as none writes what another one uses: no two of them use one tape at a time.
 * The library uses no other functions than its own and C's memcpy and memset.
 *
 * Lengths of areas, prefixes and names count octets, those of tapes count words of 64 bits.
 */
#ifndef WAKKEMOSUT_H
#define WAKKEMOSUT_H

#include <stddef.h>
#include <stdint.h>

#ifdef __cplusplus
extern "C" {
#endif

/* Places in the four numbers that a call gives back. */
enum wakkemosut_number {
    WAKKEMOSUT_ANSWER = 0,  /* 0 when done, otherwise why the call was refused: an enum wakkemosut_answer */
    WAKKEMOSUT_COVERED = 1, /* the octets that complete entries cover (walk, push) */
    WAKKEMOSUT_WRITTEN = 2, /* the records written (walk, push), or the octets of a name */
    WAKKEMOSUT_NEEDED = 3,  /* the records that the call needs (walk, push, under NO_ROOM too) */
    WAKKEMOSUT_NUMBERS = 4  /* how many numbers there are */
};

/* What a line of the lists below becomes: a case of an enum, and the text of a number. */
#define WAKKEMOSUT_ENUM_CASE(name, number, text) name = number,
#define WAKKEMOSUT_TEXT_CASE(name, number, text) \
    case number: \
        return text;

/*
 * Answers: name, number, text. A refusal changes no lent word or octet but `numbers` and `record`; its other numbers are 0, but
 * for NO_ROOM, which gives WAKKEMOSUT_NEEDED. No tape is what has under 4 words, or words 1 to 3 that are not 4, 6, 0 (4, 4, 0
 * for a slim call), or more records used than there is room for.
 */
#define WAKKEMOSUT_ANSWERS(X) \
    X(WAKKEMOSUT_DONE, 0, "done") \
    X(WAKKEMOSUT_NO_REGISTRY, 1, "the registry is not 0 to 5") \
    X(WAKKEMOSUT_AREA_TOO_LONG, 2, "the area has over 65,535 octets") \
    X(WAKKEMOSUT_BASE_TOO_HIGH, 3, "base + area length is over 4,294,967,295") \
    X(WAKKEMOSUT_NO_TAPE, 4, "the lent words are no tape") \
    X(WAKKEMOSUT_NO_ROOM, 5, "no room for the records") /* more are needed than there is free room for */ \
    X(WAKKEMOSUT_PAST_COUNT, 6, "past the count of records") /* a read at or past it, or a mark past it */ \
    X(WAKKEMOSUT_CUTS_CONTAINER, 7, "a record before the mark ends after it") \
    X(WAKKEMOSUT_NO_RECORD, 8, "the words are no record") /* by label, shape or registry, or start after end */ \
    X(WAKKEMOSUT_NAME_TOO_LONG, 9, "the name is longer than the lent octets") \
    X(WAKKEMOSUT_DUMP_INPUT_LENGTH, 10, "the dump program's input is too short or too long") /* no function gives it */ \
    /* An answer more is a line more, above this one. */

enum wakkemosut_answer {
    WAKKEMOSUT_ANSWERS(WAKKEMOSUT_ENUM_CASE)
    WAKKEMOSUT_ANSWERS_END /* one past the last answer */
};

/* What an answer says. A number that is no answer has a text too, so that it can be printed as it comes. */
static inline const char *wakkemosut_answer_text(uint64_t answer) {
    switch (answer) {
        WAKKEMOSUT_ANSWERS(WAKKEMOSUT_TEXT_CASE)
    default:
        return "no answer of this library";
    }
}

/* Registries: what gives the types of an area their meaning. The TLV that the area stands in says which. */
enum wakkemosut_registry {
    WAKKEMOSUT_REGISTRY_NEIGHBOR = 0,          /* neighbors: TLVs 22 and 222 */
    WAKKEMOSUT_REGISTRY_PREFIX = 1,            /* reachable prefixes: TLVs 27, 135, 235, 236 and 237 */
    WAKKEMOSUT_REGISTRY_ROUTER_CAPABILITY = 2, /* router capabilities: TLV 242 */
    WAKKEMOSUT_REGISTRY_BINDING = 3,           /* SID/label bindings: TLVs 149 and 150 */
    WAKKEMOSUT_REGISTRY_SRV6_SID = 4,          /* areas inside SRv6 SIDs, read along with the area around them */
    WAKKEMOSUT_REGISTRY_UNREGISTERED = 5       /* those inside SRv6 capabilities: no type has a name or a meaning */
};

/* The limits of an area, and the most octets that a name has. */
#define WAKKEMOSUT_LONGEST_AREA 65535
#define WAKKEMOSUT_HIGHEST_END 4294967295
#define WAKKEMOSUT_LONGEST_NAME 59

/*
 * A tape has one of two layouts. A record takes six words in the usual one and four in the slim one, which needs two thirds of the
 * memory: choose it where memory is short. Each call on a tape has a twin for slim tapes, wakkemosut_slim_..., with the same
 * parameters, answers and numbers; a read gives the same six words. A tape of one layout is refused with NO_TAPE by the calls of
 * the other, but for clear, which makes a tape of its own layout out of any four words or more.
 */

/* Words of a tape: the header's places, and the lengths of header and record. */
enum wakkemosut_tape {
    WAKKEMOSUT_TAPE_USED = 0,         /* records used */
    WAKKEMOSUT_TAPE_FIRST_RECORD = 1, /* the word at which the first record starts: 4 */
    WAKKEMOSUT_TAPE_RECORD_WORDS = 2, /* words in a record: 6, on a slim tape 4 */
    WAKKEMOSUT_TAPE_ZERO = 3,         /* 0 */
    WAKKEMOSUT_HEADER_WORDS = 4,
    WAKKEMOSUT_RECORD_WORDS = 6,
    WAKKEMOSUT_SLIM_RECORD_WORDS = 4
};

/* The words of a tape with room for so many records: of the usual layout, and of a slim one. */
#define WAKKEMOSUT_TAPE_WORDS(records) (WAKKEMOSUT_HEADER_WORDS + WAKKEMOSUT_RECORD_WORDS * (size_t)(records))
#define WAKKEMOSUT_SLIM_TAPE_WORDS(records) (WAKKEMOSUT_HEADER_WORDS + WAKKEMOSUT_SLIM_RECORD_WORDS * (size_t)(records))

/*
 * The most records that an area of so many octets can need, up to the longest area. With so much free room no walk or push of it
 * is refused with NO_ROOM, and each is at its fastest. A tape for any area that fits a TLV, at compile time:
 *     uint64_t tape[WAKKEMOSUT_TAPE_WORDS(WAKKEMOSUT_MOST_RECORDS(255))];
 */
#define WAKKEMOSUT_MOST_RECORDS(octets) ((size_t)(octets) == 0 ? 0 : 1 + 7 * (size_t)(octets) / 3)

/* Words of a record: as they lie on a tape of the usual layout, and as a read gives them of either. */
enum wakkemosut_word {
    WAKKEMOSUT_WORD_KIND = 0,        /* label + 256 x shape + 65,536 x registry of the walk that wrote it */
    WAKKEMOSUT_WORD_START = 1,       /* the first octet, base added */
    WAKKEMOSUT_WORD_END = 2,         /* one past the last octet, base added */
    WAKKEMOSUT_WORD_NUMBER = 3,      /* the number; 0 for shapes from IPV4 up */
    WAKKEMOSUT_WORD_FIRST_CHILD = 4, /* a container's first child, as a record position; 0 for a leaf */
    WAKKEMOSUT_WORD_CHILDREN_END = 5 /* one past a container's last descendant; 0 for a leaf */
};

/* Words of a record as they lie on a slim tape. */
enum wakkemosut_slim_word {
    WAKKEMOSUT_SLIM_WORD_KIND = 0,    /* as WAKKEMOSUT_WORD_KIND */
    WAKKEMOSUT_SLIM_WORD_OCTETS = 1,  /* start + 4,294,967,296 x end */
    WAKKEMOSUT_SLIM_WORD_NUMBER = 2,  /* as WAKKEMOSUT_WORD_NUMBER */
    WAKKEMOSUT_SLIM_WORD_CHILDREN = 3 /* first child + 4,294,967,296 x children's end */
};

/* The parts of a slim record's words OCTETS and CHILDREN: start or first child, and end. */
#define WAKKEMOSUT_SLIM_START_OF(word) ((word) & 4294967295u)
#define WAKKEMOSUT_SLIM_END_OF(word) ((word) >> 32)

/* The parts of a record's word 0. */
#define WAKKEMOSUT_LABEL_OF(kind) ((kind) & 255u)
#define WAKKEMOSUT_SHAPE_OF(kind) ((kind) >> 8 & 255u)
#define WAKKEMOSUT_REGISTRY_OF(kind) ((kind) >> 16)

/* Shapes. IPV4, IPV6 and BYTES carry no number: the octets are those in the range. ARRAY and OBJECT are containers. */
enum wakkemosut_shape {
    WAKKEMOSUT_SHAPE_U8 = 0,
    WAKKEMOSUT_SHAPE_U16 = 1,
    WAKKEMOSUT_SHAPE_U32 = 2,
    WAKKEMOSUT_SHAPE_U64 = 3,
    WAKKEMOSUT_SHAPE_IPV4 = 4,
    WAKKEMOSUT_SHAPE_IPV6 = 5,
    WAKKEMOSUT_SHAPE_BYTES = 6,
    WAKKEMOSUT_SHAPE_ARRAY = 7,
    WAKKEMOSUT_SHAPE_OBJECT = 8
};

/* Whether a shape is a container's: 1 or 0. */
#define WAKKEMOSUT_IS_CONTAINER(shape) ((shape) == WAKKEMOSUT_SHAPE_ARRAY || (shape) == WAKKEMOSUT_SHAPE_OBJECT)

/*
 * Labels, which say what field a record is: name, number, text, and behind them the unit of the field's number, if it has one.
 * IEEE 754 says that the number is the bits of a single: put it in a uint32_t, and copy that to a float with memcpy.
 */
#define WAKKEMOSUT_LABELS(X) \
    X(WAKKEMOSUT_LABEL_TYPE, 0, "type") \
    X(WAKKEMOSUT_LABEL_LENGTH, 1, "length") \
    X(WAKKEMOSUT_LABEL_VALUE, 2, "value") \
    X(WAKKEMOSUT_LABEL_RAW, 3, "raw") \
    X(WAKKEMOSUT_LABEL_SUB_TLVS, 4, "sub_tlvs") \
    X(WAKKEMOSUT_LABEL_ADMIN_GROUP, 5, "admin_group") \
    X(WAKKEMOSUT_LABEL_LOCAL_IDENTIFIER, 6, "local_identifier") \
    X(WAKKEMOSUT_LABEL_REMOTE_IDENTIFIER, 7, "remote_identifier") \
    X(WAKKEMOSUT_LABEL_IPV4_INTERFACE_ADDRESS, 8, "ipv4_interface_address") \
    X(WAKKEMOSUT_LABEL_IPV4_NEIGHBOR_ADDRESS, 9, "ipv4_neighbor_address") \
    X(WAKKEMOSUT_LABEL_IPV6_INTERFACE_ADDRESS, 10, "ipv6_interface_address") \
    X(WAKKEMOSUT_LABEL_IPV6_NEIGHBOR_ADDRESS, 11, "ipv6_neighbor_address") \
    X(WAKKEMOSUT_LABEL_MAX_BANDWIDTH, 12, "max_bandwidth") /* bytes a second, IEEE 754: RFC 5305, 3.4 */ \
    X(WAKKEMOSUT_LABEL_MAX_RESERVABLE_BANDWIDTH, 13, "max_reservable_bandwidth") /* bytes a second, IEEE 754: RFC 5305, 3.5 */ \
    X(WAKKEMOSUT_LABEL_UNRESERVED_BANDWIDTH, 14, "unreserved_bandwidth") \
    X(WAKKEMOSUT_LABEL_TE_DEFAULT_METRIC, 15, "te_default_metric") \
    X(WAKKEMOSUT_LABEL_FLAGS, 16, "flags") \
    X(WAKKEMOSUT_LABEL_WEIGHT, 17, "weight") \
    X(WAKKEMOSUT_LABEL_ALGORITHM, 18, "algorithm") \
    X(WAKKEMOSUT_LABEL_SID, 19, "sid") \
    X(WAKKEMOSUT_LABEL_NEIGHBOR_SYSTEM_ID, 20, "neighbor_system_id") \
    X(WAKKEMOSUT_LABEL_ANOMALOUS, 21, "anomalous") \
    X(WAKKEMOSUT_LABEL_DELAY, 22, "delay") /* microseconds: RFC 8570, 4.1 */ \
    X(WAKKEMOSUT_LABEL_MIN_DELAY, 23, "min_delay") /* microseconds: RFC 8570, 4.2 */ \
    X(WAKKEMOSUT_LABEL_MAX_DELAY, 24, "max_delay") /* microseconds: RFC 8570, 4.2 */ \
    X(WAKKEMOSUT_LABEL_DELAY_VARIATION, 25, "delay_variation") /* microseconds: RFC 8570, 4.3 */ \
    X(WAKKEMOSUT_LABEL_LINK_LOSS, 26, "link_loss") /* units of 0.000003 %: RFC 8570, 4.4 */ \
    X(WAKKEMOSUT_LABEL_BANDWIDTH, 27, "bandwidth") /* bytes a second, IEEE 754: RFC 8570, 4.5 to 4.7 */ \
    X(WAKKEMOSUT_LABEL_ENDPOINT_BEHAVIOR, 28, "endpoint_behavior") \
    X(WAKKEMOSUT_LABEL_SRV6_SID, 29, "srv6_sid") \
    X(WAKKEMOSUT_LABEL_LOCATOR_BLOCK_LENGTH, 30, "locator_block_length") /* bits: RFC 9352, 9 */ \
    X(WAKKEMOSUT_LABEL_LOCATOR_NODE_LENGTH, 31, "locator_node_length") /* bits: RFC 9352, 9 */ \
    X(WAKKEMOSUT_LABEL_FUNCTION_LENGTH, 32, "function_length") /* bits: RFC 9352, 9 */ \
    X(WAKKEMOSUT_LABEL_ARGUMENT_LENGTH, 33, "argument_length") /* bits: RFC 9352, 9 */ \
    X(WAKKEMOSUT_LABEL_TAGS, 34, "tags") \
    X(WAKKEMOSUT_LABEL_FLAG_X, 35, "flag_x") \
    X(WAKKEMOSUT_LABEL_FLAG_R, 36, "flag_r") \
    X(WAKKEMOSUT_LABEL_FLAG_N, 37, "flag_n") \
    X(WAKKEMOSUT_LABEL_IPV4_SOURCE_ROUTER_ID, 38, "ipv4_source_router_id") \
    X(WAKKEMOSUT_LABEL_IPV6_SOURCE_ROUTER_ID, 39, "ipv6_source_router_id") \
    X(WAKKEMOSUT_LABEL_RANGES, 40, "ranges") \
    X(WAKKEMOSUT_LABEL_ALGORITHMS, 41, "algorithms") \
    X(WAKKEMOSUT_LABEL_MSDS, 42, "msds") \
    X(WAKKEMOSUT_LABEL_PREFERENCE, 43, "preference") \
    X(WAKKEMOSUT_LABEL_SRV6_FLAGS, 44, "srv6_flags") \
    X(WAKKEMOSUT_LABEL_IPV4_TE_ROUTER_ID, 45, "ipv4_te_router_id") \
    X(WAKKEMOSUT_LABEL_IPV6_TE_ROUTER_ID, 46, "ipv6_te_router_id") \
    X(WAKKEMOSUT_LABEL_SUB_TLV, 47, "sub_tlv") \
    X(WAKKEMOSUT_LABEL_RANGE, 48, "range") \
    X(WAKKEMOSUT_LABEL_RANGE_SIZE, 49, "range_size") \
    X(WAKKEMOSUT_LABEL_RANGE_SID, 50, "range_sid") \
    X(WAKKEMOSUT_LABEL_MSD, 51, "msd") \
    X(WAKKEMOSUT_LABEL_MSD_TYPE, 52, "msd_type") \
    X(WAKKEMOSUT_LABEL_MSD_VALUE, 53, "msd_value") \
    X(WAKKEMOSUT_LABEL_BANDWIDTH_ELEMENT, 54, "bandwidth_element") /* bytes a second, IEEE 754: RFC 5305, 3.6 */ \
    X(WAKKEMOSUT_LABEL_TAG, 55, "tag") \
    X(WAKKEMOSUT_LABEL_ALGORITHM_ELEMENT, 56, "algorithm_element") \
    /* A label more is a line more, above this one. */

enum wakkemosut_label {
    WAKKEMOSUT_LABELS(WAKKEMOSUT_ENUM_CASE)
    WAKKEMOSUT_LABELS_END /* one past the last label */
};

/* The text of a label, such as "te_default_metric", or NULL where the number is no label. */
static inline const char *wakkemosut_label_name(uint64_t label) {
    switch (label) {
        WAKKEMOSUT_LABELS(WAKKEMOSUT_TEXT_CASE)
    default:
        return NULL;
    }
}

#undef WAKKEMOSUT_ENUM_CASE
#undef WAKKEMOSUT_TEXT_CASE

/*
 * Going over records. A record stands at a position, counted in records from 0. Those that a walk or push writes begin at the
 * position that tape[WAKKEMOSUT_TAPE_USED] is before the call, and are numbers[WAKKEMOSUT_WRITTEN]. Of a record that was read:
 * - its next sibling stands at wakkemosut_next(position, record): behind a container at its children's end (word 5), behind a
 *   leaf at the next position;
 * - its children stand from word 4 on, each at the next of the one before, and end before word 5; for a leaf both are 0, so it
 *   has none;
 * - its octets are those of the area from area[start - base] on, and end before area[end - base].
 * What the library wrote nests at most 4 containers deep. If a tape's words come from elsewhere, ask wakkemosut_nest_test first.
 */

/* The position of a record's next sibling, from its own position and the six words that a read gave; never its own or before. */
static inline uint64_t wakkemosut_next(uint64_t position, const uint64_t record[6]) {
    const uint64_t end = record[WAKKEMOSUT_WORD_CHILDREN_END];
    const uint64_t shape = WAKKEMOSUT_SHAPE_OF(record[WAKKEMOSUT_WORD_KIND]);
    return WAKKEMOSUT_IS_CONTAINER(shape) && end > position ? end : position + 1;
}

/*
 * Walks an area in a registry and appends its records to the tape: the array of its complete entries and all inside it. The
 * area's first octet is at place `base`. Gives the octets covered, the records written and needed (the same number).
 * Answers: DONE, NO_REGISTRY, AREA_TOO_LONG, BASE_TOO_HIGH, NO_TAPE, NO_ROOM.
 */
void wakkemosut_walk(const uint8_t *area, size_t area_length, uint64_t base, uint64_t registry, uint64_t *tape, size_t words,
                     uint64_t numbers[4]);

/*
 * As the walk, and appends one RAW record beside the array for the octets after the last complete entry, if there are any.
 * Answers: DONE, NO_REGISTRY, AREA_TOO_LONG, BASE_TOO_HIGH, NO_TAPE, NO_ROOM.
 */
void wakkemosut_push(const uint8_t *area, size_t area_length, uint64_t base, uint64_t registry, uint64_t *tape, size_t words,
                     uint64_t numbers[4]);

/*
 * Writes the header of a tape without records, 0, 4, 6, 0; no other word changes.
 * Answers: DONE, NO_TAPE (only under 4 words).
 */
void wakkemosut_clear(uint64_t *tape, size_t words, uint64_t numbers[4]);

/*
 * Lowers the count of used records to `mark`; no other word changes. Room after it is used by the next walk.
 * Answers: DONE, NO_TAPE, PAST_COUNT, CUTS_CONTAINER.
 */
void wakkemosut_cut_back(uint64_t *tape, size_t words, uint64_t mark, uint64_t numbers[4]);

/*
 * Writes the six words of the record at position `at` to `record`; six zeros if refused.
 * Answers: DONE, NO_TAPE, PAST_COUNT, NO_RECORD.
 */
void wakkemosut_read(const uint64_t *tape, size_t words, uint64_t at, uint64_t record[6], uint64_t numbers[4]);

/* Whether the used records split into trees, containers at most 4 deep: 1 yes, 0 no, which it is for what is no tape. */
uint8_t wakkemosut_nest_test(const uint64_t *tape, size_t words);

/*
 * The same calls on a slim tape, each with the answers of its twin. What differs: clear writes the header 0, 4, 4, 0, the others
 * ask for 4, 4, 0 in words 1 to 3, a record lies in four words, and room is never over 4,294,967,295 records.
 */
void wakkemosut_slim_walk(const uint8_t *area, size_t area_length, uint64_t base, uint64_t registry, uint64_t *tape, size_t words,
                          uint64_t numbers[4]);
void wakkemosut_slim_push(const uint8_t *area, size_t area_length, uint64_t base, uint64_t registry, uint64_t *tape, size_t words,
                          uint64_t numbers[4]);
void wakkemosut_slim_clear(uint64_t *tape, size_t words, uint64_t numbers[4]);
void wakkemosut_slim_cut_back(uint64_t *tape, size_t words, uint64_t mark, uint64_t numbers[4]);
void wakkemosut_slim_read(const uint64_t *tape, size_t words, uint64_t at, uint64_t record[6], uint64_t numbers[4]);
uint8_t wakkemosut_slim_nest_test(const uint64_t *tape, size_t words);

/*
 * Writes the name of a type in a registry to the front of `out`, without a NUL after it; octets after the name stay. Written is
 * the name's length, 0 where the type has no name, as no type over 255 has. Answers: DONE, NO_REGISTRY, NAME_TOO_LONG.
 */
void wakkemosut_name(uint64_t registry, uint64_t type, uint8_t *out, size_t out_length, uint64_t numbers[4]);

/* Clears the bits of a prefix after the first `bits`; past the end, nothing changes. It refuses nothing. */
void wakkemosut_mask(uint8_t *prefix, size_t prefix_length, size_t bits);

#ifdef __cplusplus
}
#endif

#endif
