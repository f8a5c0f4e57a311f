/*
 * Uses every function of wakkemosut.h and holds it to document 01: its examples, and each refusal of each function. The calls on
 * a tape are tested in both layouts, the slim one by document 02, request 09. What the header itself defines is tested too; all texts
 * of labels and answers are held by bindings/rust/tests/numbers.rs. Prints one line and exits with 0, or names the first check that
 * failed and exits with 1.
 */
#include <stdio.h>
#include <stdlib.h>
#include <string.h>

#include "wakkemosut.h"

#define CHECK(held) check((held), #held, __LINE__)
#define KIND(label, shape, registry) ((label) + 256 * (shape) + 65536 * (registry))

#define BASE 100
#define ROOM 5
#define MORE_ROOM 7
#define NESTED_ROOM 14
#define LABELS 57
#define NO_ANSWER "no answer of this library"
#define WORDS words_for(ROOM)
#define MORE_WORDS words_for(MORE_ROOM)
#define NESTED_WORDS words_for(NESTED_ROOM)
#define LENT WAKKEMOSUT_TAPE_WORDS(NESTED_ROOM)
#define GUARD UINT64_C(0x5A5AA5A501234567)
#define GUARD_OCTET 0xC3

/* The octets of 01's third case: registry 0, a TE metric of 10. */
static const uint8_t METRIC[5] = {0x12, 0x03, 0x00, 0x00, 0x0A};

/* Its records at base 100, as 01's listing has them. */
static const uint64_t LISTING[ROOM][6] = {
    {KIND(WAKKEMOSUT_LABEL_SUB_TLVS, WAKKEMOSUT_SHAPE_ARRAY, 0), 100, 105, 0, 1, 5},
    {KIND(WAKKEMOSUT_LABEL_SUB_TLV, WAKKEMOSUT_SHAPE_OBJECT, 0), 100, 105, 0, 2, 5},
    {KIND(WAKKEMOSUT_LABEL_TYPE, WAKKEMOSUT_SHAPE_U8, 0), 100, 101, 18, 0, 0},
    {KIND(WAKKEMOSUT_LABEL_LENGTH, WAKKEMOSUT_SHAPE_U8, 0), 101, 102, 3, 0, 0},
    {KIND(WAKKEMOSUT_LABEL_TE_DEFAULT_METRIC, WAKKEMOSUT_SHAPE_U32, 0), 102, 105, 10, 0, 0}};

/* Registry 2: the range of 01's ninth case, a preference of 7, and an octet after it. */
static const uint8_t NESTED[15] = {0x02, 0x09, 0xC0, 0x00, 0x03, 0xE8, 0x01, 0x03, 0x00, 0x3E, 0x80, 0x18, 0x01, 0x07, 0xFF};

/* What a refused read gives. */
static const uint64_t ZEROS[6] = {0, 0, 0, 0, 0, 0};

/* A walk or a push. */
typedef void area_call(const uint8_t *, size_t, uint64_t, uint64_t, uint64_t *, size_t, uint64_t *);

/* One layout: its calls on a tape, how a record's six words lie there, and in how many words. */
struct layout {
    const char *name;
    area_call *walk, *push;
    void (*clear)(uint64_t *, size_t, uint64_t *);
    void (*cut_back)(uint64_t *, size_t, uint64_t, uint64_t *);
    void (*read)(const uint64_t *, size_t, uint64_t, uint64_t *, uint64_t *);
    uint8_t (*nest_test)(const uint64_t *, size_t);
    void (*lay)(const uint64_t *, uint64_t *);
    size_t record_words;
};

/* Lays a record's six words one after the other (01). */
static void lay_usual(const uint64_t *record, uint64_t *words) {
    memcpy(words, record, 6 * sizeof *record);
}

/* Lays a record's six words in four: start and end in one, first child and children's end in one (02). */
static void lay_slim(const uint64_t *record, uint64_t *words) {
    words[WAKKEMOSUT_SLIM_WORD_KIND] = record[0];
    words[WAKKEMOSUT_SLIM_WORD_OCTETS] = record[1] + UINT64_C(4294967296) * record[2];
    words[WAKKEMOSUT_SLIM_WORD_NUMBER] = record[3];
    words[WAKKEMOSUT_SLIM_WORD_CHILDREN] = record[4] + UINT64_C(4294967296) * record[5];
}

/* The layout of 01. */
static const struct layout USUAL = {
    .name = "usual",
    .walk = wakkemosut_walk,
    .push = wakkemosut_push,
    .clear = wakkemosut_clear,
    .cut_back = wakkemosut_cut_back,
    .read = wakkemosut_read,
    .nest_test = wakkemosut_nest_test,
    .lay = lay_usual,
    .record_words = 6};

/* The layout of 02, request 09. */
static const struct layout SLIM = {
    .name = "slim",
    .walk = wakkemosut_slim_walk,
    .push = wakkemosut_slim_push,
    .clear = wakkemosut_slim_clear,
    .cut_back = wakkemosut_slim_cut_back,
    .read = wakkemosut_slim_read,
    .nest_test = wakkemosut_slim_nest_test,
    .lay = lay_slim,
    .record_words = 4};

/* The layout under test. */
static const struct layout *layout = &USUAL;

/* A tape with room for each area of this test, a word after it that must stay, and the numbers of the last call. */
static uint64_t tape[LENT + 1];
static uint64_t numbers[WAKKEMOSUT_NUMBERS + 1];
static unsigned checks;

/* Counts a check, or ends the test if it does not hold. */
static void check(int held, const char *what, int line) {
    checks++;
    if (held)
        return;
    fprintf(stderr, "test.c:%d: not so: %s\n", line, what);
    fprintf(stderr, "%s layout, numbers: %llu %llu %llu %llu\n", layout->name, (unsigned long long)numbers[0],
            (unsigned long long)numbers[1], (unsigned long long)numbers[2], (unsigned long long)numbers[3]);
    exit(1);
}

/* The words of a tape with room for so many records; the record after these starts there. */
static size_t words_for(size_t records) {
    return layout == &SLIM ? WAKKEMOSUT_SLIM_TAPE_WORDS(records) : WAKKEMOSUT_TAPE_WORDS(records);
}

/* Fills the numbers with words that no call gives. */
static void forget_numbers(void) {
    size_t at;
    for (at = 0; at <= WAKKEMOSUT_NUMBERS; at++)
        numbers[at] = GUARD;
}

/* Fills the tape and the numbers with words that no call gives. */
static void fill(void) {
    size_t at;
    for (at = 0; at <= LENT; at++)
        tape[at] = GUARD;
    forget_numbers();
}

/* Whether the last call gave these numbers, and wrote no word after them. If so, they are forgotten. */
static int gave(uint64_t answer, uint64_t covered, uint64_t written, uint64_t needed) {
    const uint64_t wanted[5] = {answer, covered, written, needed, GUARD};
    if (memcmp(numbers, wanted, sizeof wanted) != 0)
        return 0;
    forget_numbers();
    return 1;
}

/* Whether the last call was refused so, without a number besides. */
static int refused(uint64_t answer) {
    return gave(answer, 0, 0, 0);
}

/* Fills the tape and clears its header. */
static void start(void) {
    fill();
    layout->clear(tape, WORDS, numbers);
    CHECK(gave(WAKKEMOSUT_DONE, 0, 0, 0));
}

/* Whether the tape's header says that so many records are used. */
static int used(uint64_t count) {
    const uint64_t header[4] = {count, 4, layout->record_words, 0};
    return memcmp(tape, header, sizeof header) == 0;
}

/* Whether no word from a place on was ever written. */
static int untouched(size_t from) {
    for (; from <= LENT; from++)
        if (tape[from] != GUARD)
            return 0;
    return 1;
}

/* Whether a record stands on the tape at a position. */
static int stands(size_t position, const uint64_t record[6]) {
    uint64_t wanted[6];
    layout->lay(record, wanted);
    return memcmp(tape + words_for(position), wanted, layout->record_words * sizeof *wanted) == 0;
}

/* Whether the records of the listing stand on the tape from a position on, children moved as far. */
static int listed_from(size_t position) {
    size_t at;
    for (at = 0; at < ROOM; at++) {
        uint64_t record[6];
        memcpy(record, LISTING[at], sizeof record);
        if (record[WAKKEMOSUT_WORD_CHILDREN_END] > 0) {
            record[WAKKEMOSUT_WORD_FIRST_CHILD] += position;
            record[WAKKEMOSUT_WORD_CHILDREN_END] += position;
        }
        if (!stands(position + at, record))
            return 0;
    }
    return 1;
}

/* Puts a record of the listing on the tape at its position, one of its words changed. */
static void put_changed(size_t position, size_t word, uint64_t changed) {
    uint64_t record[6];
    memcpy(record, LISTING[position], sizeof record);
    record[word] = changed;
    layout->lay(record, tape + words_for(position));
}

/* Pushes octets of registry 0 at base 100 onto the tape, which has this many words. */
static void push_neighbor(const uint8_t *area, size_t length, size_t words) {
    layout->push(area, length, BASE, WAKKEMOSUT_REGISTRY_NEIGHBOR, tape, words, numbers);
}

/* Clears the tape and pushes the third case onto it. */
static void start_with_metric(void) {
    start();
    push_neighbor(METRIC, sizeof METRIC, WORDS);
    CHECK(gave(WAKKEMOSUT_DONE, 5, 5, 5));
}

/* Whether a read of a position, on a tape of so many words, gives these six words and writes none after them. */
static int reads(uint64_t at, size_t words, const uint64_t wanted[6]) {
    uint64_t record[7] = {1, 1, 1, 1, 1, 1, GUARD};
    layout->read(tape, words, at, record, numbers);
    return memcmp(record, wanted, 6 * sizeof *wanted) == 0 && record[6] == GUARD;
}

/* Checks that these words of the tape are no tape to any call but clear, and that all of it stays. */
static void check_no_tape(size_t words) {
    uint64_t before[LENT + 1];
    memcpy(before, tape, sizeof tape);
    layout->walk(NULL, 0, BASE, WAKKEMOSUT_REGISTRY_NEIGHBOR, tape, words, numbers);
    CHECK(refused(WAKKEMOSUT_NO_TAPE));
    push_neighbor(METRIC, sizeof METRIC, words);
    CHECK(refused(WAKKEMOSUT_NO_TAPE));
    layout->cut_back(tape, words, 0, numbers);
    CHECK(refused(WAKKEMOSUT_NO_TAPE));
    CHECK(reads(0, words, ZEROS) && refused(WAKKEMOSUT_NO_TAPE));
    CHECK(layout->nest_test(tape, words) == 0);
    CHECK(memcmp(tape, before, sizeof before) == 0);
}

static void test_clear(void) {
    fill();
    layout->clear(tape, 3, numbers);
    CHECK(refused(WAKKEMOSUT_NO_TAPE) && untouched(0));
    layout->clear(NULL, 0, numbers);
    CHECK(refused(WAKKEMOSUT_NO_TAPE));
    layout->clear(tape, WORDS, numbers);
    CHECK(gave(WAKKEMOSUT_DONE, 0, 0, 0));
    CHECK(used(0) && untouched(4));
}

/* Under 4 words; each word of the header changed; one record fewer than are used. */
static void test_no_tape(void) {
    const uint64_t wrong[4] = {ROOM + 1, 5, layout->record_words + 1, 1};
    size_t word;
    start_with_metric();
    check_no_tape(0);
    check_no_tape(3);
    check_no_tape(WORDS - 1);
    for (word = 0; word < 4; word++) {
        start_with_metric();
        tape[word] = wrong[word];
        check_no_tape(WORDS);
    }
    CHECK(layout->nest_test(NULL, 0) == 0);
}

/* A tape of this layout is none of the other, until it is cleared there. */
static void test_other_layout(void) {
    const struct layout *own = layout;
    start_with_metric();
    layout = own == &USUAL ? &SLIM : &USUAL;
    check_no_tape(LENT);
    layout->clear(tape, LENT, numbers);
    CHECK(gave(WAKKEMOSUT_DONE, 0, 0, 0) && used(0));
    CHECK(layout->nest_test(tape, LENT) == 1);
    layout = own;
    check_no_tape(LENT);
}

static void test_push(void) {
    start();
    push_neighbor(METRIC, sizeof METRIC, WORDS);
    CHECK(gave(WAKKEMOSUT_DONE, 5, 5, 5));
    CHECK(used(5) && listed_from(0) && untouched(WORDS));
}

/* A push after another, and one whose inner area is of another registry. */
static void test_push_again(void) {
    const uint8_t capability[5] = {0x19, 0x03, 0x80, 0x00, 0x07};
    const uint64_t flags[6] = {KIND(WAKKEMOSUT_LABEL_SRV6_FLAGS, WAKKEMOSUT_SHAPE_U16, 2), 102, 104, 32768, 0, 0};
    const uint64_t array[6] = {KIND(WAKKEMOSUT_LABEL_SUB_TLVS, WAKKEMOSUT_SHAPE_ARRAY, 5), 104, 104, 0, 6, 6};
    start();
    push_neighbor(METRIC, 1, MORE_WORDS);
    CHECK(gave(WAKKEMOSUT_DONE, 0, 2, 2) && used(2));
    push_neighbor(METRIC, sizeof METRIC, MORE_WORDS);
    CHECK(gave(WAKKEMOSUT_DONE, 5, 5, 5));
    CHECK(used(7) && listed_from(2) && untouched(MORE_WORDS));
    layout->clear(tape, MORE_WORDS, numbers);
    layout->push(capability, sizeof capability, BASE, WAKKEMOSUT_REGISTRY_ROUTER_CAPABILITY, tape, MORE_WORDS, numbers);
    CHECK(gave(WAKKEMOSUT_DONE, 5, 7, 7) && used(7));
    CHECK(stands(4, flags) && stands(5, array));
    CHECK(WAKKEMOSUT_REGISTRY_OF(tape[words_for(4)]) == WAKKEMOSUT_REGISTRY_ROUTER_CAPABILITY);
    CHECK(WAKKEMOSUT_REGISTRY_OF(tape[words_for(6)]) == WAKKEMOSUT_REGISTRY_UNREGISTERED);
}

/* Room for 4, and a word too few for 5; an empty area; octets that are no entry; room that other records use. */
static void test_push_room(void) {
    const uint8_t cut_off[4] = {0x12, 0x03, 0x00, 0x00};
    const uint64_t array[6] = {KIND(WAKKEMOSUT_LABEL_SUB_TLVS, WAKKEMOSUT_SHAPE_ARRAY, 0), 100, 100, 0, 1, 1};
    const uint64_t raw[6] = {KIND(WAKKEMOSUT_LABEL_RAW, WAKKEMOSUT_SHAPE_BYTES, 0), 100, 104, 0, 0, 0};
    start();
    push_neighbor(METRIC, sizeof METRIC, words_for(4));
    CHECK(gave(WAKKEMOSUT_NO_ROOM, 0, 0, 5));
    push_neighbor(METRIC, sizeof METRIC, WORDS - 1);
    CHECK(gave(WAKKEMOSUT_NO_ROOM, 0, 0, 5));
    CHECK(used(0) && untouched(4));
    push_neighbor(NULL, 0, WORDS);
    CHECK(gave(WAKKEMOSUT_DONE, 0, 0, 0) && used(0) && untouched(4));
    push_neighbor(cut_off, sizeof cut_off, WORDS);
    CHECK(gave(WAKKEMOSUT_DONE, 0, 2, 2) && used(2));
    CHECK(stands(0, array) && stands(1, raw) && untouched(words_for(2)));
    CHECK(WAKKEMOSUT_LABEL_OF(tape[words_for(1)]) == WAKKEMOSUT_LABEL_RAW);
    CHECK(WAKKEMOSUT_SHAPE_OF(tape[words_for(1)]) == WAKKEMOSUT_SHAPE_BYTES);
    push_neighbor(METRIC, sizeof METRIC, WORDS);
    CHECK(gave(WAKKEMOSUT_NO_ROOM, 0, 0, 5) && used(2) && untouched(words_for(2)));
}

/* What a walk and a push refuse for the area's sake, and an area that ends as late as may be. */
static void test_area(area_call *call) {
    static const uint8_t too_long[WAKKEMOSUT_LONGEST_AREA + 1];
    const uint8_t six[6] = {0x12, 0x04, 0x00, 0x00, 0x0A, 0x00};
    const uint64_t array[6] = {LISTING[0][0], UINT64_C(4294967290), WAKKEMOSUT_HIGHEST_END, 0, 1, 5};
    start();
    call(METRIC, sizeof METRIC, BASE, 6, tape, WORDS, numbers);
    CHECK(refused(WAKKEMOSUT_NO_REGISTRY));
    call(too_long, sizeof too_long, 0, WAKKEMOSUT_REGISTRY_NEIGHBOR, tape, WORDS, numbers);
    CHECK(refused(WAKKEMOSUT_AREA_TOO_LONG));
    call(six, sizeof six, UINT64_C(4294967290), WAKKEMOSUT_REGISTRY_NEIGHBOR, tape, WORDS, numbers);
    CHECK(refused(WAKKEMOSUT_BASE_TOO_HIGH));
    call(METRIC, sizeof METRIC, UINT64_MAX, WAKKEMOSUT_REGISTRY_NEIGHBOR, tape, WORDS, numbers);
    CHECK(refused(WAKKEMOSUT_BASE_TOO_HIGH));
    CHECK(used(0) && untouched(4));
    call(METRIC, sizeof METRIC, UINT64_C(4294967290), WAKKEMOSUT_REGISTRY_NEIGHBOR, tape, WORDS, numbers);
    CHECK(gave(WAKKEMOSUT_DONE, 5, 5, 5));
    CHECK(used(5) && stands(0, array));
    CHECK(reads(0, WORDS, array) && gave(WAKKEMOSUT_DONE, 0, 0, 0));
}

static void test_walk(void) {
    const uint8_t tail[6] = {0x12, 0x03, 0x00, 0x00, 0x0A, 0x12};
    start();
    layout->walk(tail, sizeof tail, BASE, WAKKEMOSUT_REGISTRY_NEIGHBOR, tape, words_for(4), numbers);
    CHECK(gave(WAKKEMOSUT_NO_ROOM, 0, 0, 5) && used(0) && untouched(4));
    layout->walk(tail, sizeof tail, BASE, WAKKEMOSUT_REGISTRY_NEIGHBOR, tape, WORDS, numbers);
    CHECK(gave(WAKKEMOSUT_DONE, 5, 5, 5));
    CHECK(used(5) && listed_from(0) && untouched(WORDS));
    start();
    push_neighbor(tail, sizeof tail, WORDS);
    CHECK(gave(WAKKEMOSUT_NO_ROOM, 0, 0, 6) && used(0) && untouched(4));
}

static void test_cut_back(void) {
    start_with_metric();
    layout->cut_back(tape, WORDS, 6, numbers);
    CHECK(refused(WAKKEMOSUT_PAST_COUNT) && used(5));
    layout->cut_back(tape, WORDS, 2, numbers);
    CHECK(refused(WAKKEMOSUT_CUTS_CONTAINER) && used(5));
    layout->cut_back(tape, WORDS, 5, numbers);
    CHECK(gave(WAKKEMOSUT_DONE, 0, 0, 0) && used(5));
    layout->cut_back(tape, WORDS, 0, numbers);
    CHECK(gave(WAKKEMOSUT_DONE, 0, 0, 0));
    CHECK(used(0) && listed_from(0) && untouched(WORDS));
}

static void test_read(void) {
    uint64_t at;
    start_with_metric();
    CHECK(reads(5, WORDS, ZEROS) && refused(WAKKEMOSUT_PAST_COUNT));
    for (at = 0; at < ROOM; at++)
        CHECK(reads(at, WORDS, LISTING[at]) && gave(WAKKEMOSUT_DONE, 0, 0, 0));
    put_changed(4, WAKKEMOSUT_WORD_KIND, KIND(LABELS, 0, 0));
    CHECK(reads(4, WORDS, ZEROS) && refused(WAKKEMOSUT_NO_RECORD));
    put_changed(4, WAKKEMOSUT_WORD_KIND, KIND(0, 9, 0));
    CHECK(reads(4, WORDS, ZEROS) && refused(WAKKEMOSUT_NO_RECORD));
    put_changed(4, WAKKEMOSUT_WORD_KIND, KIND(0, 0, 6));
    CHECK(reads(4, WORDS, ZEROS) && refused(WAKKEMOSUT_NO_RECORD));
    put_changed(4, WAKKEMOSUT_WORD_START, 106);
    CHECK(reads(4, WORDS, ZEROS) && refused(WAKKEMOSUT_NO_RECORD));
}

static void test_nest_test(void) {
    start_with_metric();
    CHECK(layout->nest_test(tape, WORDS) == 1);
    put_changed(0, WAKKEMOSUT_WORD_CHILDREN_END, 6);
    CHECK(layout->nest_test(tape, WORDS) == 0);
    put_changed(0, WAKKEMOSUT_WORD_FIRST_CHILD, 2);
    CHECK(layout->nest_test(tape, WORDS) == 0);
    start_with_metric();
    put_changed(2, WAKKEMOSUT_WORD_CHILDREN_END, 3);
    CHECK(layout->nest_test(tape, WORDS) == 0);
}

/* Whether a read of a position is done; if so, the record is given. */
static int read_at(uint64_t at, uint64_t record[6]) {
    layout->read(tape, NESTED_WORDS, at, record, numbers);
    return gave(WAKKEMOSUT_DONE, 0, 0, 0);
}

/* Whether the records beside each other from a position up to an end are those at these positions, so many. */
static int siblings(uint64_t at, uint64_t end, size_t count, const uint64_t *wanted) {
    uint64_t record[6];
    for (; at < end && count > 0; count--) {
        if (at != *wanted++ || !read_at(at, record))
            return 0;
        at = wakkemosut_next(at, record);
    }
    return at == end && count == 0;
}

/* Whether the children of a record are those at these positions, so many. */
static int children(uint64_t at, size_t count, const uint64_t *wanted) {
    uint64_t record[6];
    return read_at(at, record) &&
           siblings(record[WAKKEMOSUT_WORD_FIRST_CHILD], record[WAKKEMOSUT_WORD_CHILDREN_END], count, wanted);
}

/* The records of 01's listing: one tree, three fields in one entry, and the octets of the metric. */
static void test_siblings_listed(void) {
    static const uint64_t positions[5] = {0, 1, 2, 3, 4};
    const uint8_t *octets;
    uint64_t record[6];
    start_with_metric();
    CHECK(siblings(0, tape[WAKKEMOSUT_TAPE_USED], 1, positions));
    CHECK(children(0, 1, positions + 1));
    CHECK(children(1, 3, positions + 2));
    CHECK(children(4, 0, NULL));
    CHECK(read_at(4, record));
    octets = METRIC + (record[WAKKEMOSUT_WORD_START] - BASE);
    CHECK(octets == METRIC + 2 && octets[0] == 0x00 && octets[1] == 0x00 && octets[2] == 0x0A);
    CHECK(octets + 3 == METRIC + (record[WAKKEMOSUT_WORD_END] - BASE));
}

/* Two trees, the first of two entries, the first of which has ranges; each record's children, all in their places. */
static void test_siblings_nested(void) {
    static const uint64_t trees[2] = {0, 13}, entries[2] = {1, 9}, fields[4] = {2, 3, 4, 5}, ranges[1] = {6};
    static const uint64_t of_range[2] = {7, 8}, preference[3] = {10, 11, 12};
    static const uint64_t sid[6] = {KIND(WAKKEMOSUT_LABEL_RANGE_SID, WAKKEMOSUT_SHAPE_U32, 2), 108, 111, 16000, 0, 0};
    uint64_t first;
    fill();
    layout->clear(tape, NESTED_WORDS, numbers);
    CHECK(gave(WAKKEMOSUT_DONE, 0, 0, 0));
    first = tape[WAKKEMOSUT_TAPE_USED];
    layout->push(NESTED, sizeof NESTED, BASE, WAKKEMOSUT_REGISTRY_ROUTER_CAPABILITY, tape, NESTED_WORDS, numbers);
    CHECK(numbers[WAKKEMOSUT_WRITTEN] == NESTED_ROOM && gave(WAKKEMOSUT_DONE, 14, 14, 14));
    CHECK(siblings(first, first + NESTED_ROOM, 2, trees));
    CHECK(children(0, 2, entries));
    CHECK(children(1, 4, fields));
    CHECK(children(5, 1, ranges));
    CHECK(children(6, 2, of_range));
    CHECK(children(9, 3, preference));
    CHECK(children(8, 0, NULL) && children(13, 0, NULL));
    CHECK(reads(8, NESTED_WORDS, sid) && gave(WAKKEMOSUT_DONE, 0, 0, 0));
}

/* The records that a second push writes begin at the count before it. */
static void test_siblings_later(void) {
    static const uint64_t trees[3] = {0, 1, 2}, entry[1] = {3}, fields[3] = {4, 5, 6};
    uint64_t first;
    start();
    push_neighbor(METRIC, 1, MORE_WORDS);
    CHECK(gave(WAKKEMOSUT_DONE, 0, 2, 2));
    first = tape[WAKKEMOSUT_TAPE_USED];
    push_neighbor(METRIC, sizeof METRIC, MORE_WORDS);
    CHECK(gave(WAKKEMOSUT_DONE, 5, 5, 5));
    CHECK(siblings(0, tape[WAKKEMOSUT_TAPE_USED], 3, trees));
    CHECK(first == 2 && siblings(first, first + 5, 1, trees + 2));
    CHECK(children(2, 1, entry) && children(3, 3, fields));
}

/* Three octets can need eight records, and these do: one more than seven, which are too few. */
static void test_most_records(void) {
    const uint8_t attributes[3] = {0x04, 0x01, 0xA0};
    const size_t most = words_for(WAKKEMOSUT_MOST_RECORDS(sizeof attributes));
    fill();
    layout->clear(tape, most, numbers);
    CHECK(gave(WAKKEMOSUT_DONE, 0, 0, 0));
    layout->push(attributes, 3, BASE, WAKKEMOSUT_REGISTRY_PREFIX, tape, words_for(7), numbers);
    CHECK(gave(WAKKEMOSUT_NO_ROOM, 0, 0, 8));
    layout->push(attributes, 3, BASE, WAKKEMOSUT_REGISTRY_PREFIX, tape, most, numbers);
    CHECK(gave(WAKKEMOSUT_DONE, 3, 8, 8) && used(8) && untouched(most));
}

/* The calls on a tape, in the layout under test. */
static void test_tape(void) {
    test_clear();
    test_no_tape();
    test_other_layout();
    test_push();
    test_push_again();
    test_push_room();
    test_area(layout->push);
    test_area(layout->walk);
    test_walk();
    test_cut_back();
    test_read();
    test_nest_test();
    test_siblings_listed();
    test_siblings_nested();
    test_siblings_later();
    test_most_records();
}

/* The third case on a slim tape, its words worked out by hand. */
static void test_slim_words(void) {
    static const uint64_t wanted[24] = {
        5,      4,                      4,  0,                     /* header */
        0x0704, UINT64_C(0x6900000064), 0,  UINT64_C(0x500000001), /* sub_tlvs, 100 to 105, 1 to 5 */
        0x082F, UINT64_C(0x6900000064), 0,  UINT64_C(0x500000002), /* sub_tlv, 100 to 105, 2 to 5 */
        0x0000, UINT64_C(0x6500000064), 18, 0,                     /* type, 100 to 101 */
        0x0001, UINT64_C(0x6600000065), 3,  0,                     /* length, 101 to 102 */
        0x020F, UINT64_C(0x6900000066), 10, 0};                    /* te_default_metric, 102 to 105 */
    const uint64_t *object = tape + WAKKEMOSUT_SLIM_TAPE_WORDS(1);
    start_with_metric();
    CHECK(memcmp(tape, wanted, sizeof wanted) == 0 && untouched(24));
    CHECK(WAKKEMOSUT_SLIM_START_OF(object[WAKKEMOSUT_SLIM_WORD_OCTETS]) == 100);
    CHECK(WAKKEMOSUT_SLIM_END_OF(object[WAKKEMOSUT_SLIM_WORD_OCTETS]) == 105);
    CHECK(WAKKEMOSUT_SLIM_START_OF(object[WAKKEMOSUT_SLIM_WORD_CHILDREN]) == 2);
    CHECK(WAKKEMOSUT_SLIM_END_OF(object[WAKKEMOSUT_SLIM_WORD_CHILDREN]) == 5);
}

static void test_name(void) {
    uint8_t out[WAKKEMOSUT_LONGEST_NAME];
    fill();
    memset(out, GUARD_OCTET, sizeof out);
    wakkemosut_name(6, 18, out, sizeof out, numbers);
    CHECK(gave(WAKKEMOSUT_NO_REGISTRY, 0, 0, 0) && out[0] == GUARD_OCTET);
    wakkemosut_name(WAKKEMOSUT_REGISTRY_NEIGHBOR, 18, out, 16, numbers);
    CHECK(gave(WAKKEMOSUT_NAME_TOO_LONG, 0, 0, 0) && out[0] == GUARD_OCTET);
    wakkemosut_name(WAKKEMOSUT_REGISTRY_NEIGHBOR, 256 + 18, out, sizeof out, numbers);
    CHECK(gave(WAKKEMOSUT_DONE, 0, 0, 0) && out[0] == GUARD_OCTET);
    wakkemosut_name(WAKKEMOSUT_REGISTRY_NEIGHBOR, 18, out, 17, numbers);
    CHECK(gave(WAKKEMOSUT_DONE, 0, 17, 0) && memcmp(out, "TE Default metric", 17) == 0 && out[17] == GUARD_OCTET);
    wakkemosut_name(WAKKEMOSUT_REGISTRY_ROUTER_CAPABILITY, 24, out, sizeof out - 1, numbers);
    CHECK(gave(WAKKEMOSUT_NAME_TOO_LONG, 0, 0, 0));
    wakkemosut_name(WAKKEMOSUT_REGISTRY_ROUTER_CAPABILITY, 24, out, sizeof out, numbers);
    CHECK(gave(WAKKEMOSUT_DONE, 0, WAKKEMOSUT_LONGEST_NAME, 0) && out[sizeof out - 1] == ')');
}

static void test_mask(void) {
    uint8_t prefix[3] = {0xFF, 0xFF, 0xFF};
    wakkemosut_mask(prefix, 2, 16);
    CHECK(prefix[0] == 0xFF && prefix[1] == 0xFF);
    wakkemosut_mask(prefix, 2, 13);
    CHECK(prefix[0] == 0xFF && prefix[1] == 0xF8 && prefix[2] == 0xFF);
    wakkemosut_mask(NULL, 0, 13);
    wakkemosut_mask(prefix, 2, 0);
    CHECK(prefix[0] == 0 && prefix[1] == 0 && prefix[2] == 0xFF);
}

/* What follows a record: words that no call leaves too, after which the next position is later all the same. */
static void test_next(void) {
    const uint64_t array[6] = {KIND(WAKKEMOSUT_LABEL_SUB_TLVS, WAKKEMOSUT_SHAPE_ARRAY, 5), 100, 105, 0, 8, 12};
    const uint64_t object[6] = {KIND(WAKKEMOSUT_LABEL_SUB_TLV, WAKKEMOSUT_SHAPE_OBJECT, 5), 100, 105, 0, 8, 8};
    const uint64_t leaf[6] = {KIND(WAKKEMOSUT_LABEL_RAW, WAKKEMOSUT_SHAPE_BYTES, 5), 100, 105, 0, 8, 12};
    CHECK(wakkemosut_next(7, array) == 12 && wakkemosut_next(11, array) == 12);
    CHECK(wakkemosut_next(12, array) == 13 && wakkemosut_next(40, array) == 41);
    CHECK(wakkemosut_next(7, object) == 8 && wakkemosut_next(8, object) == 9);
    CHECK(wakkemosut_next(7, leaf) == 8);
}

static void test_is_container(void) {
    uint64_t shape;
    for (shape = WAKKEMOSUT_SHAPE_U8; shape <= WAKKEMOSUT_SHAPE_BYTES; shape++)
        CHECK(!WAKKEMOSUT_IS_CONTAINER(shape));
    CHECK(WAKKEMOSUT_IS_CONTAINER(7) && WAKKEMOSUT_IS_CONTAINER(8) && !WAKKEMOSUT_IS_CONTAINER(9));
}

/* The bound of 01, 1 + floor(7 n / 3), worked out by hand; of sums, of a narrow type; a tape of the size that it gives. */
static void test_bound(void) {
    static const uint64_t for_a_tlv[WAKKEMOSUT_TAPE_WORDS(WAKKEMOSUT_MOST_RECORDS(255))];
    static const uint64_t slim_for_a_tlv[WAKKEMOSUT_SLIM_TAPE_WORDS(WAKKEMOSUT_MOST_RECORDS(255))];
    const uint16_t longest = WAKKEMOSUT_LONGEST_AREA;
    CHECK(WAKKEMOSUT_MOST_RECORDS(0) == 0);
    CHECK(WAKKEMOSUT_MOST_RECORDS(1) == 3);
    CHECK(WAKKEMOSUT_MOST_RECORDS(2) == 5);
    CHECK(WAKKEMOSUT_MOST_RECORDS(3) == 8);
    CHECK(WAKKEMOSUT_MOST_RECORDS(2 + 4) == 15 && WAKKEMOSUT_MOST_RECORDS(1 & 2) == 0);
    CHECK(WAKKEMOSUT_MOST_RECORDS(65535) == 152916);
    CHECK(WAKKEMOSUT_MOST_RECORDS(longest) == 152916);
    CHECK(sizeof for_a_tlv == 8 * (4 + 6 * 596) && sizeof slim_for_a_tlv == 8 * (4 + 4 * 596));
}

/* Whether a text is this one, or both are none. */
static int says(const char *text, const char *wanted) {
    return wanted == NULL || text == NULL ? text == wanted : strcmp(text, wanted) == 0;
}

static void test_label_name(void) {
    uint64_t label;
    for (label = 0; label < LABELS; label++)
        CHECK(wakkemosut_label_name(label) != NULL);
    CHECK(says(wakkemosut_label_name(0), "type"));
    CHECK(says(wakkemosut_label_name(WAKKEMOSUT_LABEL_TE_DEFAULT_METRIC), "te_default_metric"));
    CHECK(says(wakkemosut_label_name(46), "ipv6_te_router_id"));
    CHECK(says(wakkemosut_label_name(47), "sub_tlv"));
    CHECK(says(wakkemosut_label_name(56), "algorithm_element"));
    CHECK(WAKKEMOSUT_LABELS_END == LABELS && says(wakkemosut_label_name(LABELS), NULL));
    CHECK(says(wakkemosut_label_name(256), NULL));
    CHECK(says(wakkemosut_label_name(UINT64_C(4294967296)), NULL));
    CHECK(says(wakkemosut_label_name(UINT64_MAX), NULL));
}

static void test_answer_text(void) {
    CHECK(says(wakkemosut_answer_text(WAKKEMOSUT_DONE), "done"));
    CHECK(says(wakkemosut_answer_text(1), "the registry is not 0 to 5"));
    CHECK(says(wakkemosut_answer_text(WAKKEMOSUT_NO_ROOM), "no room for the records"));
    CHECK(says(wakkemosut_answer_text(9), "the name is longer than the lent octets"));
    CHECK(says(wakkemosut_answer_text(10), "the dump program's input is too short or too long"));
    CHECK(WAKKEMOSUT_ANSWERS_END == 11 && says(wakkemosut_answer_text(11), NO_ANSWER));
    CHECK(says(wakkemosut_answer_text(UINT64_C(4294967296)), NO_ANSWER));
    CHECK(says(wakkemosut_answer_text(UINT64_MAX), NO_ANSWER));
}

int main(void) {
    layout = &USUAL;
    test_tape();
    layout = &SLIM;
    test_tape();
    test_slim_words();
    test_name();
    test_mask();
    test_next();
    test_is_container();
    test_bound();
    test_label_name();
    test_answer_text();
    printf("test.c: %u checks held\n", checks);
    return 0;
}
