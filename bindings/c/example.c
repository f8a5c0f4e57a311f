/*
 * Reads the sub-TLVs of a neighbor and prints them; then has too little room for them, and prints why that was refused. What it
 * prints is in example.txt. From the top of the tree, with the library in target/host:
 *
 *     cc -Iinclude bindings/c/example.c target/host/libwakkemosut.a -o example
 */
#include <inttypes.h>
#include <stdio.h>

#include "wakkemosut.h"

/* The area, and the place of its first octet in the packet that it was found in. */
static const uint8_t AREA[] = {
    0x12, 0x03, 0x00, 0x00, 0x0A,       /* type 18, the TE default metric: 10 */
    0x06, 0x04, 0xC0, 0x00, 0x02, 0x01, /* type 6, the IPv4 interface address: 192.0.2.1 */
    0xFA, 0x02, 0xAB, 0xCD,             /* type 250, which the registry does not know */
    0x12                                /* an entry that was cut off */
};
#define BASE 100

/* The tape, with room for whatever stands in so many octets. */
#define WORDS WAKKEMOSUT_TAPE_WORDS(WAKKEMOSUT_MOST_RECORDS(sizeof AREA))
static uint64_t tape[WORDS];

/* Whether a call was done. If it was refused, prints why. */
static int done(const char *call, const uint64_t numbers[WAKKEMOSUT_NUMBERS]) {
    const uint64_t answer = numbers[WAKKEMOSUT_ANSWER];
    if (answer == WAKKEMOSUT_DONE)
        return 1;
    printf("%s refused with %" PRIu64 ": %s", call, answer, wakkemosut_answer_text(answer));
    if (answer == WAKKEMOSUT_NO_ROOM)
        printf(", %" PRIu64 " needed", numbers[WAKKEMOSUT_NEEDED]);
    printf("\n");
    return 0;
}

/* Prints the name of a type, if it has one. No NUL ends it: its length is in the numbers. */
static void print_name(uint64_t registry, uint64_t type) {
    uint8_t name[WAKKEMOSUT_LONGEST_NAME];
    uint64_t numbers[WAKKEMOSUT_NUMBERS];
    wakkemosut_name(registry, type, name, sizeof name, numbers);
    if (done("name", numbers) && numbers[WAKKEMOSUT_WRITTEN] > 0)
        printf("  %.*s", (int)numbers[WAKKEMOSUT_WRITTEN], (const char *)name);
}

/* Prints the octets of a record. They are in the area, where the base is taken off again. */
static void print_octets(const uint64_t record[WAKKEMOSUT_RECORD_WORDS], uint64_t shape) {
    const uint8_t *octet = AREA + (record[WAKKEMOSUT_WORD_START] - BASE);
    const uint8_t *end = AREA + (record[WAKKEMOSUT_WORD_END] - BASE);
    if (shape == WAKKEMOSUT_SHAPE_IPV4) {
        printf("  %d.%d.%d.%d", octet[0], octet[1], octet[2], octet[3]);
        return;
    }
    printf(" ");
    for (; octet < end; octet++)
        printf(" %02X", octet[0]);
}

/* Prints a record in a line: its field, from which octet up to which it is, and its number or its octets, if it is a leaf. */
static void print_record(const uint64_t record[WAKKEMOSUT_RECORD_WORDS], int depth) {
    const uint64_t kind = record[WAKKEMOSUT_WORD_KIND];
    const uint64_t label = WAKKEMOSUT_LABEL_OF(kind);
    const uint64_t shape = WAKKEMOSUT_SHAPE_OF(kind);
    const char *field = wakkemosut_label_name(label); /* NULL only if the library has labels that this header has not */
    printf("%*s%-*s", 2 * depth, "", 30 - 2 * depth, field != NULL ? field : "?");
    printf("%" PRIu64 "-%" PRIu64, record[WAKKEMOSUT_WORD_START], record[WAKKEMOSUT_WORD_END]);
    if (shape <= WAKKEMOSUT_SHAPE_U64)
        printf("  %" PRIu64, record[WAKKEMOSUT_WORD_NUMBER]);
    else if (!WAKKEMOSUT_IS_CONTAINER(shape))
        print_octets(record, shape);
    if (label == WAKKEMOSUT_LABEL_TYPE)
        print_name(WAKKEMOSUT_REGISTRY_OF(kind), record[WAKKEMOSUT_WORD_NUMBER]);
    printf("\n");
}

/* Prints the records beside each other from a position up to an end, each with those inside it. */
static void print_records(uint64_t position, uint64_t end, int depth) {
    uint64_t record[WAKKEMOSUT_RECORD_WORDS];
    uint64_t numbers[WAKKEMOSUT_NUMBERS];
    while (position < end) {
        wakkemosut_read(tape, WORDS, position, record, numbers);
        if (!done("read", numbers))
            return;
        print_record(record, depth);
        print_records(record[WAKKEMOSUT_WORD_FIRST_CHILD], record[WAKKEMOSUT_WORD_CHILDREN_END], depth + 1);
        position = wakkemosut_next(position, record);
    }
}

/* Pushes the area onto the tape and prints what it became. Gives whether all was done. */
static int read_area(void) {
    uint64_t numbers[WAKKEMOSUT_NUMBERS];
    uint64_t first;
    wakkemosut_clear(tape, WORDS, numbers);
    if (!done("clear", numbers))
        return 0;
    first = tape[WAKKEMOSUT_TAPE_USED]; /* here the new records begin: 0 on a clear tape, more behind another push */
    wakkemosut_push(AREA, sizeof AREA, BASE, WAKKEMOSUT_REGISTRY_NEIGHBOR, tape, WORDS, numbers);
    if (!done("push", numbers))
        return 0;
    printf("%" PRIu64 " of %d octets covered, %" PRIu64 " records\n", numbers[WAKKEMOSUT_COVERED], (int)sizeof AREA,
           numbers[WAKKEMOSUT_WRITTEN]);
    print_records(first, first + numbers[WAKKEMOSUT_WRITTEN], 0);
    return 1;
}

/* Pushes the area onto a tape with too little room. Gives whether it was refused. */
static int run_out_of_room(void) {
    uint64_t small[WAKKEMOSUT_TAPE_WORDS(4)];
    uint64_t numbers[WAKKEMOSUT_NUMBERS];
    wakkemosut_clear(small, WAKKEMOSUT_TAPE_WORDS(4), numbers);
    wakkemosut_push(AREA, sizeof AREA, BASE, WAKKEMOSUT_REGISTRY_NEIGHBOR, small, WAKKEMOSUT_TAPE_WORDS(4), numbers);
    return !done("push", numbers);
}

int main(void) {
    return read_area() && run_out_of_room() ? 0 : 1;
}
