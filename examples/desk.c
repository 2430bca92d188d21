/*
 * A law at the desk: `desk increment.unit 4 1 2` runs the unit's function from a frame with these words in its first
 * slots and 0 in the others, prints how it stopped and the words that it read, and goes through it once more step by
 * step. Then it cleans the unit, lays the result out as a unit again and does the same with that: where the first
 * returned, panicked or ran out at its end, the second does so too, with the same words, in no more steps.
 *
 *     tools/install target/installed
 *     export PKG_CONFIG_PATH=target/installed/lib/pkgconfig
 *     cc -O2 examples/desk.c $(pkg-config --cflags --libs lampruda) -o target/desk
 *     target/desk examples/increment.unit 4 1 2
 *
 * It ends with 0, with 1 where the run or the cleaning is refused, with 2 where it could not call the library.
 */
#include "lampruda.h"

#include <inttypes.h>
#include <stdio.h>
#include <stdlib.h>

/* Steps at most; a law that is to be stepped takes fewer. */
#define LIMIT 1000

/* Bytes and their length. */
typedef struct {
    uint8_t *bytes;
    size_t length;
} unit;

/* Never null for length 0: the library is lent no null pointers. */
static void *buffer(size_t length, size_t element)
{
    void *memory = calloc(length + 1, element);
    if (memory == NULL) {
        fputs("out of memory\n", stderr);
        exit(2);
    }
    return memory;
}

static unit read_unit(const char *name)
{
    unit given;
    FILE *file = fopen(name, "rb");
    long size;
    if (file == NULL || fseek(file, 0, SEEK_END) != 0 || (size = ftell(file)) < 0) {
        perror(name);
        exit(2);
    }
    rewind(file);
    given.length = (size_t)size;
    given.bytes = buffer(given.length, 1);
    if (fread(given.bytes, 1, given.length, file) != given.length) {
        perror(name);
        exit(2);
    }
    fclose(file);
    return given;
}

/* One word for each local slot: those of the command line, then 0. */
static size_t fill(uint64_t *frame, unit given, int count, char **words)
{
    size_t slots = given.length < 72 ? 0 : lampruda_word(given.bytes, 2), slot;
    if (slots > 65535)
        slots = 0; /* no unit */
    for (slot = 0; slot < slots; slot++)
        frame[slot] = slot < (size_t)count ? (uint64_t)strtoll(words[slot], NULL, 0) : 0;
    return slots;
}

static void print_stop(lampruda_stop stop, const uint64_t *frame)
{
    uint32_t slot;
    switch (stop.kind) {
    case LAMPRUDA_RUN_RETURNED:
    case LAMPRUDA_RUN_PANICKED:
        printf("%s", stop.kind == LAMPRUDA_RUN_RETURNED ? "returned" : "panicked");
        for (slot = stop.first; slot < stop.first + stop.second; slot++)
            printf(" %" PRId64, (int64_t)frame[slot]);
        printf("\n");
        break;
    case LAMPRUDA_RUN_REFUSED:
        printf("refused %" PRIu32 " at place %" PRIu32 "\n", stop.first, stop.second);
        exit(1);
    case LAMPRUDA_RUN_ENDED:
        printf("ran out at the end of the code\n");
        break;
    case LAMPRUDA_RUN_OTHER:
        printf("came to place %" PRIu32 ", which the desk does not execute\n", stop.first);
        break;
    default:
        printf("reached the limit of %d steps\n", LIMIT);
    }
}

/* The run, and then its steps one by one: their places, and how many there were. */
static void run(unit given, uint64_t *frame, int count, char **words)
{
    size_t slots = fill(frame, given, count, words);
    uint32_t place = 0, steps = 0;
    lampruda_stop stop = lampruda_run(given.bytes, given.length, frame, slots, LIMIT);
    print_stop(stop, frame);

    fill(frame, given, count, words);
    printf("places");
    while (steps < LIMIT) {
        stop = lampruda_step(given.bytes, given.length, frame, slots, place);
        if (stop.kind == LAMPRUDA_RUN_ENDED || stop.kind == LAMPRUDA_RUN_OTHER)
            break;
        printf(" %" PRIu32, place);
        steps++;
        if (stop.kind != LAMPRUDA_RUN_GOES)
            break;
        place = stop.first;
    }
    printf("\nsteps %" PRIu32 "\n", steps);
}

/* What up to three passes leave, as a unit again; the given unit where they alter nothing. */
static unit clean(unit given)
{
    size_t out_length = 0, work32_length = 0, work64_length = 0;
    uint8_t *out, *first, *second;
    uint32_t *work32;
    uint64_t *work64;
    lampruda_cleaned cleaned;
    unit shorter = given;

    if (lampruda_worked_on(given.bytes, given.length)) {
        uint32_t n = lampruda_word(given.bytes, 0);
        out_length = lampruda_out_length(n, lampruda_word(given.bytes, 16));
        work32_length = lampruda_work32_length(n);
        work64_length = lampruda_work64_length(n, lampruda_word(given.bytes, 2));
    }
    out = buffer(out_length, 1);
    work32 = buffer(work32_length, sizeof *work32);
    work64 = buffer(work64_length, sizeof *work64);
    first = buffer(out_length, 1);
    second = buffer(out_length, 1);
    cleaned = lampruda_clean(given.bytes, given.length, out, out_length, work32, work32_length, work64, work64_length,
                             first, out_length, second, out_length);
    if (cleaned.kind == LAMPRUDA_REFUSED) {
        printf("cleaning: refused %" PRIu32 " at place %" PRIu32 "\n", cleaned.number, cleaned.place);
        exit(1);
    }
    if (cleaned.kind == LAMPRUDA_REWRITTEN) {
        lampruda_laid laid;
        shorter.bytes = buffer(given.length, 1);
        laid = lampruda_lay_out(given.bytes, given.length, out, out_length, shorter.bytes, given.length);
        if (laid.kind != LAMPRUDA_LAID_UNIT)
            exit(2);
        shorter.length = laid.length;
    }
    free(second);
    free(first);
    free(work64);
    free(work32);
    free(out);
    return shorter;
}

int main(int count, char **words)
{
    uint64_t *frame;
    unit given, shorter;
    if (count < 2) {
        fprintf(stderr, "usage: %s UNIT [WORD ..]\n", words[0]);
        return 2;
    }
    given = read_unit(words[1]);
    frame = buffer(65535, sizeof *frame); /* for as many slots as there can be */
    printf("given\n");
    run(given, frame, count - 2, words + 2);

    shorter = clean(given);
    printf("cleaned, %" PRIu32 " of %" PRIu32 " instructions\n", lampruda_word(shorter.bytes, 0),
           lampruda_word(given.bytes, 0));
    run(shorter, frame, count - 2, words + 2);

    if (shorter.bytes != given.bytes)
        free(shorter.bytes);
    free(given.bytes);
    free(frame);
    return 0;
}
