/*
 * What a law costs: `charge increment.unit 1000 1 8` runs the unit's function at the desk from a frame with these words
 * in its first slots and 0 in the others, with a price for each step, and prints how it stopped and the charge. Then it
 * charges a jump to itself within low limits: the sum of the prices is rounded up, to a whole cent.
 *
 *     tools/install target/installed
 *     export PKG_CONFIG_PATH=target/installed/lib/pkgconfig
 *     cc -O2 examples/charge.c $(pkg-config --cflags --libs lampruda) -o target/charge
 *     target/charge examples/increment.unit 1000 1 8
 *
 * It ends with 0, with 1 where the run is refused, with 2 where it could not call the library.
 */
#include "lampruda.h"

#include <inttypes.h>
#include <stdio.h>
#include <stdlib.h>

#define LIMIT 1000000

/* Any unit that is read is shorter, and no function has more slots. */
#define UNIT 1048576
#define SLOTS 65535

/* The opcodes with a price of their own. */
enum {
    HINT = 0, LOAD_INT = 1, LOAD_CONST = 2, COPY = 3, JUMP = 57, JUMP_IF = 58, JUMP_IF_NOT = 59, RETURN = 64, PANIC = 111
};

/* A unit of one instruction, a jump to itself: the header of 18 words, the instruction, its metadata. */
static const uint8_t ENDLESS[96] = {[0] = 1, [4] = 1, [36] = 72, [40] = 80, [44] = 96, [48] = 96, [52] = 96,
                                    [56] = 96, [60] = 96, [68] = 96, [72] = JUMP};

static uint8_t unit[UNIT];
static uint64_t frame[SLOTS];
static uint16_t tariff[LAMPRUDA_PRICES];

/* Thousandths of a cent, as in centre.tariff. */
static void fill_tariff(void)
{
    size_t opcode;
    for (opcode = 0; opcode < LAMPRUDA_PRICES; opcode++)
        tariff[opcode] = 250;
    tariff[LOAD_INT] = tariff[LOAD_CONST] = tariff[COPY] = 100;
    tariff[HINT] = 50;
    tariff[JUMP] = 150;
    tariff[JUMP_IF] = tariff[JUMP_IF_NOT] = 200;
    tariff[RETURN] = tariff[PANIC] = 500;
}

static size_t read_unit(const char *name)
{
    FILE *file = fopen(name, "rb");
    size_t length;
    if (file == NULL) {
        perror(name);
        exit(2);
    }
    length = fread(unit, 1, UNIT, file);
    if (length == UNIT) {
        fprintf(stderr, "%s: longer than this example reads\n", name);
        exit(2);
    }
    fclose(file);
    return length;
}

static void print(lampruda_charged charged)
{
    uint32_t slot;
    switch (charged.kind) {
    case LAMPRUDA_RUN_RETURNED:
    case LAMPRUDA_RUN_PANICKED:
        printf("%s", charged.kind == LAMPRUDA_RUN_RETURNED ? "returned" : "panicked");
        for (slot = charged.first; slot < charged.first + charged.second; slot++)
            printf(" %" PRId64, (int64_t)frame[slot]);
        break;
    case LAMPRUDA_RUN_REFUSED:
        printf("refused %" PRIu32 " at place %" PRIu32 "\n", charged.first, charged.second);
        exit(1);
    case LAMPRUDA_RUN_ENDED:
        printf("ran out at the end of the code");
        break;
    case LAMPRUDA_RUN_OTHER:
        printf("came to place %" PRIu32 ", which the desk does not execute", charged.first);
        break;
    default:
        printf("reached the limit");
    }
    printf(", cents %" PRIu64 "\n", charged.cents);
}

int main(int count, char **words)
{
    static const uint32_t limits[] = {0, 1, 6, 7, 20};
    size_t length, slots, slot, i;
    if (count < 2) {
        fprintf(stderr, "usage: %s UNIT [WORD ..]\n", words[0]);
        return 2;
    }
    length = read_unit(words[1]);
    slots = length < 72 ? 0 : lampruda_word(unit, 2);
    if (slots > SLOTS)
        slots = 0; /* no unit */
    for (slot = 0; slot < slots && slot + 2 < (size_t)count; slot++)
        frame[slot] = (uint64_t)strtoll(words[slot + 2], NULL, 0);
    fill_tariff();
    print(lampruda_charge(unit, length, frame, slots, LIMIT, tariff, LAMPRUDA_PRICES));

    for (i = 0; i < sizeof limits / sizeof *limits; i++) {
        printf("a jump to itself, steps %" PRIu32 " of %d: ", limits[i], tariff[JUMP]);
        print(lampruda_charge(ENDLESS, sizeof ENDLESS, frame, 0, limits[i], tariff, LAMPRUDA_PRICES));
    }
    return 0;
}
