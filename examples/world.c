/*
 * The complete small world: makes each of the 346,176 short functions from its number, runs one pass over it and prints
 * how many were unchanged, rewritten and refused.
 *
 *     tools/install target/installed
 *     export PKG_CONFIG_PATH=target/installed/lib/pkgconfig
 *     cc -O2 examples/world.c $(pkg-config --cflags --libs lampruda) -o target/world
 *     target/world
 *
 * It ends with 0, or with 2 where a number is not found again in its unit.
 */
#include "lampruda.h"

#include <stdio.h>

int main(void)
{
    /* More than a function of four instructions and two slots asks for. */
    static uint8_t unit[256], out[256];
    static uint32_t work32[128];
    static uint64_t work64[256];
    unsigned long counts[3] = {0, 0, 0};
    uint32_t number;
    for (number = 0; number < LAMPRUDA_SHORT_COUNT; number++) {
        lampruda_made made = lampruda_short_unit(number, unit, sizeof unit);
        lampruda_found found = lampruda_short_number(unit, made.number);
        if (found.kind != LAMPRUDA_SHORT_NUMBER || found.number != number)
            return 2;
        counts[lampruda_pass(unit, made.number, out, sizeof out, work32, 128, work64, 256).kind]++;
    }
    printf("unchanged %lu\n", counts[LAMPRUDA_UNCHANGED]);
    printf("rewritten %lu\n", counts[LAMPRUDA_REWRITTEN]);
    printf("refused %lu\n", counts[LAMPRUDA_REFUSED]);
    return 0;
}
