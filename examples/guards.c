/*
 * Guard values: `guards -5` prints for each comparison with -5 on the left the smallest right word, unsigned, that makes
 * it true and the smallest that makes it false.
 *
 *     tools/install target/installed
 *     export PKG_CONFIG_PATH=target/installed/lib/pkgconfig
 *     cc -O2 examples/guards.c $(pkg-config --cflags --libs lampruda) -o target/guards
 *     target/guards -5
 *
 * It ends with 0, or with 2 where the left word is missing.
 */
#include "lampruda.h"

#include <inttypes.h>
#include <stdio.h>
#include <stdlib.h>

static const char *const NAMES[] = {"EqI", "NeI", "LtI", "LtU", "LeI", "LeU", "GtI", "GtU", "GeI", "GeU"};

/* EqI; the others follow it. */
static const uint8_t FIRST = 32;

static void print(const char *outcome, lampruda_right right)
{
    if (right.kind == LAMPRUDA_WORD)
        printf("  %s %20" PRIu64, outcome, right.word);
    else
        printf("  %s %20s", outcome, "none");
}

int main(int count, char **words)
{
    uint64_t left;
    uint8_t i;
    if (count != 2) {
        fprintf(stderr, "usage: %s LEFT\n", words[0]);
        return 2;
    }
    left = (uint64_t)strtoll(words[1], NULL, 0);
    for (i = 0; i < sizeof NAMES / sizeof *NAMES; i++) {
        printf("%s", NAMES[i]);
        print("true", lampruda_operand(FIRST + i, left, 1));
        print("false", lampruda_operand(FIRST + i, left, 0));
        printf("\n");
    }
    return 0;
}
