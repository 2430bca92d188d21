/*
 * Cleans the unit in a file: `clean law.unit` prints the answer and the number of the last pass run, and for a
 * rewritten function a line for each retained instruction: new place, old place, op, flags, a, b, c.
 *
 *     tools/install target/installed
 *     export PKG_CONFIG_PATH=target/installed/lib/pkgconfig
 *     cc -O2 examples/clean.c $(pkg-config --cflags --libs lampruda) -o target/clean
 *     target/clean examples/law.unit
 *
 * It ends with 0 for unchanged and rewritten, 1 for refused, 2 where it could not call the library.
 */
#include "lampruda.h"

#include <stdio.h>
#include <stdlib.h>

/* A file's bytes; null where it cannot be read. */
static uint8_t *read_file(const char *name, size_t *length)
{
    uint8_t *bytes = NULL;
    FILE *file = fopen(name, "rb");
    long size;
    if (file == NULL)
        return NULL;
    if (fseek(file, 0, SEEK_END) == 0 && (size = ftell(file)) >= 0) {
        rewind(file);
        bytes = malloc((size_t)size + 1);
        if (bytes != NULL && fread(bytes, 1, (size_t)size, file) != (size_t)size) {
            free(bytes);
            bytes = NULL;
        }
        *length = (size_t)size;
    }
    fclose(file);
    return bytes;
}

/* Never null for length 0: the library is lent no null pointers. */
static void *buffer(size_t length, size_t element)
{
    void *memory = calloc(length + 1, element);
    if (memory == NULL) {
        fputs("out of memory\n", stderr);
        exit(2);
    }
    return memory;
}

static uint32_t field(const uint8_t *at)
{
    return (uint32_t)at[0] | (uint32_t)at[1] << 8;
}

/* The retained instructions of a result. */
static void print_result(const uint8_t *out)
{
    uint32_t n = lampruda_word(out, 0), place;
    const uint8_t *code = out + lampruda_word(out, 1), *places = out + lampruda_word(out, 3);
    for (place = 0; place < n; place++, code += 8)
        printf("%u %u %u %u %u %u %u\n", (unsigned)place, (unsigned)lampruda_word(places, place), code[0], code[1],
               (unsigned)field(code + 2), (unsigned)field(code + 4), (unsigned)field(code + 6));
}

int main(int count, char **words)
{
    size_t unit_length = 0, out_length = 0, work32_length = 0, work64_length = 0;
    uint8_t *unit, *out, *first, *second;
    uint32_t *work32;
    uint64_t *work64;
    lampruda_cleaned cleaned;

    if (count != 2) {
        fprintf(stderr, "usage: %s UNIT\n", words[0]);
        return 2;
    }
    unit = read_file(words[1], &unit_length);
    if (unit == NULL) {
        perror(words[1]);
        return 2;
    }
    if (lampruda_worked_on(unit, unit_length)) {
        uint32_t n = lampruda_word(unit, 0), s = lampruda_word(unit, 2), l = lampruda_word(unit, 16);
        out_length = lampruda_out_length(n, l);
        work32_length = lampruda_work32_length(n);
        work64_length = lampruda_work64_length(n, s);
    }
    out = buffer(out_length, 1);
    work32 = buffer(work32_length, sizeof *work32);
    work64 = buffer(work64_length, sizeof *work64);
    first = buffer(out_length, 1);
    second = buffer(out_length, 1);

    cleaned = lampruda_clean(unit, unit_length, out, out_length, work32, work32_length, work64, work64_length, first,
                             out_length, second, out_length);
    switch (cleaned.kind) {
    case LAMPRUDA_UNCHANGED:
        printf("unchanged %u\n", (unsigned)cleaned.passes);
        break;
    case LAMPRUDA_REFUSED:
        printf("refused %u %u %u\n", (unsigned)cleaned.number, (unsigned)cleaned.place, (unsigned)cleaned.passes);
        break;
    default:
        printf("rewritten %u %u\n", (unsigned)cleaned.number, (unsigned)cleaned.passes);
        print_result(out);
    }

    free(second);
    free(first);
    free(work64);
    free(work32);
    free(out);
    free(unit);
    return cleaned.kind == LAMPRUDA_REFUSED;
}
