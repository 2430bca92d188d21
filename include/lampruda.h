/*
 * Lampruda: a proved optimizer for functions of bytecode, for hosts in C and C++.
 *
 * The functions stand in the static library that `rt lib` writes to crates/host/out/libhost.a, in crates/host, and
 * `tools/install` installs as liblampruda.a. They keep no state, allocate nothing and touch no memory but what they
 * are lent, so any number of threads may call them at once, each with buffers of its own. They return for every
 * content and every length.
 */
#ifndef LAMPRUDA_H
#define LAMPRUDA_H

#include <stddef.h>
#include <stdint.h>

#ifdef __cplusplus
extern "C" {
#endif

/*
 * The buffers
 *
 * A buffer is a pointer and a count of elements. No two buffers of a call overlap; a pointer is aligned for its
 * elements and is never null, also where the count is 0.
 *
 * The lengths asked for follow from three words of the unit's header: n, its number of instructions (word 0), s, its
 * number of local slots (word 2), and l, its number of lines (word 16). Longer buffers are as good.
 * `lampruda_worked_on` and the functions after it, below, reckon them.
 *
 *   unit             the unit; only read
 *   out              24 + 28 n + 8 l bytes
 *   work32           16 n + 16 numbers of 32 bits
 *   work64           24 n + 4 s + w + 3 w min(n, 2097152 / w) numbers of 64 bits, the division rounded down, where
 *                    w is s / 64 rounded up; 24 n where w is 0
 *   first, second    24 + 28 n + 8 l bytes each; lent to the cleaning alone
 *
 * After every answer each number of work32 and work64 and each byte of first and second is 0, over the whole length
 * lent. They may hold anything before. The output is altered by a rewritten answer alone, and then in its first
 * 24 + 28 n' + 8 l' bytes alone:
 *
 *   6 words          n', 24, 24 + 8 n', 24 + 24 n', l', 24 + 28 n'
 *   n' x 8 bytes     the retained instructions
 *   n' x 16 bytes    their metadata
 *   n' words         their places in the given unit
 *   l' x 8 bytes     lines: a place in the result and the line that it has, places strictly rising
 *
 * A line of the given unit moves to the first place in the result whose instruction stood at its place or behind it.
 * Of several that come to one place the last is left, and one with no such place is dropped.
 */

/* What `kind` says of an answer. */
enum {
    LAMPRUDA_UNCHANGED = 0, /* the function given is the result; number and place are 0 */
    LAMPRUDA_REFUSED = 1,   /* number says why, place where */
    LAMPRUDA_REWRITTEN = 2  /* the result is in the output; number is n', place is 0 */
};

/*
 * Why a unit is refused. The answers are tried in this order; between 13 and 2, a function of fewer than 2 or more
 * than 65,536 instructions, or one with defer, is unchanged, whatever the other buffers. Between 9 and 10, a
 * function of which nothing was altered and nothing removed is unchanged.
 *
 *   1   place 0      the bytes are no unit
 *   11  place 0      the places of the lines do not strictly rise, or one is not below n
 *   13  its index    the lowest metadata entry that is a SelectExecLayout of more than 24 cases, also past n
 *   2   place 0      a lent buffer is shorter than asked for
 *   3   place 0      there is not one metadata entry for each instruction
 *   4   place 0      there is not one type for each local slot
 *   5   its place    an opcode that there is none of \
 *   6   its place    an effect error                  } the lowest place of the three
 *   7   its place    a slot at or past s             /
 *   8   its place    the lowest branch that leaves the function, unreachable ones too
 *   9   its place    the lowest reached loop hint that has no LoopEnd, or whose end lies outside
 *   10  its place    the lowest kept loop hint whose end was removed, or whose exit is past n
 *
 * In the cleaning, the place is one of the pass that refuses.
 */

/* The answer of one pass. */
typedef struct {
    uint32_t kind, number, place;
} lampruda_answer;

/* The answer of the cleaning, and the number of the last pass run: 1 to 3, 1 where none ran. */
typedef struct {
    uint32_t kind, number, place, passes;
} lampruda_cleaned;

/*
 * One pass over a unit. What is returned runs as what was given. A host's machine need not store all that an
 * instruction may write: SelectExec may store into the destinations of any of its receive cases and leave the others,
 * and MapIterNext may leave key and value. What a slot held before such an instruction is then still there, and a
 * store of it stays.
 */
lampruda_answer lampruda_pass(const uint8_t *unit, size_t unit_length, uint8_t *out, size_t out_length,
                              uint32_t *work32, size_t work32_length, uint64_t *work64, size_t work64_length);

/*
 * Up to three passes, each over the result of the one before, until one does not rewrite. Unchanged if the first
 * pass is; refused if any pass refuses; otherwise the last rewritten code, with places in the given unit.
 */
lampruda_cleaned lampruda_clean(const uint8_t *unit, size_t unit_length, uint8_t *out, size_t out_length,
                                uint32_t *work32, size_t work32_length, uint64_t *work64, size_t work64_length,
                                uint8_t *first, size_t first_length, uint8_t *second, size_t second_length);

/* What `kind` says of an operand. */
enum {
    LAMPRUDA_WORD = 0,       /* word is the smallest right word, unsigned */
    LAMPRUDA_NONE = 1,       /* no right word does it; word is 0 */
    LAMPRUDA_NOT_COVERED = 2 /* the opcode is none of the 17 below; word is 0 */
};

/* The right word that is asked for. */
typedef struct {
    uint32_t kind;
    uint64_t word;
} lampruda_right;

/*
 * An operand for a wanted outcome: the smallest right word, unsigned, for which an integer binary opcode gives the
 * wanted word. The opcodes are AddI 19, SubI 20, MulI 21; EqI 32, NeI 33, LtI 34, LtU 35, LeI 36, LeU 37, GtI 38,
 * GtU 39, GeI 40, GeU 41, which give 1 or 0; And 48, Or 49, Xor 50, AndNot 51. Sums and products wrap.
 */
lampruda_right lampruda_operand(uint8_t opcode, uint64_t left, uint64_t wanted);

/* What `kind` says of a short function's unit, and of its number. */
enum {
    LAMPRUDA_SHORT_UNIT = 0,    /* the unit stands at the buffer's front; number is its length in bytes, place is 0 */
    LAMPRUDA_SHORT_REFUSED = 1, /* number is 2, place is 0: the buffer is too short */
    LAMPRUDA_SHORT_PAST = 2     /* the number is past the last: no unit; number and place are 0 */
};
enum {
    LAMPRUDA_SHORT_NUMBER = 0, /* these bytes are the unit of that number */
    LAMPRUDA_SHORT_NONE = 1    /* they are the unit of none; number is 0 */
};

/* What is made of a number. */
typedef struct {
    uint32_t kind, number, place;
} lampruda_made;

/* What number bytes have. */
typedef struct {
    uint32_t kind, number;
} lampruda_found;

/* How many short functions there are. */
#define LAMPRUDA_SHORT_COUNT 346176

/*
 * All short functions, for a run over a complete small world: those of 2, 3 and 4 instructions out of 24, over two
 * Value slots. The 24 are LoadInt (a, then value 0 or 1), Copy (a, b), AddI (a, b, c), JumpIf (a, then distance -1
 * or 1), Jump (-1 or 1), Return of slot 0 with count 0 or 1, in this order. Functions are numbered from 0, shorter
 * first, then by the earliest differing instruction. The unit of a number is written to the front of the buffer,
 * whose rest stays; where there is none the buffer stays whole. A unit has a number only if all its bytes are those.
 */
lampruda_made lampruda_short_unit(uint32_t number, uint8_t *out, size_t out_length);
lampruda_found lampruda_short_number(const uint8_t *unit, size_t unit_length);

/* What `kind` says of how a run at the desk stops. */
enum {
    LAMPRUDA_RUN_RETURNED = 0, /* by Return; first is the first slot that it read, second how many, 0 for none */
    LAMPRUDA_RUN_REFUSED = 1,  /* first says why, second where */
    LAMPRUDA_RUN_PANICKED = 2, /* by Panic; first is the first slot that it read, second is 2 */
    LAMPRUDA_RUN_ENDED = 3,    /* at the end of the code; first and second are 0 */
    LAMPRUDA_RUN_OTHER = 4,    /* before another instruction; first is its place, second is 0 */
    LAMPRUDA_RUN_LIMIT = 5,    /* at the limit; first and second are 0 */
    LAMPRUDA_RUN_GOES = 6      /* of one step alone: the run goes on; first is the place that is due, second is 0 */
};

/* How a run at the desk stops. */
typedef struct {
    uint32_t kind, first, second;
} lampruda_stop;

/*
 * Running a function at the desk, without a solver: from the first instruction on, over a frame of s words, one for
 * each local slot, for at most `limit` steps. It executes LoadInt, LoadConst of an integer, a float, a bool or nil,
 * Copy, CopyN, AddI, SubI, MulI, NegI, the ten comparisons of integers, And, Or, Xor, AndNot, Not, BoolNot, Trunc,
 * Hint, the three jumps, Return and Panic, and stops before any other instruction. Return and Panic are steps; the end
 * of the code and another instruction are not, and come before the limit. The frame is left with the words that the
 * slots hold then.
 *
 * Short, long and defer functions run too. Refused are, in this order, 1, 11, 13, 3, 4, 5 to 7, 8 and
 *
 *   12  place 0      the frame has not s words
 *
 * in every instruction, reached or not; a branch to n, behind the last instruction, ends the run and is not refused.
 * A refusal leaves the frame as it was.
 *
 * Where a function ends within a limit (by Return, by Panic or at the end of its code), what one pass or the cleaning
 * makes of it, laid out as a unit again, ends so from the same frame within the same limit, with as many words read
 * and the same ones; the first slot and the frame may be others.
 */
lampruda_stop lampruda_run(const uint8_t *unit, size_t unit_length, uint64_t *frame, size_t frame_length,
                           uint32_t limit);

/*
 * One step of such a run, from any place: kind 6 with the place that is due next, or how the run stops there. A place
 * behind the last instruction is the end of the code.
 */
lampruda_stop lampruda_step(const uint8_t *unit, size_t unit_length, uint64_t *frame, size_t frame_length,
                            uint32_t place);

/* How many prices a tariff has, one for each opcode byte, and the most that a run is charged. */
#define LAMPRUDA_PRICES 256
#define LAMPRUDA_MOST_CENTS UINT64_C(281470681678)

/* How a charged run stops, as lampruda_stop has it, and what it costs; cents is 0 where it is refused. */
typedef struct {
    uint32_t kind, first, second;
    uint64_t cents;
} lampruda_charged;

/*
 * The same run with a price for each step: the frame and how the run stops are those of lampruda_run. The charge is
 * the sum of the prices of all steps, divided by 1,000 and rounded up to a whole cent. Return and Panic are charged;
 * the end of the code and another instruction are no steps and cost nothing. A charge goes with every answer but a
 * refusal. Behind the refusals of a run stands
 *
 *   15  place 0      the tariff has not 256 prices
 *
 * Where LoadInt and Copy cost no more than any unary or binary opcode, and Jump no more than JumpIf and JumpIfNot, and
 * the function ends within the limit, what one pass or the cleaning makes of it is charged no more. No charge is above
 * LAMPRUDA_MOST_CENTS.
 */
lampruda_charged lampruda_charge(const uint8_t *unit, size_t unit_length, uint64_t *frame, size_t frame_length,
                                 uint32_t limit, const uint16_t *tariff, size_t tariff_length);

/* What `kind` says of a result that is laid out. */
enum {
    LAMPRUDA_LAID_UNIT = 0,    /* the unit stands at the buffer's front, of so many bytes in length */
    LAMPRUDA_LAID_REFUSED = 1, /* number is 1, 11 or 13 for the unit, 2 for a buffer too short; place says where */
    LAMPRUDA_LAID_NONE = 2     /* the bytes do not begin with a result of this unit */
};

/* A result that is laid out; what does not belong to the kind is 0. */
typedef struct {
    uint32_t kind, number, place;
    uint64_t length;
} lampruda_laid;

/*
 * A result as a unit again: the code, metadata and lines of a result of one pass or of the cleaning, with the given
 * unit's other sections. The result stands at the front of its buffer: its six words are those above, the buffer
 * holds all of it, and it has no more instructions than the unit has instructions and metadata entries, and no more
 * lines. What its entries hold is not looked at. A buffer of the given unit's length is long enough; its rest stays,
 * and all of it where nothing is laid out.
 */
lampruda_laid lampruda_lay_out(const uint8_t *unit, size_t unit_length, const uint8_t *result, size_t result_length,
                               uint8_t *out, size_t out_length);

/* Word i of a unit's header. */
static inline uint32_t lampruda_word(const uint8_t *unit, size_t i)
{
    const uint8_t *word = unit + 4 * i;
    return (uint32_t)word[0] | (uint32_t)word[1] << 8 | (uint32_t)word[2] << 16 | (uint32_t)word[3] << 24;
}

/*
 * Whether the answer can depend on the other buffers. Where it cannot (no unit by its header, too short, too long,
 * defer, more lines than places), buffers of length 0 will do. A damaged header asks for no more memory than the largest function.
 */
static inline int lampruda_worked_on(const uint8_t *unit, size_t unit_length)
{
    uint32_t n;
    if (unit_length < 72)
        return 0;
    n = lampruda_word(unit, 0);
    return n >= 2 && n <= 65536 && (unit_length - 72) / 8 >= n && lampruda_word(unit, 2) <= 65535
           && lampruda_word(unit, 4) == 0 && lampruda_word(unit, 16) <= n;
}

/* Bytes of the output, and of each spare buffer. */
static inline size_t lampruda_out_length(uint32_t n, uint32_t l)
{
    return 24 + 28 * (size_t)n + 8 * (size_t)l;
}

/* Numbers of 32 bits. */
static inline size_t lampruda_work32_length(uint32_t n)
{
    return 16 * (size_t)n + 16;
}

/* Numbers of 64 bits. */
static inline size_t lampruda_work64_length(uint32_t n, uint32_t s)
{
    size_t w = ((size_t)s + 63) / 64, length = 24 * (size_t)n + 4 * (size_t)s, blocks;
    if (w == 0)
        return length;
    blocks = 2097152 / w;
    return length + w + 3 * w * (n < blocks ? n : blocks);
}

#ifdef __cplusplus
}
#endif

#endif
