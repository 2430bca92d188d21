/*
 * What the desk run is timed against: a plain interpreter, a switch over the same instructions. It counts its steps
 * against a limit and tests each place, as the desk run does, and nothing else: slots, targets and opcodes are taken on
 * trust.
 */
#include <stddef.h>
#include <stdint.h>
#include <string.h>

typedef struct {
    uint8_t op, flags;
    uint16_t a, b, c;
} instruction;

typedef struct {
    uint8_t kind, unread[7];
    uint64_t value;
} constant;

typedef struct {
    uint32_t kind, first, second;
} stop;

enum {
    RETURNED = 0,
    PANICKED = 2,
    ENDED = 3,
    OTHER = 4,
    LIMIT = 5
};

static stop stopped(uint32_t kind, uint32_t first, uint32_t second)
{
    stop s = {kind, first, second};
    return s;
}

static int32_t imm32(const instruction *i)
{
    return (int32_t)((uint32_t)i->b | (uint32_t)i->c << 16);
}

static uint64_t truncated(uint8_t flags, uint64_t x)
{
    switch (flags) {
    case 0x01: return (uint8_t)x;
    case 0x02: return (uint16_t)x;
    case 0x04: return (uint32_t)x;
    case 0x81: return (uint64_t)(int64_t)(int8_t)x;
    case 0x82: return (uint64_t)(int64_t)(int16_t)x;
    case 0x84: return (uint64_t)(int64_t)(int32_t)x;
    default: return x;
    }
}

stop plain_run(const instruction *code, size_t n, const constant *constants, uint64_t *frame, uint32_t limit)
{
    size_t place = 0;
    for (; limit != 0; limit--) {
        const instruction *i;
        if (place >= n)
            return stopped(ENDED, 0, 0);
        i = &code[place];
#define LEFT frame[i->b]
#define RIGHT frame[i->c]
#define GIVES(op, word) \
    case op: \
        frame[i->a] = (word); \
        break
        switch (i->op) {
        case 0: /* Hint */
            break;
        GIVES(1, (uint64_t)(int64_t)imm32(i)); /* LoadInt */
        GIVES(2, constants[i->b].value);       /* LoadConst */
        GIVES(3, LEFT);                        /* Copy */
        case 4: /* CopyN */
            memmove(frame + i->a, frame + i->b, i->c * sizeof *frame);
            break;
        GIVES(19, LEFT + RIGHT);
        GIVES(20, LEFT - RIGHT);
        GIVES(21, LEFT * RIGHT);
        GIVES(26, 0 - LEFT);
        GIVES(32, LEFT == RIGHT);
        GIVES(33, LEFT != RIGHT);
        GIVES(34, (int64_t)LEFT < (int64_t)RIGHT);
        GIVES(35, LEFT < RIGHT);
        GIVES(36, (int64_t)LEFT <= (int64_t)RIGHT);
        GIVES(37, LEFT <= RIGHT);
        GIVES(38, (int64_t)LEFT > (int64_t)RIGHT);
        GIVES(39, LEFT > RIGHT);
        GIVES(40, (int64_t)LEFT >= (int64_t)RIGHT);
        GIVES(41, LEFT >= RIGHT);
        GIVES(48, LEFT & RIGHT);
        GIVES(49, LEFT | RIGHT);
        GIVES(50, LEFT ^ RIGHT);
        GIVES(51, LEFT & ~RIGHT);
        GIVES(52, ~LEFT);
        GIVES(56, LEFT == 0);
        GIVES(120, truncated(i->flags, LEFT));
        case 57: /* Jump */
            place += (size_t)(ptrdiff_t)imm32(i);
            continue;
        case 58: /* JumpIf */
            if (frame[i->a] != 0) {
                place += (size_t)(ptrdiff_t)imm32(i);
                continue;
            }
            break;
        case 59: /* JumpIfNot */
            if (frame[i->a] == 0) {
                place += (size_t)(ptrdiff_t)imm32(i);
                continue;
            }
            break;
        case 64: /* Return */
            return stopped(RETURNED, i->a, i->b);
        case 111: /* Panic */
            return stopped(PANICKED, i->a, 2);
        default:
            return stopped(OTHER, (uint32_t)place, 0);
        }
        place++;
    }
    return stopped(LIMIT, 0, 0);
}
