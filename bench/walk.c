/* A plain C walk over a payload's blocks that keeps the promise of strawhub_block_list: it judges first, then fills. */
#include "../include/strawhub.h"

typedef struct strawhub_entry entry;
typedef struct strawhub_outcome outcome;

static int listed(uint8_t t)
{
    return (t >= 1 && t <= 3) || t == 10 || t == 11 || (t >= 18 && t <= 26);
}

/* 0 and where the block at a place ends, or the number of the refusal. */
static inline uint32_t extent(const uint8_t *p, size_t n, size_t at, entry *e, size_t *next)
{
    if (n < 3 || n - 3 < at) return 1;
    size_t body = at + 3, left = n - body, size = p[at + 1] * 256u + p[at + 2], need = size;
    e->place = at;
    e->kind = p[at];
    e->size = (uint16_t)size;
    switch (p[at]) {
    case 0: case 16: case 20: need = 4; break;
    case 15: need = 0; break;
    case 17: need = 12; break;
    case 21: need = 1; break;
    case 1: need = size > 12 ? size : 12; break;
    case 6: need = size > 9 ? size : 9; break;
    case 2: if (size <= 2) return 2; break;
    case 3:
        if (size < 9) return 9;
        if (left < 9) return 1;
        if (!listed(p[body])) return 3;
        break;
    case 4:
        if (left < 9) return 1;
        if (!listed(p[body])) return 3;
        if (size <= 9) return 4;
        if (left < size) return 5;
        break;
    case 5:
        if (left < 5) return 1;
        if (size <= 5) return 6;
        if (left < size) return 7;
        break;
    case 12: need = 5 + (size > 5 && (size - 5) % 2 == 0 ? size - 5 : 0); break;
    case 13:
        if (left < 2) return 1;
        if (size != 6 && size != 18) return 8;
        break;
    default: break;
    }
    if (left < need) return 1;
    *next = body + need;
    return 0;
}

outcome plain_walk(const uint8_t *p, size_t n, entry *list, size_t room)
{
    size_t at = 0, count = 0, over = 0, next = 0;
    entry e;
    do {
        uint32_t number = extent(p, n, at, &e, &next);
        if (number) return (outcome){number, at};
        if (count == room) over = at;
        count++;
        at = next;
    } while (at < n);
    if (count > room) return (outcome){STRAWHUB_LIST_FULL, over};
    at = 0;
    for (size_t i = 0; i < count; i++) {
        extent(p, n, at, &list[i], &next);
        at = next;
    }
    return (outcome){STRAWHUB_DONE, count};
}
