#include "lent.h"

#include <stdio.h>
#include <stdlib.h>
#include <string.h>
#ifdef __unix__
#include <sys/mman.h>
#else /* no pages that no one may touch: guard bytes stand in */
#define MAP_FAILED NULL
#endif

enum { GUARD = 64, PAGE = 4096 };

static void *checked(void *block)
{
    if (block == NULL || block == MAP_FAILED) {
        perror("no memory to lend");
        exit(2);
    }
    return block;
}

static uint8_t guard_byte(size_t i)
{
    return (uint8_t)(0xA5 ^ i * 29);
}

static void lend_between(struct lent *l, unsigned choice)
{
    size_t front = GUARD + choice % 16;
    l->block_size = front + l->length + GUARD;
    l->block = (uint8_t *)checked(malloc(l->block_size));
    l->bytes = l->block + front;
    for (size_t i = 0; i < front; i++)
        l->block[i] = guard_byte(i);
    for (size_t i = front + l->length; i < l->block_size; i++)
        l->block[i] = guard_byte(i);
}

static void lend_on_heap(struct lent *l)
{
    l->block = (uint8_t *)malloc(l->length);
    if (l->length > 0)
        checked(l->block);
    l->bytes = l->block;
}

#ifdef __unix__
/* Areas of LENT_MAX bytes between two pages that no one may touch. Those given back are used again. */
static uint8_t *areas[8];
static size_t area_count;

static uint8_t *get_area(void)
{
    if (area_count > 0)
        return areas[--area_count];
    uint8_t *pages = (uint8_t *)checked(mmap(NULL, LENT_MAX + 2 * PAGE, PROT_NONE, MAP_PRIVATE | MAP_ANONYMOUS, -1, 0));
    if (mprotect(pages + PAGE, LENT_MAX, PROT_READ | PROT_WRITE) != 0)
        checked(NULL);
    return pages + PAGE;
}

static void lend_at_page(struct lent *l, unsigned choice)
{
    l->block = get_area();
    l->bytes = choice % 4 == 0 ? l->block : l->block + LENT_MAX - l->length;
}

static void give_back(struct lent *l)
{
    areas[area_count++] = l->block;
}
#else
static void lend_at_page(struct lent *l, unsigned choice)
{
    l->placement = BETWEEN;
    lend_between(l, choice);
}

static void give_back(struct lent *l)
{
    free(l->block);
}
#endif

struct lent lend(enum placement placement, const uint8_t *content, size_t length, unsigned choice)
{
    struct lent l = {NULL, length, placement, NULL, 0};
    if (length == 0 && choice % 2 == 0)
        return l;
    if (placement == BETWEEN)
        lend_between(&l, choice);
    else if (placement == ON_HEAP)
        lend_on_heap(&l);
    else
        lend_at_page(&l, choice);
    if (length > 0)
        memcpy(l.bytes, content, length);
    return l;
}

bool guards_stay(const struct lent *l)
{
    if (l->placement != BETWEEN || l->block == NULL)
        return true;
    bool stay = true;
    size_t front = (size_t)(l->bytes - l->block);
    for (size_t i = 0; i < front; i++)
        stay &= l->block[i] == guard_byte(i);
    for (size_t i = front + l->length; i < l->block_size; i++)
        stay &= l->block[i] == guard_byte(i);
    return stay;
}

void take_back(struct lent *l, uint8_t *content)
{
    if (l->length > 0)
        memcpy(content, l->bytes, l->length);
    if (l->placement == AT_PAGE && l->block != NULL)
        give_back(l);
    else
        free(l->block);
    l->block = NULL;
    l->bytes = NULL;
}
