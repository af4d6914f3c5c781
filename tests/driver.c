/* Makes calls of the library for a program that can't link it: reads calls from
 * standard input until its end, and writes for each to standard output the answer,
 * 64 bits, and all bytes of its areas as they are then.
 *
 * Calls come in batches, a number of calls and then these; all other numbers too are
 * of 32 bits. A call is the function, the order, the starts, the mode and the budget,
 * of which a function leaves aside what it doesn't take; then an area for each thing
 * that it lends, in the header's order. An area is how many bytes it has, at which of
 * them the lent part starts and how many elements are lent; then its bytes. */
#include <stdio.h>
#include <stdlib.h>

#include "cafruzek.h"

enum { JUDGE_RECORD, JUDGE_ROWS, RECORD_SIZE, WRITE_RECORD, FUNCTIONS };

static const int areas_of[FUNCTIONS] = {3, 4, 1, 3};

/* The largest area has four times as many bytes. */
enum { MOST_WORDS = 1024 };

static struct area {
    uint32_t size, start, length;
    uint32_t memory[MOST_WORDS];
} areas[4];

static void require(int fact, const char *otherwise)
{
    if (!fact) {
        fprintf(stderr, "driver: %s\n", otherwise);
        exit(1);
    }
}

static void get(void *to, size_t size)
{
    require(fread(to, 1, size, stdin) == size, "the input ends inside a call");
}

static void put(const void *from, size_t size)
{
    require(fwrite(from, 1, size, stdout) == size, "the output can't be written");
}

static void get_area(struct area *area)
{
    uint32_t numbers[3];
    get(numbers, sizeof numbers);
    area->size = numbers[0];
    area->start = numbers[1];
    area->length = numbers[2];
    require(area->size <= sizeof area->memory && area->start <= area->size, "an area is too large");
    get(area->memory, area->size);
}

/* The lent part of an area. */
static void *lent(int index)
{
    return (uint8_t *)areas[index].memory + areas[index].start;
}

static uint64_t answer(uint32_t function, uint32_t order, uint32_t starts, uint32_t mode, uint32_t budget)
{
    switch (function) {
    case JUDGE_RECORD:
        return cafruzek_judge_record(lent(0), areas[0].length, mode, budget, lent(1), areas[1].length, lent(2));
    case JUDGE_ROWS:
        return cafruzek_judge_rows(order, lent(0), lent(1), starts, mode, budget, lent(2), areas[2].length, lent(3));
    case RECORD_SIZE:
        return cafruzek_record_size(lent(0), areas[0].length);
    default:
        return cafruzek_write_record(order, lent(0), lent(1), starts, lent(2), areas[2].length);
    }
}

static void make_call(void)
{
    uint32_t call[5];
    get(call, sizeof call);
    require(call[0] < FUNCTIONS, "there is no such function");
    for (int i = 0; i < areas_of[call[0]]; i++)
        get_area(&areas[i]);
    uint64_t number = answer(call[0], call[1], call[2], call[3], call[4]);
    put(&number, sizeof number);
    for (int i = 0; i < areas_of[call[0]]; i++)
        put(areas[i].memory, areas[i].size);
}

int main(void)
{
    uint32_t calls;
    while (fread(&calls, sizeof calls, 1, stdin) == 1) {
        while (calls-- > 0)
            make_call();
        require(fflush(stdout) == 0, "the output can't be written");
    }
    require(!ferror(stdin), "the input can't be read");
    return 0;
}
