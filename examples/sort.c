/* Heap sort of 100 numbers, and a check of their order. Most of its work is compares, branches and swaps in memory. */
#include "program.h"

#define COUNT 100

static unsigned int numbers[COUNT];

static void sift(unsigned int from, unsigned int count)
{
    unsigned int parent = from;
    while (2 * parent + 1 < count) {
        unsigned int child = 2 * parent + 1;
        if (child + 1 < count && numbers[child] < numbers[child + 1])
            child++;
        if (numbers[parent] >= numbers[child])
            return;
        unsigned int held = numbers[parent];
        numbers[parent] = numbers[child];
        numbers[child] = held;
        parent = child;
    }
}

static void sort(void)
{
    for (unsigned int from = COUNT / 2; from-- > 0;)
        sift(from, COUNT);
    for (unsigned int last = COUNT - 1; last > 0; last--) {
        unsigned int held = numbers[0];
        numbers[0] = numbers[last];
        numbers[last] = held;
        sift(0, last);
    }
}

int main(void)
{
    unsigned int seed = 2026;
    for (unsigned int k = 0; k < COUNT; k++) {
        seed = seed * 1103515245u + 12345u;
        numbers[k] = seed >> 16 & 0x3FF;
    }
    sort();
    for (unsigned int k = 0; k < COUNT; k += 9) {
        put_number(numbers[k]);
        put(k + 9 < COUNT ? ' ' : '\n');
    }
    for (unsigned int k = 1; k < COUNT; k++)
        if (numbers[k - 1] > numbers[k])
            return 1;
    return 0;
}
