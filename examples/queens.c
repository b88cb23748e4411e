/* Counts the ways to place six queens, by search with masks of bits: most of what it computes is compared and thrown away. */
#include "program.h"

#define SIZE 6

static unsigned int ways(unsigned int columns, unsigned int left, unsigned int right)
{
    unsigned int all = (1u << SIZE) - 1, found = 0;
    if (columns == all)
        return 1;
    for (unsigned int free = all & ~(columns | left | right); free != 0; free &= free - 1) {
        unsigned int queen = free & -free;
        found += ways(columns | queen, (left | queen) << 1, (right | queen) >> 1);
    }
    return found;
}

int main(void)
{
    put_number(ways(0, 0, 0));
    put('\n');
    return 0;
}
