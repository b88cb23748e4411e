/* The product of two matrices of 12 rows and columns, and its trace. Most of its work is multiplications and sums. */
#include "program.h"

#define SIZE 12

static int a[SIZE][SIZE], b[SIZE][SIZE], product[SIZE][SIZE];

static void multiply(void)
{
    for (int row = 0; row < SIZE; row++)
        for (int column = 0; column < SIZE; column++) {
            int sum = 0;
            for (int k = 0; k < SIZE; k++)
                sum += a[row][k] * b[k][column];
            product[row][column] = sum;
        }
}

int main(void)
{
    for (int row = 0; row < SIZE; row++)
        for (int column = 0; column < SIZE; column++) {
            a[row][column] = row + 2 * column;
            b[row][column] = 3 * row + column + 1;
        }
    multiply();
    int trace = 0;
    for (int k = 0; k < SIZE; k++)
        trace += product[k][k];
    put_text("trace ");
    put_number((unsigned int)trace);
    put('\n');
    return 0;
}
