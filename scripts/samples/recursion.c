/* Functions that call themselves and one another, and frames of many sizes. */
#include <stdio.h>

static int board[8];
static unsigned moves;

unsigned factorial(unsigned n)
{
    return n < 2 ? 1 : n * factorial(n - 1);
}

int ackermann(int m, int n)
{
    if (m == 0)
        return n + 1;
    if (n == 0)
        return ackermann(m - 1, 1);
    return ackermann(m - 1, ackermann(m, n - 1));
}

void hanoi(int disks, int from, int to, int by)
{
    if (disks == 0)
        return;
    hanoi(disks - 1, from, by, to);
    moves++;
    hanoi(disks - 1, by, to, from);
}

static int fits(int row, int column)
{
    for (int i = 0; i < row; i++) {
        int difference = board[i] - column;
        if (difference == 0 || difference == row - i || difference == i - row)
            return 0;
    }
    return 1;
}

int queens(int row)
{
    if (row == 8)
        return 1;
    int solutions = 0;
    for (int column = 0; column < 8; column++) {
        if (fits(row, column)) {
            board[row] = column;
            solutions += queens(row + 1);
        }
    }
    return solutions;
}

int is_odd(unsigned n);

__attribute__((noinline)) int is_even(unsigned n)
{
    return n == 0 ? 1 : is_odd(n - 1);
}

__attribute__((noinline)) int is_odd(unsigned n)
{
    return n == 0 ? 0 : is_even(n - 1);
}

int depth(int n)
{
    volatile char frame[300];
    frame[n & 255] = (char)n;
    return n <= 0 ? frame[0] : depth(n - 1) + frame[n & 255];
}

int many(int a, int b, int c, int d, int e, int f, int g, int h)
{
    return a <= 0 ? b + c + d + e + f + g + h : many(a - 1, c, d, e, f, g, h, b + a);
}

int main(void)
{
    hanoi(10, 0, 1, 2);
    printf("%u %d %u %d %d %d %d\n", factorial(10), ackermann(2, 3), moves, queens(0), is_even(10), depth(9),
           many(9, 1, 2, 3, 4, 5, 6, 7));
    return 0;
}
