/* Loops over arrays: sorting, sieving, matrices, and loops with more than one exit. */
#include <stdio.h>

enum { COUNT = 64, SIDE = 8 };

static int numbers[COUNT];
static unsigned char is_composite[256];
static short matrix[SIDE][SIDE];

static void fill(unsigned seed)
{
    for (int i = 0; i < COUNT; i++) {
        seed = seed * 1103515245u + 12345u;
        numbers[i] = (int)(seed >> 16) - 20000;
    }
}

void sort(int *values, int count)
{
    for (int i = 1; i < count; i++) {
        int value = values[i];
        int at = i;
        while (at > 0 && values[at - 1] > value) {
            values[at] = values[at - 1];
            at--;
        }
        values[at] = value;
    }
}

int find(const int *values, int count, int wanted)
{
    int low = 0;
    int high = count - 1;
    while (low <= high) {
        int middle = (low + high) / 2;
        if (values[middle] == wanted)
            return middle;
        if (values[middle] < wanted)
            low = middle + 1;
        else
            high = middle - 1;
    }
    return -1;
}

unsigned sieve(unsigned limit)
{
    unsigned primes = 0;
    for (unsigned i = 2; i < limit; i++) {
        if (is_composite[i])
            continue;
        primes++;
        for (unsigned j = i * i; j < limit; j += i)
            is_composite[j] = 1;
    }
    return primes;
}

long trace_of_product(void)
{
    long trace = 0;
    for (int i = 0; i < SIDE; i++)
        for (int j = 0; j < SIDE; j++)
            matrix[i][j] = (short)(i * 3 - j);
    for (int i = 0; i < SIDE; i++)
        for (int j = 0; j < SIDE; j++)
            trace += matrix[i][j] * matrix[j][i];
    return trace;
}

unsigned steps_to_one(unsigned number)
{
    unsigned steps = 0;
    do {
        number = number % 2 ? 3 * number + 1 : number / 2;
        steps++;
        if (steps > 1000)
            break;
    } while (number != 1);
    return steps;
}

int main(void)
{
    fill(7);
    sort(numbers, COUNT);
    printf("%d %u %ld %u\n", find(numbers, COUNT, numbers[5]), sieve(256), trace_of_product(), steps_to_one(27));
    return 0;
}
