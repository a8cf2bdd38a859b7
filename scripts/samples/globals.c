/* Data of each kind: static and global, constant, zeroed, thread-local, of each width, and pointers to it. */
#include <stdio.h>
#include <stdlib.h>

char byte_value = 'b';
signed char signed_byte = -3;
unsigned short half_value = 0xffee;
int counter;
unsigned long long wide = 0x123456789abcdef0ull;
const int table[] = { 1, -1, 2, -2, 0x7fffffff, -0x7fffffff - 1 };
const char *const names[] = { "zero", "one", "two" };
static int hidden = 5;
static short halves[32];
static __thread int per_thread = 9;
int *pointer = &hidden;
extern char **environ;

int next(void)
{
    static int calls = 100;
    return calls++ + ++counter;
}

void narrow(int value)
{
    byte_value = (char)(value + byte_value);
    signed_byte = (signed char)(signed_byte >> (value & 7));
    half_value = (unsigned short)(half_value - value);
    half_value |= 0x8000;
    halves[value & 31] = (short)(half_value * 3);
    halves[5] += 1000;
    halves[6]--;
    byte_value &= 0x7f;
}

void widen(int value)
{
    wide += (unsigned)value;
    wide -= 1;
    wide = wide * 10 + (wide >> 7) - (wide << 3);
    if (wide > 0xffffffffffull)
        wide ^= ~0ull;
}

int look_up(unsigned index)
{
    if (index >= sizeof table / sizeof table[0])
        return -1;
    *pointer += table[index];
    per_thread ^= *pointer;
    return table[index] + (names[index % 3])[0] + per_thread;
}

int counted_environ(void)
{
    int count = 0;
    for (char **entry = environ; *entry; entry++)
        count++;
    return count;
}

int main(int argc, char **argv)
{
    (void)argv;
    narrow(argc);
    widen(argc);
    pointer = argc > 2 ? &counter : &hidden;
    printf("%d %d %d %d %d %llu\n", next(), look_up((unsigned)argc), byte_value, signed_byte, half_value, wide);
    fprintf(stderr, "%d\n", counted_environ());
    return hidden == 77;
}
