/* Arithmetic of each width: shifts, rotates, products and divisions, carries, comparisons and conditional moves. */
#include <stdint.h>
#include <stdio.h>

uint8_t mixed8(uint8_t a, uint8_t b)
{
    a = (uint8_t)(a << 3 | a >> 5);
    a = (uint8_t)(a * b);
    b = (uint8_t)(b ? a / b : a % 7);
    return (uint8_t)(~a - b);
}

uint16_t mixed16(uint16_t a, uint16_t b)
{
    a = (uint16_t)(a << 5 | a >> 11);
    a = (uint16_t)(a * b + 0x1234);
    b = (uint16_t)(b ? a / b : a % 1000);
    return (uint16_t)(a ^ b);
}

uint32_t mixed32(uint32_t a, uint32_t b)
{
    a = a << 7 | a >> 25;
    a = a >> (b & 31) | a << (-b & 31);
    b = b ? a / b : a % 1000003;
    return a * b - (a & ~b);
}

int32_t signed32(int32_t a, int32_t b)
{
    int32_t quotient = a / 7 + a % 10 + a / 16;
    if (b != 0)
        quotient += a / b - a % b;
    return (quotient >> 3) * -100;
}

uint64_t mixed64(uint64_t a, uint64_t b)
{
    a = a * b + (a >> 13) - (b << 9);
    a = -a ^ (uint64_t)((int64_t)b >> 40);
    return a > b ? a - b : b - a;
}

uint64_t product(uint32_t a, uint32_t b)
{
    return (uint64_t)a * b;
}

int64_t signed_product(int32_t a, int32_t b)
{
    return (int64_t)a * b;
}

int compare(int a, int b, unsigned c, unsigned d)
{
    int result = (a < b) + 2 * (a <= b) + 4 * (a == b) + 8 * (a > b);
    result |= (c < d) << 4 | (c <= d) << 5 | (c != d) << 6 | (c > d) << 7;
    result += a < 0 ? -1 : 1;
    return result;
}

int clamp(int value, int low, int high)
{
    if (value < low)
        value = low;
    return value > high ? high : value;
}

unsigned least(unsigned a, unsigned b, int c)
{
    unsigned x = a < b ? a : b;
    return c < 0 ? x : c == 0 ? a : b;
}

unsigned count_ones(unsigned x)
{
    unsigned count = (unsigned)__builtin_bswap32(x);
    for (; x; x &= x - 1)
        count++;
    return count;
}

int overflows(int a, int b, unsigned c, unsigned d)
{
    int sum;
    unsigned rest;
    return __builtin_add_overflow(a, b, &sum) + __builtin_sub_overflow(c, d, &rest);
}

int main(int argc, char **argv)
{
    uint32_t n = (uint32_t)(argv[0][0] + argc);
    printf("%u %u %u %d\n", mixed8((uint8_t)n, 3), mixed16((uint16_t)n, 77), mixed32(n, 9), signed32((int)n, -4));
    printf("%llu %llu\n", (unsigned long long)mixed64(n, 5), (unsigned long long)product(n, n));
    printf("%lld %d %d\n", (long long)signed_product(-5, (int)n), compare(argc, 3, n, 4), clamp(argc, -3, 9));
    printf("%u %u %d\n", least(n, 7, argc), count_ones(n), overflows(argc, 5, n, 6));
    return 0;
}
