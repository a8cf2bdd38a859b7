/* Calls with lists of arguments, and text made by printf and by hand. */
#include <stdarg.h>
#include <stdio.h>
#include <stdlib.h>

int sum(int count, ...)
{
    va_list arguments;
    int total = 0;
    va_start(arguments, count);
    for (int i = 0; i < count; i++)
        total += va_arg(arguments, int);
    va_end(arguments);
    return total;
}

void report(FILE *file, const char *format, ...)
{
    va_list arguments;
    va_start(arguments, format);
    fputs("report: ", file);
    vfprintf(file, format, arguments);
    va_end(arguments);
}

static char *decimal(char *end, unsigned number)
{
    *--end = 0;
    do {
        *--end = (char)('0' + number % 10);
        number /= 10;
    } while (number);
    return end;
}

int print(char *to, const char *format, ...)
{
    va_list arguments;
    char digits[16];
    char *start = to;
    va_start(arguments, format);
    for (; *format; format++) {
        if (*format != '%') {
            *to++ = *format;
            continue;
        }
        const char *piece = "";
        switch (*++format) {
        case 'u':
            piece = decimal(digits + sizeof digits, va_arg(arguments, unsigned));
            break;
        case 's':
            piece = va_arg(arguments, const char *);
            break;
        case 'c':
            *to++ = (char)va_arg(arguments, int);
            break;
        case 'q':
            piece = va_arg(arguments, long long) < 0 ? "negative" : "positive";
            break;
        }
        while (*piece)
            *to++ = *piece++;
    }
    *to = 0;
    va_end(arguments);
    return (int)(to - start);
}

int main(int argc, char **argv)
{
    char text[200];
    int len = print(text, "%s has %u words, %c %q", argv[0], (unsigned)argc, 'x', -5LL);
    report(stdout, "%d %d %s %x %c\n", len, sum(5, 1, 2, 3, 4, argc), text, 0xabcdu, '!');
    return EXIT_SUCCESS;
}
