/* Dense and sparse switches, a machine of states, and calls by pointers. */
#include <stdio.h>
#include <stdlib.h>

enum operation { ADD, SUBTRACT, MULTIPLY, DIVIDE, REMAINDER, AND, OR, XOR, LEFT, RIGHT };

int apply(enum operation operation, int a, int b)
{
    switch (operation) {
    case ADD: return a + b;
    case SUBTRACT: return a - b;
    case MULTIPLY: return a * b;
    case DIVIDE: return b == 0 ? 0 : a / b;
    case REMAINDER: return b == 0 ? 0 : a % b;
    case AND: return a & b;
    case OR: return a | b;
    case XOR: return a ^ b;
    case LEFT: return a << (b & 31);
    case RIGHT: return a >> (b & 31);
    }
    abort();
}

const char *name_of(int status)
{
    switch (status) {
    case -1: return "none";
    case 0: return "good";
    case 17: return "seventeen";
    case 400: return "bad";
    case 404: return "absent";
    case 500: return "failed";
    case 0x10000: return "large";
    default: return "other";
    }
}

int count_words(const char *text)
{
    enum { OUTSIDE, INSIDE, QUOTED } state = OUTSIDE;
    int words = 0;
    for (; *text; text++) {
        switch (state) {
        case OUTSIDE:
            if (*text == '"')
                state = QUOTED;
            else if (*text != ' ')
                state = INSIDE;
            words += state != OUTSIDE;
            break;
        case INSIDE:
            if (*text == ' ')
                state = OUTSIDE;
            break;
        case QUOTED:
            if (*text == '"')
                state = OUTSIDE;
            break;
        }
    }
    return words;
}

static int twice(int x) { return 2 * x; }
static int negated(int x) { return -x; }
static int complement(int x) { return ~x; }
static int (*const steps[])(int) = { twice, negated, complement, abs };

int chain(int x, unsigned order)
{
    for (int i = 0; i < 8; i++, order >>= 2)
        x = steps[order & 3](x);
    return x;
}

int main(int argc, char **argv)
{
    int x = argc;
    for (int operation = ADD; operation <= RIGHT; operation++)
        x = apply((enum operation)operation, x, argc + 3);
    printf("%d %s %d %d\n", x, name_of(x), count_words(argv[0]), chain(x, 0xe4));
    return 0;
}
