/* Strings: the library's functions, which a compiler writes out, and loops over bytes. */
#include <ctype.h>
#include <stdio.h>
#include <string.h>

struct buffer {
    char text[128];
    size_t len;
};

static char shared[512];

void clear(struct buffer *buffer)
{
    memset(buffer, 0, sizeof *buffer);
}

void fill(char *bytes, int byte, size_t len)
{
    memset(bytes, byte, len);
}

void copy(struct buffer *to, const struct buffer *from)
{
    *to = *from;
}

void append(struct buffer *buffer, const char *text)
{
    size_t len = strlen(text);
    if (len > sizeof buffer->text - 1 - buffer->len)
        len = sizeof buffer->text - 1 - buffer->len;
    memcpy(buffer->text + buffer->len, text, len);
    buffer->len += len;
    buffer->text[buffer->len] = 0;
}

void reverse(char *text)
{
    for (size_t i = 0, j = strlen(text); i + 1 < j; i++, j--) {
        char byte = text[i];
        text[i] = text[j - 1];
        text[j - 1] = byte;
    }
}

int number(const char *text)
{
    int sign = 1;
    unsigned value = 0;
    while (isspace((unsigned char)*text))
        text++;
    if (*text == '-') {
        sign = -1;
        text++;
    }
    while (*text >= '0' && *text <= '9')
        value = value * 10 + (unsigned)(*text++ - '0');
    return sign * (int)value;
}

unsigned hash(const char *text)
{
    unsigned value = 2166136261u;
    while (*text)
        value = (value ^ (unsigned char)*text++) * 16777619u;
    return value;
}

int rotate(char *text, int by)
{
    int changed = 0;
    for (; *text; text++) {
        if (*text >= 'a' && *text <= 'z') {
            *text = (char)('a' + (*text - 'a' + by) % 26);
            changed++;
        } else if (*text >= 'A' && *text <= 'Z') {
            *text = (char)('A' + (*text - 'A' + by) % 26);
            changed++;
        }
    }
    return changed;
}

int main(int argc, char **argv)
{
    struct buffer a, b;
    clear(&a);
    for (int i = 0; i < argc; i++)
        append(&a, argv[i]);
    copy(&b, &a);
    reverse(b.text);
    fill(shared, '-', 300);
    strcpy(shared + 10, b.text);
    strcat(shared, "end");
    printf("%d %u %d %d %s\n", number(" -123"), hash(a.text), rotate(a.text, 13), strcmp(a.text, b.text), shared);
    return strchr(shared, 'e') == NULL;
}
