/* Structs with fields of each width, unions, bit fields, lists, trees, and structs passed by value. */
#include <stdio.h>
#include <stdlib.h>
#include <string.h>

struct flags {
    unsigned is_set : 1;
    unsigned kind : 3;
    int level : 6;
    unsigned rest : 22;
};

struct entry {
    char letter;
    unsigned char small;
    short half;
    unsigned short other_half;
    int number;
    struct flags flags;
    struct entry *next;
};

union word {
    unsigned whole;
    unsigned char bytes[4];
    unsigned short halves[2];
};

struct node {
    int key;
    struct node *left, *right;
};

struct large {
    int values[24];
};

struct entry *prepend(struct entry *list, char letter, int number)
{
    struct entry *entry = malloc(sizeof *entry);
    if (!entry)
        exit(1);
    entry->letter = letter;
    entry->small = (unsigned char)(number * 7);
    entry->half = (short)number;
    entry->other_half = (unsigned short)(number >> 3);
    entry->number = number;
    entry->flags.is_set = number & 1;
    entry->flags.kind = (unsigned)number % 5;
    entry->flags.level = number - 9;
    entry->flags.rest = (unsigned)number * 3;
    entry->next = list;
    return entry;
}

int sum(const struct entry *entry)
{
    int total = 0;
    for (; entry; entry = entry->next) {
        total += entry->letter - entry->small + entry->half * entry->other_half;
        if (entry->flags.is_set)
            total ^= entry->flags.level + (int)entry->flags.kind;
        else
            total -= (int)entry->flags.rest;
    }
    return total;
}

struct node *insert(struct node *tree, int key)
{
    if (!tree) {
        tree = calloc(1, sizeof *tree);
        if (tree)
            tree->key = key;
    } else if (key < tree->key) {
        tree->left = insert(tree->left, key);
    } else if (key > tree->key) {
        tree->right = insert(tree->right, key);
    }
    return tree;
}

unsigned swapped(unsigned number)
{
    union word from = { number };
    union word to;
    for (int i = 0; i < 4; i++)
        to.bytes[i] = from.bytes[3 - i];
    to.halves[0] ^= 0x1234;
    return to.whole;
}

struct large doubled(struct large large)
{
    for (int i = 0; i < 24; i++)
        large.values[i] *= 2;
    return large;
}

int main(void)
{
    struct entry *list = NULL;
    struct node *tree = NULL;
    struct large large;
    memset(&large, 0, sizeof large);
    for (int i = 0; i < 24; i++) {
        list = prepend(list, (char)('a' + i), i * 11);
        tree = insert(tree, i * 17 % 24);
        large.values[i] = i;
    }
    struct large copy = doubled(doubled(large));
    printf("%d %d %u %d\n", sum(list), tree->key, swapped(0xdeadbeef), copy.values[23]);
    return 0;
}
