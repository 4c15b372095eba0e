/* Fields and buffers of the vector run. */
#include <stdio.h>
#include <stdlib.h>
#include <string.h>

#include "vector_lent.h"

static struct bytes room(size_t n)
{
    struct bytes b = { malloc(n ? n : 1), n };
    if (!b.at) {
        fputs("no room\n", stderr);
        exit(2);
    }
    return b;
}

static uint8_t digit(char c)
{
    if (c >= '0' && c <= '9')
        return (uint8_t)(c - '0');
    if (c >= 'A' && c <= 'F')
        return (uint8_t)(c - 'A' + 10);
    fprintf(stderr, "no hex digit: %c\n", c);
    exit(2);
}

/* Ends at the first character that is not a pair of digits' start: a blank, a plus or the end. */
static size_t hex_into(const char *field, uint8_t *to, size_t most)
{
    size_t n = 0;
    for (; *field && *field != '+'; field += 2, n++) {
        if (n == most || !field[1]) {
            fputs("hex field too long or cut\n", stderr);
            exit(2);
        }
        to[n] = (uint8_t)(digit(field[0]) << 4 | digit(field[1]));
    }
    return n;
}

struct bytes from_hex(const char *field)
{
    if (strcmp(field, "-") == 0)
        return room(0);
    struct bytes b = room(strlen(field) / 2);
    hex_into(field, b.at, b.n);
    return b;
}

struct bytes from_sparse(const char *field)
{
    char *piece;
    struct bytes b = room(strtoul(field, &piece, 10));

    memset(b.at, 0, b.n);
    while (piece && piece[1]) {
        char *hex;
        size_t offset = strtoul(piece + 1, &hex, 10);
        if (offset >= b.n) {
            fputs("piece outside its state\n", stderr);
            exit(2);
        }
        hex_into(hex + 1, b.at + offset, b.n - offset);
        piece = strchr(hex, '+');
    }
    return b;
}

void drop_bytes(struct bytes b)
{
    free(b.at);
}

static uint8_t pattern(size_t i)
{
    return (uint8_t)(1 + i * 37 % 255);
}

struct bytes lend(size_t n)
{
    struct bytes b = room(n);
    for (size_t i = 0; i < n; i++)
        b.at[i] = pattern(i);
    return b;
}

static bool untouched_from(struct bytes lent, size_t from)
{
    for (size_t i = from; i < lent.n; i++)
        if (lent.at[i] != pattern(i))
            return false;
    return true;
}

bool holds(struct bytes lent, struct bytes head)
{
    return memcmp(lent.at, head.at, head.n) == 0 && untouched_from(lent, head.n);
}

bool untouched(struct bytes lent)
{
    return untouched_from(lent, 0);
}

bool zeroed(struct bytes lent, size_t n)
{
    for (size_t i = 0; i < n; i++)
        if (lent.at[i])
            return false;
    return untouched_from(lent, n);
}
