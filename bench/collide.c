/* collide: keys that fall together in the tables of sigc, by the hash that has a fixed key.

   collide names COUNT LENGTH   so many names of so many bytes, one on each line
   collide nodes COUNT          the nodes of an image of 512 conditions, that many and those below them: 12 bytes each
   collide stored COUNT         the same of nodes that fall together in the store of diagrams where the image is verified, and a
                                tree above them, whose top is the last node

   A table has groups of 12 lanes, filled to 9 on average, and their number is a power of two. A key is looked for from the group
   that the low bits of its hash name, among the lanes that have its highest byte, until a group that never was full. All keys
   given here have one highest byte, and begin in the first sixteenth of the groups. */
#include <stdint.h>
#include <stdio.h>
#include <stdlib.h>
#include <string.h>

#define MULTIPLIER 0x9e3779b97f4a7c15ull
#define INITIAL 0x243f6a8885a308d3ull

static uint64_t folded(uint64_t a, uint64_t b)
{
    unsigned __int128 product = (unsigned __int128)a * b;
    return (uint64_t)product ^ (uint64_t)(product >> 64);
}

static uint64_t with_byte(uint64_t state, uint64_t byte)
{
    return folded(state ^ byte * 0x10101, MULTIPLIER ^ 2);
}

static uint64_t with_u32(uint64_t state, uint64_t value)
{
    return folded(state ^ (value | value << 32), MULTIPLIER ^ 8);
}

static uint64_t with_u64(uint64_t state, uint64_t value)
{
    return folded(state ^ value, MULTIPLIER ^ 16);
}

/* the groups of a table of so many keys */
static uint32_t groups_of(long count)
{
    uint32_t groups = 1;
    while (9l * groups < count)
        groups *= 2;
    return groups;
}

/* whether a key has the highest byte, and begins in the first sixteenth of the groups (or in the first two of them) */
static int falls(uint64_t state, uint32_t groups)
{
    uint32_t hash = (uint32_t)(state ^ state >> 32);
    uint32_t first = groups > 32 ? groups / 16 : 2;
    return hash >> 24 < 2 && (hash & (groups - 1)) < first;
}

static const char LETTERS[] = "ABCDEFGHIJKLMNOPQRSTUVWXYZabcdefghijklmnopqrstuvwxyz0123456789_";
static long wanted;

/* all names that begin with these bytes */
static void names(char *name, int at, int length, uint64_t state, uint32_t groups)
{
    int letters = at == 0 ? 26 : 63;
    for (int i = 0; i < letters && wanted > 0; i++) {
        name[at] = LETTERS[i];
        uint64_t next = with_byte(state, (unsigned char)name[at]);
        if (at + 1 < length)
            names(name, at + 1, length, next, groups);
        else if (falls(next, groups)) {
            puts(name);
            wanted--;
        }
    }
}

static void put_u32(uint32_t value)
{
    unsigned char bytes[4] = {value >> 24, value >> 16, value >> 8, value};
    fwrite(bytes, 1, 4, stdout);
}

static void put_node(uint32_t variable, uint32_t low, uint32_t high)
{
    put_u32(variable);
    put_u32(low);
    put_u32(high);
}

/* some nodes of each of the conditions from the first one on; how many numbers children may have then */
static uint32_t below_of(uint32_t first)
{
    uint32_t below = 2;
    for (uint32_t v = 511; v >= first; v--) {
        uint32_t high = below - 1, most = high < 16 ? high : 16;
        for (uint32_t low = 0; low < most; low++, below++)
            put_node(v, low, high);
    }
    return below;
}

/* above them nodes of the conditions from `least` on that fall together; `shift` tells by how much a number in the table differs */
static void above(uint32_t least, uint32_t first, uint32_t below, uint32_t groups, const uint32_t *shift)
{
    for (uint32_t v = least; v < first; v++)
        for (uint32_t low = 0; low < below; low++) {
            uint64_t state = with_u32(with_u32(INITIAL, v), low + shift[low]);
            for (uint32_t high = 0; high < below && wanted > 0; high++)
                if (low != high && falls(with_u32(state, high + shift[high]), groups)) {
                    put_node(v, low, high);
                    wanted--;
                }
        }
}

enum { FIRST = 256, FIRST_STORED = 384, LEVELS = 20, MOST_BELOW = 512 * 16 };

static void nodes(void)
{
    static uint32_t shift[MOST_BELOW];
    uint32_t groups = groups_of(wanted), below = below_of(FIRST);
    above(0, FIRST, below, groups, shift);
}

/* The store has a node for each condition itself too, which it makes before the first other one of that condition. */
static void stored(void)
{
    static uint32_t shift[MOST_BELOW];
    uint32_t count = (uint32_t)wanted, groups = groups_of(2l * wanted), below = below_of(FIRST_STORED), number = 2;
    for (uint32_t v = 511; v >= FIRST_STORED; v--)
        for (uint32_t most = number - 1 < 16 ? number - 1 : 16; most > 0; most--)
            shift[number++] = 511 - v;
    above(LEVELS, FIRST_STORED, below, groups, shift);
    for (uint32_t v = LEVELS, begin = below; count > 1; ) {
        uint32_t next = begin + count, made = (count + 1) / 2;
        v--;
        for (uint32_t i = 0; i < made; i++)
            put_node(v, begin + 2 * i, 2 * i + 1 < count ? begin + 2 * i + 1 : 0);
        begin = next;
        count = made;
    }
}

int main(int count, char **words)
{
    char name[64] = {0};
    if (count < 3)
        return 2;
    wanted = atol(words[2]);
    if (strcmp(words[1], "names") == 0 && count == 4 && atoi(words[3]) < 64) {
        int length = atoi(words[3]);
        names(name, 0, length, with_u64(INITIAL, length), groups_of(wanted));
    } else if (strcmp(words[1], "nodes") == 0)
        nodes();
    else if (strcmp(words[1], "stored") == 0 && wanted <= 1 << LEVELS)
        stored();
    else
        return 2;
    return wanted > 0;
}
