// Finds what shares a place in a hash table whose hashes can be told beforehand, and writes a line for each:
//   collide names COUNT       names of members that share a hint, and a group of the table of names, whose hash is fixed;
//   collide references COUNT  references that share a bucket of a member's table by the fixed seed, which tests have.
#include <stdint.h>
#include <stdio.h>
#include <stdlib.h>
#include <string.h>

#define FACTOR 0x9e3779b97f4a7c15u
#define START 0x243f6a8885a308d3u

// The two halves of a product, joined, as the hasher of names has them.
static uint64_t folded(uint64_t a, uint64_t b)
{
    unsigned __int128 product = (unsigned __int128)a * b;
    return (uint64_t)product ^ (uint64_t)(product >> 64);
}

// The hash of a name of twelve bytes, and of the byte that is written behind each text.
static uint32_t hash_of_name(const char *name)
{
    uint64_t first, last;
    memcpy(&first, name, 8);
    memcpy(&last, name + 4, 8);
    uint64_t hash = folded(first ^ (START + 12), last ^ FACTOR);
    hash = folded(hash ^ 0xffffff, FACTOR ^ 2);
    return (uint32_t)(hash ^ hash >> 32);
}

// The hash of a reference by the fixed seed.
static uint32_t hash_of_reference(uint32_t reference)
{
    uint64_t sum = reference * FACTOR + START;
    return (uint32_t)((sum ^ sum >> 32) * FACTOR >> 32);
}

// Names that differ in their first five bytes alone share a hint. The last seven bits of the hash are the group of a table of a
// thousand names, and the first eight the tag by which a group tells its names apart.
static void write_names(long count)
{
    static const char characters[] = "ABCDEFGHIJKLMNOPQRSTUVWXYZ0123456789";
    char name[13] = "AAAAAAAAAAAA";
    uint32_t other = hash_of_name(name);
    for (uint32_t number = 0; number < 60466176 && count > 0; number++) {
        uint32_t left = number;
        for (int place = 0; place < 5; place++, left /= 36)
            name[place] = characters[left % 36];
        if (((hash_of_name(name) ^ other) & 0xff00007f) == 0) {
            puts(name);
            count--;
        }
    }
}

// The first bits of the hash are the bucket. Eighteen are those of a table that has grown for four thousand names without a place.
static void write_references(long count)
{
    uint32_t other = hash_of_reference(0);
    for (uint64_t reference = 0; reference < 1ull << 32 && count > 0; reference++)
        if ((hash_of_reference((uint32_t)reference) ^ other) >> 14 == 0) {
            printf("%u\n", (unsigned)reference);
            count--;
        }
}

int main(int count, char **words)
{
    if (count != 3)
        return 2;
    if (strcmp(words[1], "names") == 0)
        write_names(atol(words[2]));
    else
        write_references(atol(words[2]));
    return 0;
}
