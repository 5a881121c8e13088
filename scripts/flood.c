/* flood COUNT BITS [ordinary]: prints COUNT different structs, a line each, whose hashes under fixed keys have the same low
   BITS bits, all of them 0. So a map with fixed keys seeks all of them from a few places of its table. With a third word it
   prints as many that are as far apart, and takes each 2^BITS-th struct whatever its hash is. scripts/check/runs and
   scripts/measure/text build it. */
#include <stdint.h>
#include <stdio.h>
#include <stdlib.h>

enum { FIELDS = 10, VALUES = 5, STRUCT = 1 };

static const char *const values[VALUES] = {"i32", "i64", "f32", "f64", "v128"};

/* A type is hashed by std's FoldHasher. This is what the hasher does with a number of this many bytes. The numbers are the
   ones that the derived `Hash` of `walrus_ty::Type` feeds: for an enum the place of its variant in 8 bytes, for
   a list its length in 8 bytes before its items, and for a bool one byte. */
static uint64_t fed(uint64_t hash, uint64_t number, unsigned bytes)
{
    uint64_t read = bytes == 1 ? number * 0x010101 : number;
    unsigned __int128 product = (unsigned __int128)(hash ^ read) * (0x9e3779b97f4a7c15 ^ 2 * bytes);
    return (uint64_t)product ^ (uint64_t)(product >> 64);
}

/* A field is one of the values, and mutable where VALUES is added. Storage::Val is the variant 0. */
static uint64_t with_field(uint64_t hash, unsigned field)
{
    return fed(fed(fed(hash, 0, 8), field % VALUES, 8), field / VALUES, 1);
}

/* Final, without supertype, and not the type of a function entry. A map uses the halves of the hash, joined. */
static uint64_t place(uint64_t after_fields)
{
    uint64_t hash = fed(fed(fed(after_fields, 1, 1), 0, 8), 0, 1);
    return hash ^ hash >> 32;
}

static void print(const unsigned *fields)
{
    printf("struct");
    for (int i = 0; i < FIELDS; i++)
        printf(" %s%s", fields[i] < VALUES ? "" : "mut:", values[fields[i] % VALUES]);
    printf("\n");
}

/* Goes on to the next struct, and returns the first field that has changed. */
static int advance(unsigned *fields)
{
    int i = FIELDS - 1;
    while (i > 0 && fields[i] == 2 * VALUES - 1)
        fields[i--] = 0;
    fields[i]++;
    return i;
}

int main(int argc, char **argv)
{
    if (argc < 3)
        return 1;
    uint64_t mask = ((uint64_t)1 << atoi(argv[2])) - 1;
    unsigned fields[FIELDS] = {0};
    uint64_t after[FIELDS + 1] = {fed(fed(0x243f6a8885a308d3, STRUCT, 8), FIELDS, 8)};
    int changed = 0;
    for (uint64_t wanted = strtoull(argv[1], NULL, 10), number = 0; wanted > 0; number++) {
        for (int i = changed; i < FIELDS; i++)
            after[i + 1] = with_field(after[i], fields[i]);
        if (((argc > 3 ? number : place(after[FIELDS])) & mask) == 0) {
            print(fields);
            wanted--;
        }
        changed = advance(fields);
    }
    return 0;
}
