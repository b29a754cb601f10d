/* What the header refuses when it is compiled: with CASE 0 this compiles without a warning, and with each other it must not. run tries them all
   in C and in C++. */
#include "vinderaz.h"

static const uint8_t names[] = "ABORt";
static const uint64_t nodes[] = {
    VINDERAZ_BRANCH(VINDERAZ_NAME(0, 0), 1, CASE == 1 ? 65536 : 1), /* 1: a child count of 17 bits */
    VINDERAZ_LEAF(VINDERAZ_NAME(0, CASE == 2 ? 16 : 5), 7),         /* 2: a name length of 5 bits */
    VINDERAZ_LEAF(VINDERAZ_NAME(CASE == 3 ? -1 : 0, 5), 7),         /* 3: a start below zero */
    VINDERAZ_LEAF(VINDERAZ_NAME(0, 5), CASE == 4 ? 65543 : 65535),  /* 4: a command of 17 bits */
    VINDERAZ_BRANCH(VINDERAZ_NAME(0, 5), CASE == 5 ? 65536 : 1, 1), /* 5: a first child of 17 bits */
};

/* a text and its length as one macro */
#define TEXT(s) (const uint8_t *)(s), sizeof(s) - 1

int32_t all(const uint8_t *text, uint64_t length);

int32_t all(const uint8_t *text, uint64_t length) {
    uint64_t words[VINDERAZ_WORDS] = VINDERAZ_MESSAGE, slots[4];
    int64_t at[2];
#if CASE == 6
    uint32_t units; /* size_t on a processor of 32 bits */
#else
    uint64_t units;
#endif
#if CASE == 7
    uint32_t other[VINDERAZ_WORDS];
#else
    uint64_t other[VINDERAZ_WORDS];
#endif
#if CASE == 8
    uint64_t signed_at[2];
#else
    int64_t signed_at[2];
#endif
#if CASE == 9
    static const uint32_t table[2] = { 0, 0 };
#else
    const uint64_t *table = nodes;
#endif
#if CASE == 10
    const uint64_t kept[4] = { 0 }; /* an array that is written is not const */
#else
    uint64_t kept[4];
#endif
    int command = (int)length;
#if CASE == 11
    slots[0] = VINDERAZ_LEAF(VINDERAZ_NAME(0, 5), command); /* what is known only when it runs: vinderaz_leaf */
#else
    slots[0] = vinderaz_leaf(vinderaz_name(0, 5), (uint64_t)command);
#endif
    return vinderaz_check(nodes, 5, names, 5) + vinderaz_check(NULL, 0, NULL, 0) + vinderaz_check(table, 1, names, 5) +
           vinderaz_walk(nodes, 5, names, 5, 0, text, length, slots, 4, &units, 1) +
           vinderaz_walk_accepted(nodes, 5, names, 5, 0, NULL, 0, NULL, 0, NULL, 0) +
           vinderaz_resolve(nodes, 5, names, 5, 0, text, length, kept, 4) +
           vinderaz_resolve_accepted(nodes, 5, names, 5, 0, TEXT("ABOR"), slots, 4) + vinderaz_numeric(NULL, 0, NULL, 0) + vinderaz_token(text, length, other, VINDERAZ_WORDS) +
           vinderaz_channel_list(text, length, words, VINDERAZ_WORDS) + vinderaz_channel(text, length, words, VINDERAZ_WORDS) +
           vinderaz_numeric(text, length, words, VINDERAZ_WORDS) + vinderaz_coordinates(text, length, at, 2) +
           vinderaz_coordinates(text, length, signed_at, 2) + vinderaz_unsigned_coordinates(text, length, words, 2) +
           vinderaz_mnemonic_match(names, 5, text, length) + vinderaz_mnemonic_compare(names, 5, text, length);
}
