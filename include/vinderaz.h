/* Vinderaz: a reader of SCPI commands in which every answer is proved. C99 or later, or C++. Link with libvinderaz.a.

   Every function answers for every message, list, table and starting branch, and ends; a caller has nothing to check first. What the
   caller must see to is what no function can find out:

   - A pointer and the length after it are one lent array. The pointer points to that many elements, aligned for their type; where the
     length is 0 it may be NULL. Nothing is kept after the call.
   - An array that is written (a pointer without const) overlaps no other array of the same call.
   - There is as much stack as is said under Stack below.

   Each function returns 32 bits: those that compare a mnemonic 1 or 0, every other 0 or the number of a refusal, one of SCPI-99's, which
   are negative, or one of 1 to 9. What it writes, refused or not, is said beside it; every other word keeps what it held. Lengths, places and
   starts have 64 bits on every processor.

   The functions are reentrant: they have no state of their own and take no memory. On Linux they call nothing; on a Cortex-M they call
   __aeabi_memcpy, __aeabi_memset and __aeabi_memclr of the C library, and on the M0 __aeabi_lmul of the compiler's. Interrupts and threads may
   call them at the same time on arrays of their own. */
#ifndef VINDERAZ_H
#define VINDERAZ_H

#include <stdbool.h>
#include <stddef.h>
#include <stdint.h>

/* The version of this interface: a hundred for each major one, in which something that compiled or was answered has changed, and one for
   each minor one, in which something was added. */
#define VINDERAZ_VERSION 100
#define VINDERAZ_VERSION_TEXT "1.0"

#ifdef __cplusplus
extern "C" {
#endif

/* ---- Types that do not fit do not compile

   The library takes lengths as 64 bits, and words of 64 bits that are aligned to 8 bytes. A compiler that aligns them otherwise, as some
   older conventions of 32 bits do, would pass every argument after the first length in another place. The test is of a struct: where
   structs are packed by an option or a pragma, include this header outside of it. */
struct vinderaz_aligned {
    char first;
    uint64_t word;
};
typedef char vinderaz_words_are_aligned_to_8[sizeof(struct vinderaz_aligned) == 16 && offsetof(struct vinderaz_aligned, word) == 8 ? 1 : -1];

/* In C a pointer to words of another width is often only a warning: size_t in the place of uint64_t fits a processor of 64 bits, and is written
   past its end on one of 32. From C11 on each function that takes words is also a macro that refuses such a pointer; C++ refuses it by
   itself, and C99 may only warn. A compound literal as an argument needs brackets around it; (vinderaz_token)(..) is the function without
   the macro. */
#if !defined(__cplusplus) && defined(__STDC_VERSION__) && __STDC_VERSION__ >= 201112L
#define VINDERAZ_READ(p) _Generic((p), const uint64_t *: (p), uint64_t *: (p), const void *: (p), void *: (p), int: (p))
#define VINDERAZ_WRITTEN(p) _Generic((p), uint64_t *: (p), void *: (p), int: (p))
#define VINDERAZ_SIGNED(p) _Generic((p), int64_t *: (p), void *: (p), int: (p))
#define VINDERAZ_TYPED 1
#endif

/* ---- Refusals: SCPI-99's numbers by their names and with their texts, then those of this reader. */
#define VINDERAZ_REFUSALS(X) \
    X(INVALID_CHARACTER, -101, "Invalid character") \
    X(SYNTAX_ERROR, -102, "Syntax error") \
    X(INVALID_SEPARATOR, -103, "Invalid separator") \
    X(COMMAND_HEADER_ERROR, -110, "Command header error") \
    X(HEADER_SEPARATOR_ERROR, -111, "Header separator error") \
    X(PROGRAM_MNEMONIC_TOO_LONG, -112, "Program mnemonic too long") \
    X(UNDEFINED_HEADER, -113, "Undefined header") \
    X(NUMERIC_DATA_ERROR, -120, "Numeric data error") \
    X(INVALID_CHARACTER_IN_NUMBER, -121, "Invalid character in number") \
    X(INVALID_SUFFIX, -131, "Invalid suffix") \
    X(SUFFIX_TOO_LONG, -134, "Suffix too long") \
    X(SUFFIX_NOT_ALLOWED, -138, "Suffix not allowed") \
    X(INVALID_CHARACTER_DATA, -141, "Invalid character data") \
    X(CHARACTER_DATA_TOO_LONG, -144, "Character data too long") \
    X(INVALID_STRING_DATA, -151, "Invalid string data") \
    X(BLOCK_DATA_ERROR, -160, "Block data error") \
    X(INVALID_BLOCK_DATA, -161, "Invalid block data") \
    X(EXPRESSION_ERROR, -170, "Expression error") \
    X(INVALID_EXPRESSION, -171, "Invalid expression") \
    X(DATA_OUT_OF_RANGE, -222, "Data out of range") \
    X(ILLEGAL_PARAMETER_VALUE, -224, "Illegal parameter value") \
    X(NODE_COUNT, 1, "No node, or more than 4,096") \
    X(NODE_FIELDS, 2, "Fields that no root, branch or leaf has") \
    X(CHILD_BLOCKS, 3, "Child blocks that do not follow each other to the end") \
    X(NODE_NAME, 4, "A name that no mnemonic could spell") \
    X(TWO_DEFAULTS, 5, "Two default children in a branch") \
    X(SHARED_SPELLING, 6, "Two nodes in reach of a branch that one mnemonic spells") \
    X(START_IS_NO_BRANCH, 7, "The start is no branch") \
    X(NO_SLOT_LEFT, 8, "No slot left") \
    X(MESSAGE_TOO_LONG, 9, "More than 65,535 bytes")

/* VINDERAZ_UNDEFINED_HEADER is -113, and so on. */
enum {
#define VINDERAZ_NUMBER(name, number, text) VINDERAZ_##name = number,
    VINDERAZ_REFUSALS(VINDERAZ_NUMBER)
#undef VINDERAZ_NUMBER
    VINDERAZ_NO_ERROR = 0
};

/* The text of a number, as "Undefined header" of -113; "No error" of 0, and NULL of a number that is none of these. What does not call it has no text
   in its program. */
static inline const char *vinderaz_text(int32_t number) {
    switch (number) {
    case 0: return "No error";
#define VINDERAZ_TEXT(name, number, text) case number: return text;
    VINDERAZ_REFUSALS(VINDERAZ_TEXT)
#undef VINDERAZ_TEXT
    default: return NULL;
    }
}

/* ---- Stack: the most that a function takes in bytes, on x86-64, aarch64, Cortex-M4 and Cortex-M0, at -O3 and -Os, with 32 for what it calls of the
   C library and the compiler's. It is counted from the machine code, and no library is made that takes more; the file STACK beside each
   has its own numbers. What checks a table takes more for a default branch that is a child of a default branch, and again for one that is a
   child of that: the most is 4,094 times. A table from elsewhere can be bounded before it is checked. */
#define VINDERAZ_STACK_CHECK 704
#define VINDERAZ_STACK_RESOLVE 2040
#define VINDERAZ_STACK_WALK 2296
#define VINDERAZ_STACK_DEFAULT 200 /* check, resolve and walk: for each default branch that is a child of another */
#define VINDERAZ_STACK_RESOLVE_ACCEPTED 1984
#define VINDERAZ_STACK_WALK_ACCEPTED 2272
#define VINDERAZ_STACK_MNEMONIC_MATCH 368
#define VINDERAZ_STACK_MNEMONIC_COMPARE 80
#define VINDERAZ_STACK_TOKEN 1456
#define VINDERAZ_STACK_CHANNEL_LIST 64
#define VINDERAZ_STACK_CHANNEL 536
#define VINDERAZ_STACK_NUMERIC 172
#define VINDERAZ_STACK_COORDINATES 552
#define VINDERAZ_STACK_UNSIGNED_COORDINATES 520

/* ---- The command table

   One word of 64 bits for each node, most significant bits first: branch 1, default 1, name length 4, name start 16, first child 16 (a
   leaf: its command number), child count 16, spare 10, which are 0. Node 0 is the root: a branch with no name. The children of a branch
   follow one another, and the blocks of children follow each other in the order of their branches. A name is a part of one text:
   capitals, small letters, digits, as in TRIGger2; a star may precede those of leaves under the root. */
#define VINDERAZ_NAME(start, length) (VINDERAZ_FIELD(length, 15) << 58 | VINDERAZ_FIELD(start, 65535) << 42)
#define VINDERAZ_BRANCH(name, first, count) \
    ((uint64_t)1 << 63 | (name) | VINDERAZ_FIELD(first, 65535) << 26 | VINDERAZ_FIELD(count, 65535) << 10)
#define VINDERAZ_LEAF(name, command) ((name) | VINDERAZ_FIELD(command, 65535) << 26)
#define VINDERAZ_DEFAULT ((uint64_t)1 << 62) /* | this to a node that may be left unsaid */

/* The arguments are constants, and one that does not fit its field does not compile. Whether the table is a good one is for vinderaz_check to say. */
#ifdef __cplusplus
extern "C++" {
template <bool> struct vinderaz_fits;
template <> struct vinderaz_fits<true> {
    enum { zero = 0 };
};
}
#define VINDERAZ_FIELD(value, most) ((uint64_t)(value) + vinderaz_fits<((uint64_t)(value) <= (most))>::zero)
#else
#define VINDERAZ_FIELD(value, most) \
    ((uint64_t)(value) + 0 * sizeof(struct { int this_does_not_fit : (uint64_t)(value) <= (most) ? 1 : -1; }))
#endif

/* The same for a table that is made while the program runs. Where a value does not fit, the word has a spare bit set, which the check
   refuses with 2. */
static inline uint64_t vinderaz_name(uint64_t start, uint64_t length) {
    return start <= 65535 && length <= 15 ? length << 58 | start << 42 : 1;
}
static inline uint64_t vinderaz_branch(uint64_t name, uint64_t first, uint64_t count) {
    return first <= 65535 && count <= 65535 ? (uint64_t)1 << 63 | name | first << 26 | count << 10 : 1;
}
static inline uint64_t vinderaz_leaf(uint64_t name, uint64_t command) { return command <= 65535 ? name | command << 26 : 1; }

/* 0 where the table is accepted, or the smallest of its faults, 1 to 6. */
int32_t vinderaz_check(const uint64_t *nodes, uint64_t node_count, const uint8_t *names, uint64_t names_length);

/* 1 where a mnemonic spells a name, as TRIG, trigger and TRIG1 spell TRIGger; else 0. */
int32_t vinderaz_mnemonic_match(const uint8_t *name, uint64_t name_length, const uint8_t *mnemonic,
                                uint64_t mnemonic_length);

/* 1 where a mnemonic is a name in its long or its short form, as TRIG and trigger are TRIGger and TRIG1 is not; else 0. */
int32_t vinderaz_mnemonic_compare(const uint8_t *name, uint64_t name_length, const uint8_t *mnemonic, uint64_t mnemonic_length);

/* ---- Headers and messages

   A unit that was read is one word, most significant bits first: command 16, query 1, branch 16, items 16, zero 15. The branch is
   the one that the next header starts from: pass it as the next call's start to go on where a message ended, or 0 for the root. */
#define VINDERAZ_COMMAND(word) ((uint16_t)((word) >> 48))
#define VINDERAZ_QUERY(word) ((bool)((word) >> 47 & 1))
#define VINDERAZ_KEPT(word) ((uint64_t)((word) >> 31 & 0xFFFF))
#define VINDERAZ_ITEMS(word) ((uint64_t)((word) >> 15 & 0xFFFF))

/* Resolves a text that is one header, as ":SENS:VOLT?". The word, with no items, goes to slots[0]. Refused in this order, and then no slot
   is written: 1 to 6 the table's fault, 7 the start is no branch, 9 the text is too long, the text's own refusal, 8 there is no slot.
   On a table of 100 nodes the check costs more than the header: vinderaz_resolve_accepted leaves it out. */
int32_t vinderaz_resolve(const uint64_t *nodes, uint64_t node_count, const uint8_t *names, uint64_t names_length,
                         uint64_t start, const uint8_t *text, uint64_t text_length, uint64_t *slots, uint64_t slot_count);

/* As vinderaz_resolve without the check, for a table that vinderaz_check has accepted. On another table it answers too, and does not look
   for faults; the branch kept may then be no branch of it, and a next call from there answers 7. */
int32_t vinderaz_resolve_accepted(const uint64_t *nodes, uint64_t node_count, const uint8_t *names, uint64_t names_length,
                                  uint64_t start, const uint8_t *text, uint64_t text_length, uint64_t *slots, uint64_t slot_count);

/* Walks a message: the word of each unit goes to the next slot, and the number of those written to units[0]. Refused in this order: 8 where
   unit_count is 0, and then nothing is read or written; 1 to 6, 7 and 9 as above, with no unit; then what refuses the first unit that cannot be
   read, or 8 where it can and has no slot: the units before it are written and counted. */
int32_t vinderaz_walk(const uint64_t *nodes, uint64_t node_count, const uint8_t *names, uint64_t names_length,
                      uint64_t start, const uint8_t *text, uint64_t text_length, uint64_t *slots, uint64_t slot_count,
                      uint64_t *units, uint64_t unit_count);

/* As vinderaz_walk without the check, for a table that vinderaz_check has accepted. */
int32_t vinderaz_walk_accepted(const uint64_t *nodes, uint64_t node_count, const uint8_t *names, uint64_t names_length,
                               uint64_t start, const uint8_t *text, uint64_t text_length, uint64_t *slots, uint64_t slot_count,
                               uint64_t *units, uint64_t unit_count);

/* ---- Steps

   A step goes on from what the step before it left in an array of eight words, and leaves there its answer. With fewer words it answers
   8 and writes nothing; words after the eighth are not touched. Views are places in the text: from a start up to an end. A refusal
   leaves VINDERAZ_END as the kind, the place at the end of the text and the flags as they were, as 0 or 1: the step after it finds the
   end. From a place beyond the text a step finds the end too, and leaves that place. */
enum {
    VINDERAZ_PLACE = 0,     /* where the next step begins */
    VINDERAZ_IN_HEADER = 1, /* tokens: not 0 in a header */
    VINDERAZ_IN_COMMON = 2, /* tokens: not 0 in a common command */
    VINDERAZ_FIRST = 1,     /* lists: not 0 before the first item */
    VINDERAZ_DIMENSION = 2, /* channel lists: the dimension of a spec or a range, else 0 */
    VINDERAZ_KIND = 3,
    VINDERAZ_START = 4, /* the view of the token or item; 0 and 0 where it has none */
    VINDERAZ_STOP = 5,
    VINDERAZ_START_2 = 6, /* the view of a number's suffix, or of the end of a range; 0 and 0 where there is none */
    VINDERAZ_STOP_2 = 7,
    VINDERAZ_VALUE = 4, /* the value of a number in another radix, in place of a view */
    VINDERAZ_WORDS = 8
};

/* What to begin with: the words of the first step. */
#define VINDERAZ_MESSAGE { 0, 1, 0, 0, 0, 0, 0, 0 }      /* the tokens of a message */
#define VINDERAZ_DATA { 0, 0, 0, 0, 0, 0, 0, 0 }         /* the tokens of data alone */
#define VINDERAZ_NUMERIC_LIST { 0, 1, 0, 0, 0, 0, 0, 0 } /* a numeric list */

/* The kinds of tokens. */
enum {
    VINDERAZ_END = 0,
    VINDERAZ_HEADER_MNEMONIC_SEPARATOR = 1,     /* : */
    VINDERAZ_HEADER_QUERY_SUFFIX = 2,           /* ? */
    VINDERAZ_PROGRAM_MESSAGE_UNIT_SEPARATOR = 3, /* ; */
    VINDERAZ_PROGRAM_HEADER_SEPARATOR = 4,      /* white space after a header */
    VINDERAZ_PROGRAM_DATA_SEPARATOR = 5,        /* , */
    VINDERAZ_PROGRAM_MNEMONIC = 6,
    VINDERAZ_CHARACTER_PROGRAM_DATA = 7,
    VINDERAZ_DECIMAL_NUMERIC_PROGRAM_DATA = 8,
    VINDERAZ_DECIMAL_NUMERIC_SUFFIX_PROGRAM_DATA = 9, /* the number, and its suffix as second view */
    VINDERAZ_NON_DECIMAL_NUMERIC_PROGRAM_DATA = 10,   /* its value */
    VINDERAZ_STRING_PROGRAM_DATA = 11,                /* between the quotes; a doubled quote stays doubled */
    VINDERAZ_ARBITRARY_BLOCK_DATA = 12,               /* the bytes of the block */
    VINDERAZ_EXPRESSION_PROGRAM_DATA = 13             /* between the brackets */
};

/* The next token of a message or of data alone. */
int32_t vinderaz_token(const uint8_t *text, uint64_t text_length, uint64_t *words, uint64_t word_count);

/* The kinds of items in lists. */
enum {
    VINDERAZ_CHANNEL_SPEC = 1,  /* 1!2 */
    VINDERAZ_CHANNEL_RANGE = 2, /* 1!2:3!4 */
    VINDERAZ_PATH_NAME = 3,     /* between the quotes */
    VINDERAZ_NUMERIC = 1,       /* 1.5 */
    VINDERAZ_NUMERIC_RANGE = 2  /* 1:2 */
};

/* Opens a channel list, the text between the brackets of an expression: it begins with @. Where it does not it answers -171, and the next step
   finds the end. */
int32_t vinderaz_channel_list(const uint8_t *text, uint64_t text_length, uint64_t *words, uint64_t word_count);

/* The next item of a channel list that was opened. */
int32_t vinderaz_channel(const uint8_t *text, uint64_t text_length, uint64_t *words, uint64_t word_count);

/* The next item of a numeric list. */
int32_t vinderaz_numeric(const uint8_t *text, uint64_t text_length, uint64_t *words, uint64_t word_count);

/* The coordinates of a channel spec, the view of an item of a channel list: as many as there are words, one, two or three; for
   another number of words the answer is 8. One: -171 where the spec has a `!`, -170 where it does not begin with an integer of 64 bits; what
   follows the integer is not looked at. Two or three: -170 where the spec is not that many integers of 64 bits joined by `!`. A refusal
   writes nothing. */
int32_t vinderaz_coordinates(const uint8_t *spec, uint64_t spec_length, int64_t *words, uint64_t word_count);

/* As vinderaz_coordinates, and refuses a negative coordinate with -224, after the other refusals. */
int32_t vinderaz_unsigned_coordinates(const uint8_t *spec, uint64_t spec_length, uint64_t *words, uint64_t word_count);

#ifdef VINDERAZ_TYPED /* in two steps, so that an argument may be a macro of two arguments: a text and its length */
#define VINDERAZ_OF_TABLE(f, nodes, ...) f(VINDERAZ_READ(nodes), __VA_ARGS__)
#define VINDERAZ_OF_SLOTS(f, nodes, node_count, names, names_length, start, text, text_length, slots, ...) \
    f(VINDERAZ_READ(nodes), node_count, names, names_length, start, text, text_length, VINDERAZ_WRITTEN(slots), __VA_ARGS__)
#define VINDERAZ_OF_UNITS(f, nodes, node_count, names, names_length, start, text, text_length, slots, slot_count, units, unit_count) \
    f(VINDERAZ_READ(nodes), node_count, names, names_length, start, text, text_length, VINDERAZ_WRITTEN(slots), slot_count, \
      VINDERAZ_WRITTEN(units), unit_count)
#define VINDERAZ_OF_WORDS(f, text, text_length, words, word_count) f(text, text_length, VINDERAZ_WRITTEN(words), word_count)
#define VINDERAZ_OF_SIGNED(f, text, text_length, words, word_count) f(text, text_length, VINDERAZ_SIGNED(words), word_count)

#define vinderaz_check(...) VINDERAZ_OF_TABLE((vinderaz_check), __VA_ARGS__)
#define vinderaz_resolve(...) VINDERAZ_OF_SLOTS((vinderaz_resolve), __VA_ARGS__)
#define vinderaz_resolve_accepted(...) VINDERAZ_OF_SLOTS((vinderaz_resolve_accepted), __VA_ARGS__)
#define vinderaz_walk(...) VINDERAZ_OF_UNITS((vinderaz_walk), __VA_ARGS__)
#define vinderaz_walk_accepted(...) VINDERAZ_OF_UNITS((vinderaz_walk_accepted), __VA_ARGS__)
#define vinderaz_token(...) VINDERAZ_OF_WORDS((vinderaz_token), __VA_ARGS__)
#define vinderaz_channel_list(...) VINDERAZ_OF_WORDS((vinderaz_channel_list), __VA_ARGS__)
#define vinderaz_channel(...) VINDERAZ_OF_WORDS((vinderaz_channel), __VA_ARGS__)
#define vinderaz_numeric(...) VINDERAZ_OF_WORDS((vinderaz_numeric), __VA_ARGS__)
#define vinderaz_coordinates(...) VINDERAZ_OF_SIGNED((vinderaz_coordinates), __VA_ARGS__)
#define vinderaz_unsigned_coordinates(...) VINDERAZ_OF_WORDS((vinderaz_unsigned_coordinates), __VA_ARGS__)
#endif

#ifdef __cplusplus
}
#endif

#endif
