/* fuzz: calls every function of include/vinderaz.h with random, mutated and extreme arguments, each lent array between pages that cannot be
   touched, and compares each answer with what the header says. tools/fuzz builds and runs it.

   fuzz N SEED: N calls, each made twice, on arrays in two places. What it prints depends on N, on SEED and on the answers, so two
   processors print the same. Exit status 1: an answer is not as the header says, a call touched what was not lent, or, of 100,000 calls and
   more, a function answered or refused none; 2: wrong arguments or no memory.

   With FUZZ_BARE it needs no operating system: N and SEED are FUZZ_CALLS and FUZZ_SEED, and arrays lie in plain memory, the written ones with
   a pattern beside them, without pages that cannot be touched. It prints the same. */
#define _DEFAULT_SOURCE
#include "vinderaz.h"

#include <inttypes.h>
#include <stdarg.h>
#include <stdio.h>
#include <stdlib.h>
#include <string.h>
#ifdef FUZZ_BARE
#ifndef PRIu64 /* newlib has none in strict C */
#define PRIu64 "llu"
#define PRIi64 "lli"
#define PRIx64 "llx"
#endif
#else
#include <signal.h>
#include <sys/mman.h>
#include <unistd.h>
#endif

/* Every function of the header; tools/fuzz compares this list with it. */
#define FUNCTIONS(X) \
    X(vinderaz_check) \
    X(vinderaz_mnemonic_match) \
    X(vinderaz_mnemonic_compare) \
    X(vinderaz_resolve) \
    X(vinderaz_resolve_accepted) \
    X(vinderaz_walk) \
    X(vinderaz_walk_accepted) \
    X(vinderaz_token) \
    X(vinderaz_channel_list) \
    X(vinderaz_channel) \
    X(vinderaz_numeric) \
    X(vinderaz_coordinates) \
    X(vinderaz_unsigned_coordinates)

enum function {
#define NUMBERED(name) F_##name,
    FUNCTIONS(NUMBERED)
#undef NUMBERED
    FUNCTION_COUNT
};

static const char *const function_names[] = {
#define NAMED(name) #name,
    FUNCTIONS(NAMED)
#undef NAMED
};

static const int32_t refusals[] = {
#define REFUSED(name, number, text) number,
    VINDERAZ_REFUSALS(REFUSED)
#undef REFUSED
};
enum { REFUSAL_COUNT = sizeof refusals / sizeof refusals[0] };

/* ---- Numbers: splitmix64. No expression takes two of them in an order that C leaves open. */

static uint64_t seed, generator;

static uint64_t mixed(uint64_t z) {
    z = (z ^ z >> 30) * 0xBF58476D1CE4E5B9u;
    z = (z ^ z >> 27) * 0x94D049BB133111EBu;
    return z ^ z >> 31;
}

static uint64_t any(void) { return mixed(generator += 0x9E3779B97F4A7C15u); }

/* A number below a bound, which is 1 to 2^32. */
static uint64_t below(uint64_t bound) { return (any() >> 32) * bound >> 32; }

/* Whether one of so many times comes up. */
static bool once_in(uint64_t times) { return below(times) == 0; }

static uint64_t least(uint64_t a, uint64_t b) { return a < b ? a : b; }

/* ---- Lent arrays */

/* Guards, and the sizes of what is between them, are multiples of this, so that no page of any processor is larger. */
enum { PAGE = 65536 };
enum { MOST_NODES = 70000, MOST_BYTES = 140000, MOST_SLOTS = 40000, MOST_UNITS = 4, AROUND = 512, PATTERN = 0xC3 };

/* An array as it is lent: in one room it ends at the guard after it, in the other it begins after the guard before it. An input is mapped
   twice: to read where it is lent, and to write for the fuzzer. */
struct lent {
    const char *what;
    bool written;
    uint64_t width, count, size;
    uint8_t *room[2], *own[2];
};

static struct lent nodes, names, name, text, slots, units;

_Noreturn static void fail(const char *format, ...);

_Noreturn static void out_of(const char *what) {
    perror(what);
    exit(2);
}

#ifdef FUZZ_BARE
/* In plain memory both calls read the same input; a written array has two rooms. */
static void reserve(struct lent *l, const char *what, uint64_t most, uint64_t width, bool written) {
    l->what = what;
    l->written = written;
    l->width = width;
    l->size = most * width + 2 * AROUND;
    for (int side = 0; side < 2; side++) {
        l->room[side] = side == 1 && !written ? l->room[0] : malloc((size_t)l->size);
        if (!l->room[side]) out_of("fuzz: malloc");
        l->own[side] = l->room[side];
        memset(l->own[side], PATTERN, (size_t)l->size);
    }
}
#else
static void reserve(struct lent *l, const char *what, uint64_t most, uint64_t width, bool written) {
    l->what = what;
    l->written = written;
    l->width = width;
    l->size = (most * width + 2 * AROUND + PAGE - 1) / PAGE * PAGE;
    for (int side = 0; side < 2; side++) {
        uint8_t *all = mmap(NULL, l->size + 3 * PAGE, PROT_NONE, MAP_PRIVATE | MAP_ANONYMOUS, -1, 0);
        if (all == MAP_FAILED) out_of("fuzz: mmap");
        l->room[side] = all + PAGE + (PAGE - (uintptr_t)all % PAGE) % PAGE;
        if (written) {
            if (mprotect(l->room[side], l->size, PROT_READ | PROT_WRITE)) out_of("fuzz: mprotect");
            l->own[side] = l->room[side];
            memset(l->own[side], PATTERN, l->size);
            continue;
        }
        FILE *file = tmpfile();
        if (!file || ftruncate(fileno(file), (off_t)l->size)) out_of("fuzz: tmpfile");
        l->own[side] = mmap(NULL, l->size, PROT_READ | PROT_WRITE, MAP_SHARED, fileno(file), 0);
        if (l->own[side] == MAP_FAILED) out_of("fuzz: mmap");
        if (mmap(l->room[side], l->size, PROT_READ, MAP_SHARED | MAP_FIXED, fileno(file), 0) == MAP_FAILED) out_of("fuzz: mmap");
        fclose(file);
    }
}
#endif

static uint64_t offset(const struct lent *l, int side) {
#ifdef FUZZ_BARE
    if (!l->written) return 0;
#endif
    return side == 0 ? l->size - l->count * l->width : 0;
}

static uint8_t *mine(const struct lent *l, int side) { return l->own[side] + offset(l, side); }

/* What is passed. An empty array is NULL, or a guard that cannot be touched. */
static void *pointer(const struct lent *l, int side) {
    if (l->count == 0) return side == 0 ? NULL : l->room[side] + l->size;
    return l->room[side] + offset(l, side);
}

static void lend(struct lent *l, const void *from, uint64_t count) {
    l->count = count;
    if (count == 0) return;
    for (int side = 0; side < 2; side++) memcpy(mine(l, side), from, count * l->width);
}

/* So many bytes still have the pattern. */
static void expect_pattern(const struct lent *l, int side, const uint8_t *at, uint64_t count, const char *who) {
    for (uint64_t i = 0; i < count; i++) {
        if (at[i] != PATTERN) fail("%s wrote beside %s, at byte %" PRIi64, who, l->what, (int64_t)(at + i - mine(l, side)));
    }
}

/* After a call: what is beside a written array, near it. */
static void expect_beside(const struct lent *l, int side) {
    uint64_t length = l->count * l->width;
    expect_pattern(l, side, side == 0 ? mine(l, side) - AROUND : mine(l, side) + length, AROUND, "the call");
}

/* Before a call: where a written array will be, so that what was written far from an array is seen too. */
static void expect_unused(const struct lent *l) {
    for (int side = 0; side < 2; side++) expect_pattern(l, side, mine(l, side), l->count * l->width, "an earlier call");
}

/* Takes a written array back: what it had becomes the pattern. */
static void give_back(struct lent *l) {
    for (int side = 0; side < 2; side++) memset(mine(l, side), PATTERN, l->count * l->width);
}

/* ---- The arguments of the next call, and what is counted */

static uint64_t node_words[MOST_NODES], slot_words[MOST_SLOTS], unit_words[MOST_UNITS];
static uint8_t name_bytes[MOST_NODES], text_bytes[MOST_BYTES], alone_bytes[MOST_NODES];
static uint64_t names_used, text_used, start;
static int32_t table_answer;

static enum function function;
static bool in_call;
static uint64_t calls, wanted, checksum;
static struct {
    uint64_t calls, answered, refused, each[REFUSAL_COUNT];
} counts[FUNCTION_COUNT];

static bool done(void) { return calls >= wanted; }

static bool takes_table(enum function f) {
    return f == F_vinderaz_check || f == F_vinderaz_resolve || f == F_vinderaz_resolve_accepted || f == F_vinderaz_walk
        || f == F_vinderaz_walk_accepted;
}
static bool is_walk(enum function f) { return f == F_vinderaz_walk || f == F_vinderaz_walk_accepted; }
static bool is_mnemonic(enum function f) { return f == F_vinderaz_mnemonic_match || f == F_vinderaz_mnemonic_compare; }
static bool is_step(enum function f) {
    return f == F_vinderaz_token || f == F_vinderaz_channel_list || f == F_vinderaz_channel || f == F_vinderaz_numeric;
}
static bool writes(enum function f) { return f != F_vinderaz_check && !is_mnemonic(f); }

static void print_bytes(const char *what, const uint8_t *bytes, uint64_t count) {
    fprintf(stderr, "  %s (%" PRIu64 "):%s", what, count, count ? " " : "");
    for (uint64_t i = 0; i < count; i++) fprintf(stderr, "%02x", bytes[i]);
    fprintf(stderr, "\n");
}

static void print_words(const char *what, const uint64_t *words, uint64_t count) {
    fprintf(stderr, "  %s (%" PRIu64 "):", what, count);
    for (uint64_t i = 0; i < count; i++) fprintf(stderr, " %" PRIx64, words[i]);
    fprintf(stderr, "\n");
}

/* What is wrong, and the arguments of the call in hexadecimal digits. */
_Noreturn static void report(const char *format, va_list arguments) {
    slots.count = least(slots.count, MOST_SLOTS);
    units.count = least(units.count, MOST_UNITS);
    fflush(stdout);
    fprintf(stderr, "fuzz: %s, call %" PRIu64 ", seed %" PRIu64 ": ", function_names[function], calls, seed);
    vfprintf(stderr, format, arguments);
    fprintf(stderr, "\n");
    if (takes_table(function)) {
        print_words("nodes", node_words, nodes.count);
        print_bytes("names", name_bytes, names.count);
        fprintf(stderr, "  start: %" PRIx64 "\n", start);
    }
    if (is_mnemonic(function)) print_bytes("name", alone_bytes, name.count);
    if (function != F_vinderaz_check) print_bytes("text", text_bytes, text.count);
    if (writes(function)) print_words("slots or words before", slot_words, slots.count);
    if (is_walk(function)) print_words("units before", unit_words, units.count);
    fflush(stderr);
    _Exit(1);
}

static void fail(const char *format, ...) {
    va_list arguments;
    va_start(arguments, format);
    report(format, arguments);
}

#ifndef FUZZ_BARE
/* The library calls nothing, so no stream is in use where a call is interrupted. qemu does not align the stack of a handler on x86-64. */
#ifdef __x86_64__
__attribute__((force_align_arg_pointer))
#endif
static void caught(int number) {
    if (!in_call) {
        static const char own[] = "fuzz: a signal outside a call: a fault of the fuzzer\n";
        if (write(2, own, sizeof own - 1) < 0) _Exit(1);
        _Exit(1);
    }
    if (number == SIGALRM) fail("the call does not end");
    fail("signal %s", number == SIGSEGV ? "SIGSEGV" : number == SIGBUS ? "SIGBUS" : number == SIGILL ? "SIGILL" : "SIGFPE");
}
#endif

/* ---- One call */

static int32_t call(enum function f, int side) {
    const uint64_t *n = pointer(&nodes, side);
    const uint8_t *nm = pointer(&names, side), *one = pointer(&name, side), *t = pointer(&text, side);
    uint64_t *s = pointer(&slots, side), *u = pointer(&units, side);
    switch (f) {
    case F_vinderaz_check: return vinderaz_check(n, nodes.count, nm, names.count);
    case F_vinderaz_mnemonic_match: return vinderaz_mnemonic_match(one, name.count, t, text.count);
    case F_vinderaz_mnemonic_compare: return vinderaz_mnemonic_compare(one, name.count, t, text.count);
    case F_vinderaz_resolve: return vinderaz_resolve(n, nodes.count, nm, names.count, start, t, text.count, s, slots.count);
    case F_vinderaz_resolve_accepted:
        return vinderaz_resolve_accepted(n, nodes.count, nm, names.count, start, t, text.count, s, slots.count);
    case F_vinderaz_walk: return vinderaz_walk(n, nodes.count, nm, names.count, start, t, text.count, s, slots.count, u, units.count);
    case F_vinderaz_walk_accepted:
        return vinderaz_walk_accepted(n, nodes.count, nm, names.count, start, t, text.count, s, slots.count, u, units.count);
    case F_vinderaz_token: return vinderaz_token(t, text.count, s, slots.count);
    case F_vinderaz_channel_list: return vinderaz_channel_list(t, text.count, s, slots.count);
    case F_vinderaz_channel: return vinderaz_channel(t, text.count, s, slots.count);
    case F_vinderaz_numeric: return vinderaz_numeric(t, text.count, s, slots.count);
    case F_vinderaz_coordinates: return vinderaz_coordinates(t, text.count, (int64_t *)s, slots.count);
    case F_vinderaz_unsigned_coordinates: return vinderaz_unsigned_coordinates(t, text.count, s, slots.count);
    case FUNCTION_COUNT: break;
    }
    abort();
}

/* A call on arrays in the rooms of one side, with the written ones as they were before. */
static int32_t called(enum function f, int side) {
    memcpy(mine(&slots, side), slot_words, slots.count * 8);
    memcpy(mine(&units, side), unit_words, units.count * 8);
    in_call = true;
    int32_t answer = call(f, side);
    in_call = false;
    expect_beside(&slots, side);
    expect_beside(&units, side);
    return answer;
}

/* ---- What the header says of each answer */

static bool is_branch(uint64_t node) { return node < nodes.count && node_words[node] >> 63; }

/* The words of an array after the written ones are as they were. */
static void expect_kept(const struct lent *l, const uint64_t *after, const uint64_t *before, uint64_t from) {
    for (uint64_t i = from; i < l->count; i++) {
        if (after[i] != before[i]) fail("word %" PRIu64 " of %s was written: %" PRIx64, i, l->what, after[i]);
    }
}

/* The first three faults of a table, or 0. */
static int32_t layout_fault(void) {
    if (nodes.count == 0 || nodes.count > 4096) return VINDERAZ_NODE_COUNT;
    bool fields = node_words[0] >> 42 == (uint64_t)1 << 21, blocks = true;
    uint64_t next = 1;
    for (uint64_t k = 0; k < nodes.count; k++) {
        uint64_t word = node_words[k], count = word >> 10 & 0xFFFF;
        fields = fields && !(word & 1023) && (word >> 63 || count == 0);
        if (!(word >> 63)) continue;
        blocks = blocks && (word >> 26 & 0xFFFF) == next && next > k;
        next += count;
    }
    return !fields ? VINDERAZ_NODE_FIELDS : blocks && next == nodes.count ? 0 : VINDERAZ_CHILD_BLOCKS;
}

static void expect_check(int32_t answer) {
    int32_t fault = layout_fault();
    if (fault ? answer != fault : answer != 0 && (answer < 4 || answer > 6)) fail("answered %" PRIi32 ", not %" PRIi32, answer, fault);
}

static void expect_unit(uint64_t word, bool alone) {
    if (word & 0x7FFF) fail("the low bits of a unit are not 0: %" PRIx64, word);
    uint64_t kept = VINDERAZ_KEPT(word);
    if (kept >= nodes.count || (table_answer == 0 && !is_branch(kept))) fail("the branch kept is none: %" PRIx64, word);
    if (alone && VINDERAZ_ITEMS(word) != 0) fail("a header has items: %" PRIx64, word);
}

/* The refusals before the text is read, in the header's order, or 0. */
static int32_t refused_first(enum function f) {
    if (is_walk(f) && units.count == 0) return VINDERAZ_NO_SLOT_LEFT;
    if ((f == F_vinderaz_resolve || f == F_vinderaz_walk) && table_answer) return table_answer;
    if (!is_branch(start)) return VINDERAZ_START_IS_NO_BRANCH;
    return text.count > 65535 ? VINDERAZ_MESSAGE_TOO_LONG : 0;
}

/* How many slots a header or a message wrote. */
static uint64_t expect_units(enum function f, int32_t answer, const uint64_t *after, const uint64_t *count) {
    int32_t first = refused_first(f);
    uint64_t written = is_walk(f) ? units.count ? count[0] : 0 : answer == 0;
    if (first ? answer != first : answer > 0 && answer != VINDERAZ_NO_SLOT_LEFT) fail("answered %" PRIi32 ", not %" PRIi32, answer, first);
    if (written > slots.count) fail("%" PRIu64 " units in %" PRIu64 " slots", written, slots.count);
    if (first && written) fail("refused with %" PRIi32 " and %" PRIu64 " units", first, written);
    if (!first && answer == VINDERAZ_NO_SLOT_LEFT && (is_walk(f) ? written : 0) != slots.count) fail("refused with 8, and slots are left");
    for (uint64_t i = 0; i < written; i++) expect_unit(after[i], !is_walk(f));
    expect_kept(&units, count, unit_words, is_walk(f) && units.count ? 1 : 0);
    return written;
}

static void expect_view(const uint64_t *after, int at, uint64_t from, uint64_t to) {
    if (!(from <= after[at] && after[at] <= after[at + 1] && after[at + 1] <= to)) {
        fail("a view from %" PRIx64 " to %" PRIx64 " is not between %" PRIx64 " and %" PRIx64, after[at], after[at + 1], from, to);
    }
}

static void expect_no_view(const uint64_t *after, int at) {
    if (after[at] || after[at + 1]) fail("a view that should be none: %" PRIx64 " to %" PRIx64, after[at], after[at + 1]);
}

static uint64_t dimension(uint64_t from, uint64_t to) {
    uint64_t d = 1;
    for (uint64_t i = from; i < to; i++) d += text_bytes[i] == '!';
    return d;
}

/* The eight words of a step that begins in the text or past its end. */
static void expect_step(enum function f, int32_t answer, const uint64_t *after) {
    const uint64_t *before = slot_words;
    bool token = f == F_vinderaz_token, channel = f == F_vinderaz_channel;
    uint64_t place = after[VINDERAZ_PLACE], kind = after[VINDERAZ_KIND];
    if (answer > 0) fail("a step answered %" PRIi32, answer);
    if (f == F_vinderaz_channel_list) {
        bool list = text.count > 0 && text_bytes[0] == '@';
        if (answer != (list ? 0 : VINDERAZ_INVALID_EXPRESSION)) fail("opened with %" PRIi32, answer);
        if (kind != VINDERAZ_END || place != (list ? 1 : text.count)) fail("opened at %" PRIx64 " with kind %" PRIx64, place, kind);
        if (list && !after[VINDERAZ_FIRST]) fail("opened after the first item");
        return;
    }
    if (kind == VINDERAZ_END) {
        bool past = before[VINDERAZ_PLACE] >= text.count;
        if (past && (answer || place != before[VINDERAZ_PLACE])) fail("a step past the end answered %" PRIi32 " at %" PRIx64, answer, place);
        if (!past && (answer ? place != text.count : place > text.count)) fail("answered %" PRIi32 " at %" PRIx64, answer, place);
        if (!after[1] != !before[1]) fail("the end changed the state");
        if (token ? !after[2] != !before[2] : after[2] != 0) fail("the end changed the state or has a dimension");
        expect_no_view(after, VINDERAZ_START);
        expect_no_view(after, VINDERAZ_START_2);
        return;
    }
    if (answer) fail("refused with %" PRIi32 " and kind %" PRIx64, answer, kind);
    if (kind > (token ? VINDERAZ_EXPRESSION_PROGRAM_DATA : channel ? VINDERAZ_PATH_NAME : VINDERAZ_NUMERIC_RANGE)) fail("kind %" PRIx64, kind);
    if (!(before[VINDERAZ_PLACE] < place && place <= text.count)) fail("went from %" PRIx64 " to %" PRIx64, before[0], place);
    bool value = token && kind == VINDERAZ_NON_DECIMAL_NUMERIC_PROGRAM_DATA;
    bool view = !value && !(token && kind < VINDERAZ_PROGRAM_MNEMONIC);
    bool two = kind == (token ? VINDERAZ_DECIMAL_NUMERIC_SUFFIX_PROGRAM_DATA : channel ? VINDERAZ_CHANNEL_RANGE : VINDERAZ_NUMERIC_RANGE);
    if (value && after[VINDERAZ_STOP]) fail("a value of two words");
    if (view) expect_view(after, VINDERAZ_START, before[VINDERAZ_PLACE], place);
    if (!value && !view) expect_no_view(after, VINDERAZ_START);
    if (two) expect_view(after, VINDERAZ_START_2, after[VINDERAZ_STOP], place);
    if (!two) expect_no_view(after, VINDERAZ_START_2);
    if (token) return;
    if (after[VINDERAZ_FIRST]) fail("an item leaves the list before the first");
    uint64_t has = channel && kind != VINDERAZ_PATH_NAME ? dimension(after[VINDERAZ_START], after[VINDERAZ_STOP]) : 0;
    if (after[VINDERAZ_DIMENSION] != has) fail("dimension %" PRIx64 ", not %" PRIx64, after[VINDERAZ_DIMENSION], has);
}

/* The signed integer of 64 bits that begins at a place of the text, and the place after it; the place itself where there is none. */
static uint64_t integer(uint64_t at, uint64_t *value) {
    uint64_t i = at, sum = 0, most = INT64_MAX;
    bool minus = i < text.count && text_bytes[i] == '-';
    if (minus || (i < text.count && text_bytes[i] == '+')) i++;
    uint64_t digits = i;
    for (; i < text.count && text_bytes[i] >= '0' && text_bytes[i] <= '9'; i++) {
        uint64_t digit = text_bytes[i] - (uint64_t)'0';
        if (sum > (most + minus - digit) / 10) return at;
        sum = sum * 10 + digit;
    }
    if (i == digits) return at;
    *value = minus ? 0 - sum : sum;
    return i;
}

/* Reads the text as so many integers joined by `!`, and compares. */
static void expect_coordinates(bool is_unsigned, int32_t answer, const uint64_t *after) {
    uint64_t values[3] = {0}, at = 0, count = slots.count;
    bool good = true, negative = false, bang = dimension(0, text.count) > 1;
    if (count == 0 || count > 3) {
        if (answer != VINDERAZ_NO_SLOT_LEFT) fail("answered %" PRIi32 ", not 8", answer);
        return;
    }
    for (uint64_t i = 0; good && i < count; i++) {
        if (i > 0 && !(at < text.count && text_bytes[at++] == '!')) good = false;
        uint64_t end = integer(at, &values[i]);
        if (end == at) good = false;
        at = end;
        negative = negative || values[i] >> 63;
    }
    /* One word: what follows the integer is not looked at, but for a `!`. */
    if (count > 1 && at != text.count) good = false;
    int32_t other = count == 1 && bang ? VINDERAZ_INVALID_EXPRESSION : good ? 0 : VINDERAZ_EXPRESSION_ERROR;
    if (other == 0 && is_unsigned && negative) other = VINDERAZ_ILLEGAL_PARAMETER_VALUE;
    if (answer != other) fail("answered %" PRIi32 ", not %" PRIi32, answer, other);
    for (uint64_t i = 0; answer == 0 && i < count; i++) {
        if (after[i] != values[i]) fail("coordinate %" PRIu64 " is %" PRIx64 ", not %" PRIx64, i, after[i], values[i]);
    }
}

static void tally(int32_t answer) {
    counts[function].calls++;
    if (is_mnemonic(function) ? answer == 1 : answer == 0) {
        counts[function].answered++;
        return;
    }
    counts[function].refused++;
    for (int i = 0; i < REFUSAL_COUNT; i++) counts[function].each[i] += answer == refusals[i];
}

static void sum(uint64_t value) { checksum = mixed(checksum ^ value) + 0x9E3779B97F4A7C15u; }

/* Makes a call, makes it again on arrays in the other rooms, and compares what both left. The words are then those of the call, so that a
   step can go on. */
static int32_t run(enum function f) {
    function = f;
    calls++;
#ifndef FUZZ_BARE
    if (calls % 4096 == 1) alarm(300);
#endif
    if (!writes(f)) slots.count = 0;
    if (!is_walk(f)) units.count = 0;
    expect_unused(&slots);
    expect_unused(&units);
    int side = calls & 1;
    int32_t answer = called(f, side);
    if (is_mnemonic(f) ? answer != 0 && answer != 1 : !vinderaz_text(answer)) fail("answered %" PRIi32, answer);
    if (f == F_vinderaz_check) expect_check(answer);
    const uint64_t *after = (const uint64_t *)mine(&slots, side), *count = (const uint64_t *)mine(&units, side);

    uint64_t written = 0;
    if (is_step(f) && slots.count < VINDERAZ_WORDS && answer != VINDERAZ_NO_SLOT_LEFT) fail("answered %" PRIi32 ", not 8", answer);
    if (is_step(f) && slots.count >= VINDERAZ_WORDS) {
        written = VINDERAZ_WORDS;
        expect_step(f, answer, after);
    } else if (f == F_vinderaz_coordinates || f == F_vinderaz_unsigned_coordinates) {
        written = answer == 0 ? slots.count : 0;
        expect_coordinates(f == F_vinderaz_unsigned_coordinates, answer, after);
    } else if (takes_table(f) && f != F_vinderaz_check) {
        written = expect_units(f, answer, after, count);
    }
    expect_kept(&slots, after, slot_words, written);

    /* The second time; and, on a table that is accepted, the function that checks answers as the one that does not. */
    enum function twin = f == F_vinderaz_walk ? F_vinderaz_walk_accepted : F_vinderaz_resolve_accepted;
    int times = (f == F_vinderaz_walk || f == F_vinderaz_resolve) && table_answer == 0 ? 2 : 1;
    for (int i = 0; i < times; i++) {
        int32_t again = called(i == 0 ? f : twin, !side);
        const char *who = i == 0 ? "the second call" : "the function without the check";
        if (again != answer) fail("%s answered %" PRIi32 ", not %" PRIi32, who, again, answer);
        if (memcmp(mine(&slots, !side), after, slots.count * 8)) fail("%s left other words", who);
        if (memcmp(mine(&units, !side), count, units.count * 8)) fail("%s left another number of units", who);
    }

    tally(answer);
    sum((uint64_t)f << 32 | (uint32_t)answer);
    for (uint64_t i = 0; i < least(slots.count, written + 4); i++) sum(after[i]);
    for (uint64_t i = 0; i < units.count; i++) sum(count[i]);
    memcpy(slot_words, after, slots.count * 8);
    give_back(&slots);
    give_back(&units);
    return answer;
}

/* ---- Texts */

static void put(uint8_t byte) {
    if (text_used < MOST_BYTES) text_bytes[text_used++] = byte;
}

static void put_text(const char *s) {
    while (*s) put((uint8_t)*s++);
}

#define PICK(array) ((array)[below(sizeof(array) / sizeof(array)[0])])

static const char *const words[] = {
    "VOLTage", "CURRent", "SENSe", "SOURce", "ROUTe", "TRIGger", "MEASure", "CONFigure", "OUTPut", "INPut", "SYSTem", "STATus", "CALibrate",
    "DISPlay", "FORMat", "HCOPy", "INITiate", "MEMory", "MMEMory", "PROGram", "TEST", "UNIT", "CLOSe", "OPEN", "DC", "AC", "RANGe", "AUTO",
    "LEVel", "IMMediate", "AMPLitude", "STATe", "COUNt", "DELay", "ERRor", "VERSion", "NEXT", "ALL", "QUEStionable", "OPERation", "EVENt",
    "ENABle", "CHANnel", "TRACe", "DATA", "FREQuency", "PERiod", "A", "ZEROautomat"
};
static const char *const stars[] = {"*IDN", "*RST", "*CLS", "*ESE", "*OPC", "*TST", "*WAI"};
static const char alphabet[] = "AZaz09_*:;,?#@!+-.eE/()\"' \t\n\r~\0\x7f\x80\xff";

static uint8_t any_byte(void) { return once_in(3) ? (uint8_t)any() : (uint8_t)alphabet[below(sizeof alphabet - 1)]; }

static void put_space(void) {
    if (once_in(6)) put(once_in(4) ? '\t' : ' ');
}

static void put_digits(uint64_t most) {
    uint64_t n = 1 + below(most);
    for (uint64_t i = 0; i < n; i++) put((uint8_t)('0' + below(10)));
}

static void put_integer(void) {
    static const char *const edges[] = {"0", "-0", "+0", "9223372036854775807", "9223372036854775808", "-9223372036854775808",
                                        "-9223372036854775809", "18446744073709551615", "18446744073709551616", "4294967296", "00012"};
    if (once_in(12)) {
        put_text(PICK(edges));
        return;
    }
    if (once_in(4)) put(once_in(2) ? '-' : '+');
    put_digits(once_in(20) ? 24 : 3);
}

static void put_number(void) {
    if (once_in(4)) put(once_in(2) ? '-' : '+');
    if (!once_in(6)) put_digits(4);
    if (once_in(3)) {
        put('.');
        if (!once_in(5)) put_digits(4);
    }
    if (once_in(5)) {
        put(once_in(2) ? 'E' : 'e');
        if (once_in(2)) put(once_in(2) ? '-' : '+');
        if (!once_in(8)) put_digits(3);
    }
}

/* A name in its long or its short form, small or large. */
static void put_spelling(const uint8_t *bytes, uint64_t length) {
    bool is_short = once_in(2), digits = false;
    uint64_t letters = below(3);
    for (uint64_t i = 0; i < length; i++) {
        uint8_t b = bytes[i];
        bool capital = b >= 'A' && b <= 'Z', small = b >= 'a' && b <= 'z';
        digits = digits || (b >= '0' && b <= '9');
        if (small && is_short) continue;
        if (capital && (letters == 0 || (letters == 1 && once_in(2)))) b |= 32;
        if (small && letters == 2) b &= 0xDF;
        put(b);
    }
    if (!digits && once_in(6)) put('1');
    if (once_in(30)) put_digits(2);
}

static void put_word(void) {
    const char *w = once_in(8) ? PICK(stars) : PICK(words);
    if (once_in(12)) {
        uint64_t n = 1 + below(15);
        for (uint64_t i = 0; i < n; i++) put((uint8_t)(i == 0 || once_in(2) ? 'A' + below(26) : once_in(8) ? '_' : '0' + below(10)));
        return;
    }
    put_spelling((const uint8_t *)w, strlen(w));
}

static void put_spec(void) {
    uint64_t n = 1 + (once_in(2) ? below(4) : 0);
    for (uint64_t i = 0; i < n; i++) {
        if (i > 0) put('!');
        put_integer();
    }
}

static void put_string(void) {
    uint8_t quote = once_in(2) ? '"' : '\'';
    uint64_t n = below(8);
    put(quote);
    for (uint64_t i = 0; i < n; i++) {
        if (once_in(6)) {
            put(quote);
            put(quote);
        } else {
            put(once_in(40) ? 0xE9 : (uint8_t)(' ' + below(95)));
        }
    }
    if (!once_in(20)) put(quote);
}

static void put_channels(void) {
    uint64_t n = below(5);
    if (!once_in(12)) put('@');
    for (uint64_t i = 0; i < n; i++) {
        if (i > 0 && !once_in(12)) put(',');
        if (once_in(6)) {
            put_string();
        } else if (once_in(3)) {
            uint64_t from = text_used;
            put_spec();
            uint64_t to = text_used;
            put(':');
            if (once_in(4)) put_spec();
            else for (; from < to; from++) put(text_bytes[from]);
        } else {
            put_spec();
        }
    }
    if (once_in(10)) put(',');
}

static void put_numbers(void) {
    uint64_t n = below(6);
    for (uint64_t i = 0; i < n; i++) {
        if (i > 0 && !once_in(12)) put(',');
        put_number();
        if (once_in(3)) {
            put(':');
            put_number();
        }
    }
}

static void put_hash(void) {
    static const char digits[] = "0123456789ABCDEFabcdef";
    uint64_t form = below(6), n = once_in(10) ? 12 + below(8) : 1 + below(6);
    put('#');
    if (form < 3) {
        put((uint8_t)("HQB"[form] | (once_in(2) ? 32 : 0)));
        if (once_in(20)) return;
        for (uint64_t i = 0; i < n * (form + 1); i++) put((uint8_t)digits[below(form == 0 ? 22 : form == 1 ? 8 : 2)]);
    } else if (form < 5) {
        uint64_t size = once_in(20) ? 0 : n;
        if (once_in(30)) put((uint8_t)('1' + below(9)));
        else put(size < 10 ? '1' : '2');
        if (size >= 10) put((uint8_t)('0' + size / 10));
        put((uint8_t)('0' + size % 10));
        for (uint64_t i = 0; i < size; i++) put((uint8_t)any());
    } else {
        put('0');
        for (uint64_t i = 0; i < n; i++) put((uint8_t)any());
        put('\n');
    }
}

static void put_item(void) {
    static const char *const suffixes[] = {"V", "mV", "KHZ", "/s", "M.S-1", "OHM", "dBm", "VOLTSPERSECO", "VOLTSPERSECON", "V/", "1"};
    switch (below(8)) {
    case 0: put_number(); put_space(); put_text(PICK(suffixes)); break;
    case 1: put_word(); break;
    case 2: put_string(); break;
    case 3: put_hash(); break;
    case 4: put('('); put_channels(); put(')'); break;
    case 5: put('('); put_numbers(); if (!once_in(8)) put(')'); break;
    default: put_number(); break;
    }
}

static void put_data(void) {
    uint64_t n = 1 + below(4);
    for (uint64_t i = 0; i < n; i++) {
        if (i > 0) {
            put_space();
            put(',');
            put_space();
        }
        put_item();
    }
}

/* The header of a node that a branch leads to, in the table as it is; `kept` is the branch that it starts from, and the one it leaves. */
static void put_header(uint64_t *kept) {
    uint64_t at = least(*kept, nodes.count), most = once_in(40) ? 5000 : 16;
    bool spoken = false;
    if (once_in(4)) {
        put(':');
        at = 0;
    }
    for (uint64_t depth = 0; depth < most && is_branch(at); depth++) {
        uint64_t word = node_words[at], from = word >> 26 & 0xFFFF, count = word >> 10 & 0xFFFF;
        if (count == 0 || from + count > nodes.count || from <= at) break;
        uint64_t child = from + below(count);
        word = node_words[child];
        if (word >> 62 == 3 && once_in(2)) {
            at = child;
            continue;
        }
        if (spoken) put(':');
        uint64_t begin = least(word >> 42 & 0xFFFF, names.count);
        put_spelling(name_bytes + begin, least(word >> 58 & 15, names.count - begin));
        *kept = at;
        spoken = true;
        if (!(word >> 63) || once_in(24)) break;
        at = child;
    }
    if (!spoken) put_word();
    if (once_in(3)) put('?');
}

static void put_message(bool from_table) {
    uint64_t n = 1 + (once_in(2) ? below(5) : 0), kept = is_branch(start) ? start : 0;
    for (uint64_t i = 0; i < n; i++) {
        if (i > 0) {
            put(';');
            put_space();
        }
        if (from_table) {
            put_header(&kept);
        } else {
            if (once_in(4)) put(':');
            put_word();
            while (once_in(2)) {
                put(':');
                put_word();
            }
            if (once_in(3)) put('?');
        }
        if (once_in(2)) {
            put(once_in(8) ? '\t' : ' ');
            if (!once_in(20)) put_data();
        }
    }
    if (once_in(8)) put('\n');
}

/* A few bytes changed, put in, taken out, cut off or doubled. */
static void mutate(void) {
    for (uint64_t n = 1 + below(3); n > 0 && text_used > 0 && text_used < MOST_BYTES / 2; n--) {
        uint64_t at = below(text_used), rest = text_used - at, part = 1 + below(least(rest, 12));
        switch (below(6)) {
        case 0: text_bytes[at] = any_byte(); break;
        case 1: text_bytes[at] ^= (uint8_t)(1 << below(8)); break;
        case 2:
            memmove(text_bytes + at + 1, text_bytes + at, rest);
            text_bytes[at] = any_byte();
            text_used++;
            break;
        case 3:
            memmove(text_bytes + at, text_bytes + at + part, rest - part);
            text_used -= part;
            break;
        case 4: text_used = at; break;
        default:
            memmove(text_bytes + at + part, text_bytes + at, rest);
            text_used += part;
            break;
        }
    }
}

/* The text again and again, up to one of the lengths around the longest message. */
static void lengthen(void) {
    static const uint64_t lengths[] = {65535, 65535, 65535, 65536, 65537, 70000, 131071, 140000};
    static const char *const joints[] = {";", ";:", ",", ""};
    uint64_t length = PICK(lengths), one = text_used;
    const char *joint = PICK(joints);
    if (one == 0) return;
    while (text_used < length) {
        put_text(joint);
        for (uint64_t i = 0; i < one && text_used < length; i++) put(text_bytes[i]);
    }
    text_used = length;
}

static void lend_text(bool may_be_long) {
    if (once_in(4)) mutate();
    if (may_be_long && once_in(1500)) lengthen();
    lend(&text, text_bytes, text_used);
}

/* The text of the next calls: `form` puts one together; some are random bytes, and some empty. */
static void make_text(void (*form)(void), bool may_be_long) {
    text_used = 0;
    if (once_in(50)) {
        text_used = 0;
    } else if (once_in(12)) {
        for (uint64_t n = 1 + below(once_in(8) ? 300 : 20); n > 0; n--) put(any_byte());
    } else {
        form();
    }
    lend_text(may_be_long);
}

/* ---- Tables */

static uint64_t put_name(const char *s) {
    uint64_t begin = names_used;
    while (*s && names_used < MOST_NODES) name_bytes[names_used++] = (uint8_t)*s++;
    return begin;
}

/* The name of a node. A plain one shares no spelling with that of another node; one from the words may. One that is flawed may be no name. */
static uint64_t name_of(uint64_t node, bool plain, uint64_t turn, bool flawed) {
    char s[24];
    uint64_t n = 0;
    if (plain) {
        s[n++] = (char)('A' + node / 676 % 26);
        s[n++] = (char)('A' + node / 26 % 26);
        s[n++] = (char)('A' + node % 26);
        for (uint64_t small = below(4); small > 0; small--) s[n++] = (char)('a' + below(26));
    } else {
        const char *w = words[(turn + node) % (sizeof words / sizeof words[0])];
        n = strlen(w);
        memcpy(s, w, n);
    }
    if (n < 12 && once_in(5)) s[n++] = (char)('1' + below(9));
    if (flawed && once_in(20)) s[n++] = (char)('0' + below(10));
    s[n] = 0;
    uint64_t begin = put_name(s);
    return vinderaz_name(begin, n <= 15 ? n : 15);
}

/* A tree of so many nodes whose branches have at most `widest` children. Some small ones have faults in names and default children. */
static void make_tree(uint64_t count, uint64_t widest, bool chain) {
    bool flawed = count <= 200 && once_in(8), plain = count > 60 || once_in(3);
    uint64_t end = 1, turn = below(50), unsaid = below(4), star = 0;
    memset(node_words, 0, count * 8);
    names_used = 0;
    node_words[0] = (uint64_t)1 << 63;
    for (uint64_t k = 0; k < end; k++) {
        uint64_t left = count - end;
        if (!(node_words[k] >> 63)) continue;
        uint64_t one_more = k == 0 || once_in(8), children = least(left, chain ? 1 : below(widest) + one_more);
        /* The last branch has children while nodes are left. */
        bool others = false;
        for (uint64_t j = k + 1; j < end; j++) others = others || node_words[j] >> 63;
        if (!others && left && !chain) children = least(left, children ? children : widest);
        bool has_default = false;
        for (uint64_t c = end; c < end + children; c++) {
            bool last = c + 1 == end + children, branch = chain ? left > 1 : (left > children && (last || once_in(3))) || once_in(40);
            uint64_t name_word = name_of(c, plain, turn, flawed);
            if (k == 0 && !branch && star < sizeof stars / sizeof stars[0] && once_in(3)) {
                const char *s = stars[star];
                name_word = vinderaz_name(put_name(s), strlen(s));
                star += !flawed || once_in(2);
            } else if (unsaid && (!has_default || (flawed && once_in(10))) && (chain ? unsaid > 1 || once_in(2) : once_in(unsaid + 1))) {
                name_word |= VINDERAZ_DEFAULT;
                has_default = true;
            }
            node_words[c] = branch ? (uint64_t)1 << 63 | name_word : vinderaz_leaf(name_word, any() >> 48);
        }
        node_words[k] |= end << 26 | children << 10;
        end += children;
    }
    /* Few branches stay without children, since no header leads on from them. */
    for (uint64_t k = 1; k < end; k++) {
        if (node_words[k] >> 63 && !(node_words[k] >> 10 & 0xFFFF) && !once_in(10)) node_words[k] = node_words[k] << 1 >> 1;
    }
    lend(&nodes, node_words, end);
    lend(&names, name_bytes, names_used);
}

static uint64_t random_node(uint64_t k) {
    uint64_t begin = below(200), length = below(13), first = k + 1 + below(8), count = below(20), unsaid = once_in(3) ? VINDERAZ_DEFAULT : 0;
    switch (below(4)) {
    case 0: return any();
    case 1: return any() & ~(uint64_t)1023;
    case 2: return vinderaz_branch(vinderaz_name(begin, length), first, count) | unsaid;
    default: return vinderaz_leaf(vinderaz_name(begin, length), any() >> 48) | unsaid;
    }
}

/* A table that may have any fault: random nodes, or default branches each of which leads to the next. */
static void make_random_table(uint64_t count) {
    bool steps = once_in(4);
    for (uint64_t k = 0; k < count; k++) {
        uint64_t step = k == 0 ? vinderaz_branch(0, 1, 1) : vinderaz_branch(vinderaz_name(0, 1), k + 1, 1) | VINDERAZ_DEFAULT;
        node_words[k] = steps && k < 65535 ? step : random_node(k);
    }
    names_used = 0;
    while (names_used < 220) put_name(once_in(8) ? PICK(stars) : PICK(words));
    if (once_in(40)) {
        while (names_used < MOST_NODES) put_name(PICK(words));
    }
    lend(&nodes, node_words, count);
    lend(&names, name_bytes, names_used);
}

static void make_table(void) {
    static const uint64_t large[] = {1000, 4095, 4096};
    static const uint64_t counts_of_random[] = {0, 1, 2, 8, 40, 300};
    static const uint64_t many[] = {4096, 4097, 5000, 65535, 65536, 65537, 70000};
    if (once_in(800)) {
        uint64_t count = PICK(large), widest = once_in(4) ? 4096 : 2 + below(30);
        make_tree(count, widest, once_in(10));
    } else if (once_in(400)) {
        make_random_table(PICK(many));
    } else if (once_in(12)) {
        make_random_table(PICK(counts_of_random));
    } else {
        uint64_t count = once_in(60) ? 1 : 2 + below(once_in(8) ? 200 : 40), widest = 1 + below(10);
        make_tree(count, widest, once_in(20));
    }

    if (nodes.count > 0 && once_in(6)) {
        uint64_t at = below(least(nodes.count, once_in(3) ? 2 : nodes.count));
        switch (below(5)) {
        case 0: node_words[at] ^= (uint64_t)1 << below(64); break;
        case 1: node_words[at] ^= (uint64_t)1 << (58 + below(5)); break;
        case 2: nodes.count -= 1; break;
        case 3: names.count -= least(names.count, 1 + below(12)); break;
        default:
            at = below(names.count + 1);
            name_bytes[at] = any_byte();
            break;
        }
        lend(&nodes, node_words, nodes.count);
        lend(&names, name_bytes, names.count);
    }
}

/* ---- Calls */

static uint64_t far_word(uint64_t near) {
    static const uint64_t bits[] = {16, 31, 32, 33, 48, 63};
    switch (below(5)) {
    case 0: return UINT64_MAX - below(20);
    case 1: return near + ((uint64_t)1 << PICK(bits));
    case 2: return any();
    case 3: return near;
    default: return below(near + 20);
    }
}

static void fill_slots(uint64_t count) {
    slots.count = count;
    uint64_t from = any();
    for (uint64_t i = 0; i < count; i++) slot_words[i] = mixed(from + i);
}

static uint64_t header_kept;
static void header_form(void) {
    header_kept = is_branch(start) ? start : 0;
    put_header(&header_kept);
}
static void message_form(void) { put_message(true); }
static void any_message_form(void) { put_message(false); }

/* Calls on one table. The check of the table is counted as one of them. */
static void table_calls(void) {
    make_table();
    table_answer = run(F_vinderaz_check);
    uint64_t most = nodes.count > 1000 ? 4 : 2 + below(24);
    for (uint64_t i = 0; i < most && !done(); i++) {
        static const enum function takes[] = {F_vinderaz_resolve, F_vinderaz_resolve_accepted, F_vinderaz_walk, F_vinderaz_walk_accepted};
        enum function f = PICK(takes);
        start = once_in(3) && nodes.count ? below(nodes.count) : 0;
        while (start > 0 && !(is_branch(start) && node_words[start] >> 10 & 0xFFFF) && !once_in(100)) start--;
        if (once_in(30)) start = far_word(once_in(2) ? 0 : nodes.count);
        make_text(is_walk(f) ? message_form : once_in(20) ? message_form : header_form, nodes.count < 100);
        uint64_t few = !once_in(4);
        few += below(is_walk(f) ? 8 : 3);
        fill_slots(once_in(text.count > 1000 ? 2 : 2000) ? MOST_SLOTS : once_in(100) ? 1000 : once_in(8) ? below(40) : few);
        units.count = once_in(40) ? 0 : once_in(4) ? 1 + below(MOST_UNITS) : 1;
        for (uint64_t k = 0; k < MOST_UNITS; k++) unit_words[k] = any();
        run(f);
    }
}

/* The words of a step that none went before. */
static void any_words(void) {
    slots.count = below(13);
    for (uint64_t i = 0; i < 13; i++) slot_words[i] = once_in(2) ? below(3) : any();
    slot_words[VINDERAZ_PLACE] = once_in(3) ? far_word(text.count) : below(text.count + 2);
}

static void begin_words(uint64_t second) {
    fill_slots(VINDERAZ_WORDS + (once_in(4) ? below(5) : 0));
    memset(slot_words, 0, VINDERAZ_WORDS * 8);
    slot_words[1] = second;
}

/* Steps up to the end of the text, or so many; and the step after a refusal, which finds the end. */
static void steps(enum function f) {
    for (uint64_t i = 0; i < 60 && !done(); i++) {
        int32_t answer = run(f);
        bool end = slot_words[VINDERAZ_KIND] == VINDERAZ_END;
        if (answer && !done() && run(f) != 0) fail("the step after a refusal does not find the end");
        if (answer || end) return;
    }
}

static void token_calls(void) {
    bool message = once_in(2);
    make_text(message ? any_message_form : put_data, true);
    if (once_in(5)) {
        for (uint64_t n = 1 + below(4); n > 0 && !done(); n--) {
            any_words();
            run(F_vinderaz_token);
        }
        return;
    }
    begin_words(message);
    steps(F_vinderaz_token);
}

/* The coordinates of a spec: of all lengths of the array, and mostly the one that fits. */
static void coordinate_calls(void) {
    make_text(put_spec, true);
    for (uint64_t n = 1 + below(4); n > 0 && !done(); n--) {
        uint64_t count = once_in(3) ? below(6) : least(dimension(0, text.count), 40);
        fill_slots(once_in(500) ? 5000 : count);
        run(once_in(2) ? F_vinderaz_coordinates : F_vinderaz_unsigned_coordinates);
    }
}

static void channel_calls(void) {
    make_text(put_channels, true);
    if (once_in(6)) {
        for (uint64_t n = 1 + below(4); n > 0 && !done(); n--) {
            any_words();
            run(once_in(3) ? F_vinderaz_channel_list : F_vinderaz_channel);
        }
        return;
    }
    any_words();
    slots.count = VINDERAZ_WORDS + below(3);
    if (run(F_vinderaz_channel_list) == 0 || once_in(4)) steps(F_vinderaz_channel);
}

static void numeric_calls(void) {
    make_text(put_numbers, true);
    if (once_in(6)) {
        any_words();
        run(F_vinderaz_numeric);
        return;
    }
    begin_words(1);
    steps(F_vinderaz_numeric);
}

static void mnemonic_calls(void) {
    const char *w = once_in(8) ? PICK(stars) : PICK(words);
    uint64_t length = strlen(w);
    memcpy(alone_bytes, w, length);
    if (once_in(3)) alone_bytes[length++] = (uint8_t)('0' + below(10));
    if (once_in(8)) length = below(length + 1);
    if (once_in(8)) {
        uint64_t at = below(length + 1);
        alone_bytes[at] = any_byte();
    }
    if (once_in(4000)) {
        for (; length < 65537; length++) alone_bytes[length] = (uint8_t)('A' + length % 3);
    }
    lend(&name, alone_bytes, length);
    for (uint64_t n = 1 + below(6); n > 0 && !done(); n--) {
        text_used = 0;
        if (once_in(8)) put_word();
        else put_spelling(alone_bytes, length);
        lend_text(true);
        run(once_in(2) ? F_vinderaz_mnemonic_match : F_vinderaz_mnemonic_compare);
    }
}

static void print_counts(void) {
    bool seen[REFUSAL_COUNT] = {false};
    for (int f = 0; f < FUNCTION_COUNT; f++) {
        printf("%s: %" PRIu64 " calls, %" PRIu64 " answered%s, %" PRIu64 " %s", function_names[f], counts[f].calls, counts[f].answered,
               is_mnemonic(f) ? " 1" : "", counts[f].refused, is_mnemonic(f) ? "answered 0" : "refused:");
        for (int i = 0; i < REFUSAL_COUNT; i++) {
            if (is_mnemonic(f) || !counts[f].each[i]) continue;
            seen[i] = true;
            printf(" %" PRIi32 " (%" PRIu64 ")", refusals[i], counts[f].each[i]);
        }
        printf("\n");
    }
    int count = 0;
    for (int i = 0; i < REFUSAL_COUNT; i++) count += seen[i];
    printf("refusals: %d of %d seen", count, REFUSAL_COUNT);
    for (int i = 0; i < REFUSAL_COUNT; i++) {
        if (!seen[i]) printf(", not %" PRIi32, refusals[i]);
    }
    printf("\n");
}

#ifdef FUZZ_BARE
int main(void) {
    wanted = FUZZ_CALLS;
    seed = FUZZ_SEED;
#else
int main(int count, char **arguments) {
    char *end_1 = NULL, *end_2 = NULL;
    if (count == 3) {
        wanted = strtoull(arguments[1], &end_1, 10);
        seed = strtoull(arguments[2], &end_2, 10);
    }
    if (count != 3 || wanted == 0 || *end_1 || *end_2) {
        fprintf(stderr, "fuzz N SEED: two numbers, the first not 0\n");
        return 2;
    }
#endif
    generator = mixed(seed);
    reserve(&nodes, "nodes", MOST_NODES, 8, false);
    reserve(&names, "names", MOST_NODES, 1, false);
    reserve(&name, "name", sizeof alone_bytes, 1, false);
    reserve(&text, "text", MOST_BYTES, 1, false);
    reserve(&slots, "slots", MOST_SLOTS, 8, true);
    reserve(&units, "units", MOST_UNITS, 8, true);

#ifndef FUZZ_BARE
    static uint8_t stack[65536];
    stack_t other = {.ss_sp = stack, .ss_size = sizeof stack};
    struct sigaction action = {.sa_handler = caught, .sa_flags = SA_ONSTACK};
    sigaltstack(&other, NULL);
    static const int caught_signals[] = {SIGSEGV, SIGBUS, SIGILL, SIGFPE, SIGALRM};
    for (int i = 0; i < 5; i++) sigaction(caught_signals[i], &action, NULL);
#endif

    while (!done()) {
        switch (below(20)) {
        case 0: case 1: case 2: table_calls(); break;
        case 3: case 4: case 5: case 6: token_calls(); break;
        case 7: case 8: case 9: case 10: coordinate_calls(); break;
        case 11: case 12: case 13: channel_calls(); break;
        case 14: case 15: case 16: numeric_calls(); break;
        default: mnemonic_calls(); break;
        }
    }
    slots.count = slots.size / 8;
    units.count = units.size / 8;
    expect_unused(&slots);
    expect_unused(&units);
    print_counts();
    for (int f = 0; wanted >= 100000 && f < FUNCTION_COUNT; f++) {
        if (counts[f].answered && counts[f].refused) continue;
        fprintf(stderr, "fuzz: %s: no call was %s\n", function_names[f], counts[f].answered ? "refused" : "answered");
        return 1;
    }
    printf("fuzz: %" PRIu64 " calls, checksum %016" PRIx64 "\n", calls, checksum);
    return 0;
}
