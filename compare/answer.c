/* Answers requests over vinderaz.h: a line of standard input each, and for each a line of standard output. README.md has the formats.

   Every array is lent so that a wrong access shows. An array that is only read ends where readable memory ends, and is compared with what it was
   copied from. An array that is written lies between guard words; these, and the words that a call must leave as they were, have a pattern
   before the call and are compared with it after the call. A violation puts a mark into the answer that no right answer has: README.md lists them.

   A new kind of request is a function and its line in `kinds`. */
#define _DEFAULT_SOURCE
#include <errno.h>
#include <signal.h>
#include <stdbool.h>
#include <stdint.h>
#include <stdio.h>
#include <stdlib.h>
#include <string.h>
#include <sys/mman.h>
#include <unistd.h>

#include "vinderaz.h"

/* A line of 600,000 bytes has at most 300,000 bytes in hex, and as many words. */
enum { LINE_MOST = 600000, BYTES_MOST = LINE_MOST / 2, WORDS_MOST = LINE_MOST / 2, SLOTS_MOST = 32768 };

/* Bytes that are only read. */
struct bytes {
    const uint8_t *at;
    uint64_t length;
};

/* ---- The output */

static char output[1 << 16];
static size_t waiting;

static void write_all(const char *from, size_t length) {
    while (length > 0) {
        ssize_t written = write(STDOUT_FILENO, from, length);
        if (written < 0 && errno == EINTR) continue;
        if (written <= 0) _exit(1);
        from += written;
        length -= (size_t)written;
    }
}

static void flush(void) {
    write_all(output, waiting);
    waiting = 0;
}

static void put_bytes(const char *from, size_t length) {
    if (sizeof output - waiting < length) flush();
    memcpy(output + waiting, from, length);
    waiting += length;
}

static void put(const char *text) { put_bytes(text, strlen(text)); }

static void put_number(uint64_t number) {
    char digits[20];
    size_t at = sizeof digits;
    do {
        digits[--at] = (char)('0' + number % 10);
        number /= 10;
    } while (number > 0);
    put_bytes(digits + at, sizeof digits - at);
}

static void put_signed(int64_t number) {
    if (number < 0) put("-");
    put_number(number < 0 ? 0 - (uint64_t)number : (uint64_t)number);
}

/* ---- Lent arrays */

/* Whether a call of this request changed something that it must not change. */
static bool broken;

/* Memory that ends at a page that cannot be accessed, and what was copied to its end last. */
struct fenced {
    uint8_t *end;
    struct bytes from;
};

static struct fenced fenced_nodes, fenced_names, fenced_text, fenced_spec, fenced_item;

static void fence(struct fenced *fenced) {
    size_t page = (size_t)sysconf(_SC_PAGESIZE);
    size_t length = (WORDS_MOST * sizeof(uint64_t) + page - 1) / page * page;
    uint8_t *at = mmap(NULL, length + page, PROT_READ | PROT_WRITE, MAP_PRIVATE | MAP_ANONYMOUS, -1, 0);
    if (at == MAP_FAILED || mprotect(at + length, page, PROT_NONE) != 0) {
        perror("answer");
        exit(2);
    }
    fenced->end = at + length;
}

/* Copies bytes to the end of fenced memory, and answers where they begin there: NULL where there are none. */
static const uint8_t *lend(struct fenced *fenced, struct bytes bytes) {
    fenced->from = bytes;
    if (bytes.length == 0) return NULL;
    return memcpy(fenced->end - bytes.length, bytes.at, bytes.length);
}

/* The bytes that were lent must be as they were. */
static void look(const struct fenced *fenced) {
    uint64_t length = fenced->from.length;
    if (length > 0 && memcmp(fenced->end - length, fenced->from.at, length) != 0) broken = true;
}

/* An access to a page that cannot be accessed ends the program, and the answer of that request is the last line. */
static void stop(int number) {
    (void)number;
    write_all(output, waiting);
    write_all(" guard?\n", 8);
    _exit(1);
}

/* What a word has before it is written. No record word, place or number of units is this. */
#define PATTERN UINT64_C(0xAAAAAAAAAAAAAAAB)

/* Words to be lent, with guard words before and after them. Between two calls every word has the pattern, but for the state of the steps. */
enum { GUARDS = 16 };

struct room {
    uint64_t *all;
    uint64_t most;
};

#define ROOM(name, most) \
    static uint64_t name##_words[GUARDS + (most) + GUARDS]; \
    static const struct room name = { name##_words, most };

ROOM(slot_room, SLOTS_MOST)
ROOM(word_room, 1)
ROOM(step_room, VINDERAZ_WORDS)
ROOM(coordinate_room, 3)

static void fill(uint64_t *words, uint64_t count) {
    for (uint64_t i = 0; i < count; i++) words[i] = PATTERN;
}

static void fill_room(const struct room *room) { fill(room->all, GUARDS + room->most + GUARDS); }

/* Whether every word has the pattern: the first has it, and each other one is as the one before. */
static bool is_filled(const uint64_t *words, uint64_t count) {
    return count == 0 || (words[0] == PATTERN && memcmp(words, words + 1, (count - 1) * sizeof *words) == 0);
}

/* The first words of a room: NULL where there are none. */
static uint64_t *lend_room(const struct room *room, uint64_t count) { return count > 0 ? room->all + GUARDS : NULL; }

/* The words before and after those that were lent must have the pattern. */
static void look_around(const struct room *room, uint64_t count) {
    uint64_t after = GUARDS + count;
    if (!is_filled(room->all, GUARDS) || !is_filled(room->all + after, room->most - count + GUARDS)) {
        broken = true;
        fill(room->all, GUARDS);
        fill(room->all + after, room->most - count + GUARDS);
    }
}

/* ---- The request line */

/* What is left of a line. */
struct line {
    const uint8_t *at, *end;
};

static bool is_white_space(uint8_t byte) { return byte == ' ' || byte == '\t' || byte == '\n' || byte == '\f' || byte == '\r'; }

/* The next field, up to white space or the end of the line; an empty one where none is left. */
static struct bytes field(struct line *line) {
    while (line->at < line->end && is_white_space(*line->at)) line->at++;
    struct bytes taken = { line->at, 0 };
    while (line->at < line->end && !is_white_space(*line->at)) line->at++;
    taken.length = (uint64_t)(line->at - taken.at);
    return taken;
}

static bool is_last(struct line *line) { return field(line).length == 0; }

static bool is_dash(struct bytes field) { return field.length == 1 && field.at[0] == '-'; }

/* The bytes of the texts of a line, one text after the other. */
static uint8_t texts[BYTES_MOST];
static uint64_t texts_length;

/* The value of a hex digit, and 16 for another byte. */
static unsigned digit(uint8_t byte) {
    if (byte >= '0' && byte <= '9') return byte - '0';
    if (byte >= 'A' && byte <= 'F') return byte - 'A' + 10;
    if (byte >= 'a' && byte <= 'f') return byte - 'a' + 10;
    return 16;
}

static bool read_hex(struct bytes field, struct bytes *text) {
    *text = (struct bytes){ texts + texts_length, 0 };
    if (is_dash(field)) return true;
    if (field.length == 0 || field.length % 2 != 0) return false;
    for (uint64_t i = 0; i < field.length; i += 2) {
        unsigned high = digit(field.at[i]), low = digit(field.at[i + 1]);
        if (high > 15 || low > 15) return false;
        texts[texts_length++] = (uint8_t)(high << 4 | low);
    }
    text->length = field.length / 2;
    return true;
}

static bool read_number(struct bytes field, uint64_t *number) {
    uint64_t value = 0;
    for (uint64_t i = 0; i < field.length; i++) {
        unsigned next = digit(field.at[i]);
        if (next > 9 || value > UINT64_MAX / 10 || value * 10 > UINT64_MAX - next) return false;
        value = value * 10 + next;
    }
    *number = value;
    return field.length > 0;
}

static bool take_text(struct line *line, struct bytes *text) { return read_hex(field(line), text); }

static bool take_number(struct line *line, uint64_t *number) { return read_number(field(line), number); }

/* A table as it is lent. */
struct table {
    const uint64_t *nodes;
    uint64_t node_count;
    const uint8_t *names;
    uint64_t names_length;
};

/* Takes a table: decimal words with commas between them or `-`, `/`, and the names in hex. */
static bool take_table(struct line *line, struct table *table) {
    static uint64_t words[WORDS_MOST];
    struct bytes whole = field(line), names;
    const uint8_t *end = whole.at + whole.length, *at = whole.at;
    const uint8_t *slash = whole.length > 0 ? memchr(at, '/', whole.length) : NULL;
    if (slash == NULL) return false;
    uint64_t count = 0;
    if (!is_dash((struct bytes){ at, (uint64_t)(slash - at) })) {
        for (bool more = true; more; count++) {
            const uint8_t *comma = memchr(at, ',', (size_t)(slash - at));
            more = comma != NULL;
            if (!more) comma = slash;
            if (!read_number((struct bytes){ at, (uint64_t)(comma - at) }, &words[count])) return false;
            at = comma + 1;
        }
    }
    if (!read_hex((struct bytes){ slash + 1, (uint64_t)(end - slash - 1) }, &names)) return false;
    table->nodes = (const uint64_t *)(const void *)lend(&fenced_nodes, (struct bytes){ (const uint8_t *)words, count * sizeof *words });
    table->node_count = count;
    table->names = lend(&fenced_names, names);
    table->names_length = names.length;
    return true;
}

static void look_at_table(void) {
    look(&fenced_nodes);
    look(&fenced_names);
}

/* ---- Steps: T and D, C, N */

typedef int32_t step_function(const uint8_t *text, uint64_t text_length, uint64_t *words, uint64_t word_count);

/* How a text is read step by step. */
struct steps {
    step_function *step;
    void (*put_item)(struct bytes text, const uint64_t *words); /* puts the item that a step left in its words */
    bool placed_end;                                            /* whether the end is put with its place */
    bool has_common;                                            /* whether the third word is a part of the state */
};

static int32_t take_step(step_function *step, struct bytes text, uint64_t *words) {
    int32_t code = step(text.at, text.length, words, VINDERAZ_WORDS);
    look_around(&step_room, VINDERAZ_WORDS);
    return code;
}

/* A step must leave 0 in the words from this one on. */
static void look_at_zeros(const uint64_t *words, int from) {
    for (int i = from; i < VINDERAZ_WORDS; i++) {
        if (words[i] != 0) put(" words?");
    }
}

/* After a refusal the place is the end of the text, the state is as it was, and the next step finds the end. */
static void look_at_refusal(const struct steps *steps, struct bytes text, uint64_t *words, const uint64_t *before) {
    for (int turn = 0; turn < 2; turn++) {
        if (words[VINDERAZ_PLACE] != text.length || words[1] != before[1] || words[2] != (steps->has_common ? before[2] : 0)) put(" end?");
        look_at_zeros(words, VINDERAZ_KIND);
        if (turn == 0 && take_step(steps->step, text, words) != 0) put(" end?");
    }
}

/* ` @place` */
static void put_place(const uint64_t *words) {
    put(" @");
    put_number(words[VINDERAZ_PLACE]);
}

/* Puts each item, and then the end or the refusal. A text of n bytes has at most n items. */
static void put_steps(const struct steps *steps, struct bytes text, uint64_t *words) {
    for (uint64_t turn = 0; turn <= text.length; turn++) {
        uint64_t before[VINDERAZ_WORDS];
        memcpy(before, words, sizeof before);
        int32_t code = take_step(steps->step, text, words);
        if (code != 0) {
            put("refused ");
            put_signed(code);
            look_at_refusal(steps, text, words, before);
            break;
        }
        if (words[VINDERAZ_KIND] == VINDERAZ_END) {
            put("end");
            if (steps->placed_end) put_place(words);
            look_at_zeros(words, VINDERAZ_START);
            break;
        }
        steps->put_item(text, words);
        put(" | ");
    }
    look(&fenced_text);
}

/* Takes the last field of a request as a text, and lends it. */
static bool take_last_text(struct line *line, struct bytes *text) {
    if (!take_text(line, text) || !is_last(line)) return false;
    text->at = lend(&fenced_text, *text);
    return true;
}

/* Puts the steps of the text that a request has, from these words on. */
static bool put_text(struct line *line, const struct steps *steps, const uint64_t first[VINDERAZ_WORDS]) {
    struct bytes text;
    if (!take_last_text(line, &text)) return false;
    uint64_t *words = lend_room(&step_room, VINDERAZ_WORDS);
    memcpy(words, first, VINDERAZ_WORDS * sizeof *words);
    put_steps(steps, text, words);
    return true;
}

/* `start..end` */
static void put_view(const uint64_t *view) {
    put_number(view[0]);
    put("..");
    put_number(view[1]);
}

static void put_token(struct bytes text, const uint64_t *words) {
    static const struct {
        const char *name;
        int views;
    } tokens[] = { { "end", 0 }, { "colon", 0 }, { "query", 0 }, { "unitsep", 0 }, { "headersep", 0 }, { "comma", 0 }, { "mnemonic", 1 },
                   { "chars", 1 }, { "number", 1 }, { "suffixed", 2 }, { "radix", 0 }, { "string", 1 }, { "block", 1 }, { "expr", 1 } };
    (void)text;
    uint64_t kind = words[VINDERAZ_KIND];
    if (kind >= sizeof tokens / sizeof tokens[0]) {
        put("words?");
        return;
    }
    put(tokens[kind].name);
    int next = VINDERAZ_START;
    if (kind == VINDERAZ_NON_DECIMAL_NUMERIC_PROGRAM_DATA) {
        put(" ");
        put_number(words[VINDERAZ_VALUE]);
        next = VINDERAZ_VALUE + 1;
    }
    for (int i = 0; i < tokens[kind].views; i++, next += 2) {
        put(" ");
        put_view(words + next);
    }
    look_at_zeros(words, next);
    put_place(words);
    put(words[VINDERAZ_IN_HEADER] == 0 ? " d" : words[VINDERAZ_IN_COMMON] != 0 ? " hc" : " h");
}

static const struct steps token_steps = { vinderaz_token, put_token, true, true };

/* T: the tokens of a message. */
static bool message_tokens(struct line *line) {
    static const uint64_t first[] = VINDERAZ_MESSAGE;
    return put_text(line, &token_steps, first);
}

/* D: the tokens of data alone. */
static bool data_tokens(struct line *line) {
    static const uint64_t first[] = VINDERAZ_DATA;
    return put_text(line, &token_steps, first);
}

static void put_numeric(struct bytes text, const uint64_t *words) {
    (void)text;
    bool range = words[VINDERAZ_KIND] == VINDERAZ_NUMERIC_RANGE;
    if (!range && words[VINDERAZ_KIND] != VINDERAZ_NUMERIC) put("words?");
    put(range ? "range number " : "number ");
    put_view(words + VINDERAZ_START);
    if (range) {
        put(" to number ");
        put_view(words + VINDERAZ_START_2);
    } else {
        look_at_zeros(words, VINDERAZ_START_2);
    }
    put_place(words);
}

static const struct steps numeric_steps = { vinderaz_numeric, put_numeric, false, false };

/* N: the items of a numeric list. */
static bool numeric_list(struct line *line) {
    static const uint64_t first[] = VINDERAZ_NUMERIC_LIST;
    return put_text(line, &numeric_steps, first);
}

/* ---- Channel lists */

/* Reads a spec as that many coordinates, into the first words of the coordinate room. */
static int32_t read_coordinates(struct fenced *fenced, struct bytes spec, uint64_t count, bool is_unsigned) {
    const uint8_t *at = lend(fenced, spec);
    uint64_t *words = lend_room(&coordinate_room, count);
    int32_t code = is_unsigned ? vinderaz_unsigned_coordinates(at, spec.length, words, count)
                               : vinderaz_coordinates(at, spec.length, (int64_t *)words, count);
    look_around(&coordinate_room, count);
    look(fenced);
    if (code != 0 && !is_filled(words, count)) put("slot?");
    return code;
}

/* `X`, `(X,Y)` or `(X,Y,Z)`; `!N` for a refusal. */
static void put_coordinates(struct fenced *fenced, struct bytes spec, uint64_t count, bool is_unsigned) {
    int32_t code = read_coordinates(fenced, spec, count, is_unsigned);
    uint64_t *words = lend_room(&coordinate_room, count);
    if (code != 0) {
        put("!");
        put_signed(code);
    } else {
        for (uint64_t i = 0; i < count; i++) {
            put(i > 0 ? "," : count > 1 ? "(" : "");
            if (is_unsigned) {
                put_number(words[i]);
            } else {
                put_signed((int64_t)words[i]);
            }
        }
        if (count > 1) put(")");
    }
    fill(words, count);
}

/* The next item of a spec from a place on: after a `!` or none, a sign or none and digits. The library has no step over the items of a spec. */
static struct bytes item_of(struct bytes spec, uint64_t *place) {
    uint64_t at = *place;
    if (spec.at[at] == '!') at++;
    struct bytes item = { spec.at + at, 0 };
    if (at < spec.length && (spec.at[at] == '+' || spec.at[at] == '-')) at++;
    while (at < spec.length && digit(spec.at[at]) < 10) at++;
    item.length = (uint64_t)(spec.at + at - item.at);
    *place = at;
    return item;
}

/* `a,b,..`: the items of a spec, each read as one coordinate, up to a refusal. */
static void put_items(struct bytes spec) {
    for (uint64_t place = 0; place < spec.length;) {
        if (place > 0) put(",");
        struct bytes item = item_of(spec, &place);
        uint64_t *value = lend_room(&coordinate_room, 1);
        int32_t code = read_coordinates(&fenced_item, item, 1, false);
        if (code != 0) {
            put("!");
            put_signed(code);
            place = spec.length;
        } else {
            put_signed((int64_t)*value);
        }
        fill(value, 1);
    }
}

/* `(start,length,dimension) items [a,b,..] i X u X ii X uu X iii X uuu X` */
static void put_spec(struct bytes text, const uint64_t *view, uint64_t dimension) {
    static const char *const forms[] = { " i ", " u ", " ii ", " uu ", " iii ", " uuu " };
    if (view[0] > view[1] || view[1] > text.length) {
        put("view?");
        return;
    }
    struct bytes spec = { text.at + view[0], view[1] - view[0] };
    put("(");
    put_number(view[0]);
    put(",");
    put_number(spec.length);
    put(",");
    put_number(dimension);
    put(") items [");
    put_items(spec);
    put("]");
    for (uint64_t i = 0; i < 6; i++) {
        put(forms[i]);
        put_coordinates(&fenced_spec, spec, i / 2 + 1, i % 2 == 1);
    }
}

static void put_channel(struct bytes text, const uint64_t *words) {
    uint64_t dimension = words[VINDERAZ_DIMENSION];
    switch (words[VINDERAZ_KIND]) {
    case VINDERAZ_CHANNEL_SPEC:
        put("spec ");
        put_spec(text, words + VINDERAZ_START, dimension);
        look_at_zeros(words, VINDERAZ_START_2);
        break;
    case VINDERAZ_CHANNEL_RANGE:
        put("range ");
        put_spec(text, words + VINDERAZ_START, dimension);
        put(" to ");
        put_spec(text, words + VINDERAZ_START_2, dimension);
        break;
    case VINDERAZ_PATH_NAME:
        put("path ");
        put_view(words + VINDERAZ_START);
        if (dimension != 0) put(" words?");
        look_at_zeros(words, VINDERAZ_START_2);
        break;
    default: put("words?");
    }
    put_place(words);
}

static const struct steps channel_steps = { vinderaz_channel, put_channel, true, false };

/* C: the items of a channel list; `none` for a text that is not one. */
static bool channel_list(struct line *line) {
    struct bytes text;
    if (!take_last_text(line, &text)) return false;
    uint64_t *words = lend_room(&step_room, VINDERAZ_WORDS);
    fill(words, VINDERAZ_WORDS);
    int32_t code = take_step(vinderaz_channel_list, text, words);
    look(&fenced_text);
    if (code == 0) {
        look_at_zeros(words, VINDERAZ_DIMENSION);
        put_steps(&channel_steps, text, words);
        return true;
    }
    put("none");
    if (code != VINDERAZ_INVALID_EXPRESSION) put(" words?");
    uint64_t opened[VINDERAZ_WORDS];
    memcpy(opened, words, sizeof opened);
    look_at_refusal(&channel_steps, text, words, opened);
    return true;
}

/* ---- Names, tables, headers and messages */

/* M, a name and a mnemonic: what mnemonic_match and mnemonic_compare answer. */
static bool names(struct line *line) {
    struct bytes name, mnemonic;
    if (!take_text(line, &name) || !take_text(line, &mnemonic) || !is_last(line)) return false;
    const uint8_t *name_at = lend(&fenced_names, name), *mnemonic_at = lend(&fenced_text, mnemonic);
    put("match ");
    put_signed(vinderaz_mnemonic_match(name_at, name.length, mnemonic_at, mnemonic.length));
    put(" compare ");
    put_signed(vinderaz_mnemonic_compare(name_at, name.length, mnemonic_at, mnemonic.length));
    look(&fenced_names);
    look(&fenced_text);
    return true;
}

/* F, a table: `accepted`, or `fault` and its number. */
static bool check(struct line *line) {
    struct table table;
    if (!take_table(line, &table) || !is_last(line)) return false;
    int32_t code = vinderaz_check(table.nodes, table.node_count, table.names, table.names_length);
    look_at_table();
    put(code == 0 ? "accepted" : "fault ");
    if (code != 0) put_signed(code);
    return true;
}

static void put_form(uint64_t word) { put(VINDERAZ_QUERY(word) ? " query" : " event"); }

/* A, a table, a start and a header: `command N event branch B`, with `query` for a query, or `refused` and its number. */
static bool resolve(struct line *line) {
    struct table table;
    uint64_t start;
    struct bytes text;
    if (!take_table(line, &table) || !take_number(line, &start) || !take_last_text(line, &text)) return false;
    uint64_t *slot = lend_room(&word_room, 1);
    int32_t code =
        vinderaz_resolve(table.nodes, table.node_count, table.names, table.names_length, start, text.at, text.length, slot, 1);
    look_around(&word_room, 1);
    look_at_table();
    look(&fenced_text);
    uint64_t word = *slot;
    fill(slot, 1);
    if (code != 0) {
        put("refused ");
        put_signed(code);
        if (word != PATTERN) put(" slot?");
    } else if (word % (UINT64_C(1) << 31) != 0) {
        put("slot?");
    } else {
        put("command ");
        put_number(VINDERAZ_COMMAND(word));
        put_form(word);
        put(" branch ");
        put_number(VINDERAZ_KEPT(word));
    }
    return true;
}

static void put_unit(uint64_t word) {
    if (word % (UINT64_C(1) << 15) != 0) {
        put("slot? | ");
        return;
    }
    put("unit ");
    put_number(VINDERAZ_COMMAND(word));
    put_form(word);
    put(" items ");
    put_number(VINDERAZ_ITEMS(word));
    put(" branch ");
    put_number(VINDERAZ_KEPT(word));
    put(" | ");
}

/* The units of a message with that many slots, then `end` or `refused` with its number, and how many units were written. */
static void put_walk(const struct table *table, uint64_t start, struct bytes text, uint64_t slot_count) {
    uint64_t *slots = lend_room(&slot_room, slot_count), *units = lend_room(&word_room, 1);
    int32_t code = vinderaz_walk(table->nodes, table->node_count, table->names, table->names_length, start, text.at, text.length, slots,
                                 slot_count, units, 1);
    look_around(&slot_room, slot_count);
    look_around(&word_room, 1);
    look_at_table();
    look(&fenced_text);
    uint64_t count = *units;
    fill(units, 1);
    if (count > slot_count) {
        put("units? | ");
        count = 0;
    }
    for (uint64_t i = 0; i < count; i++) put_unit(slots[i]);
    if (slot_count > count && !is_filled(slots + count, slot_count - count)) {
        put("slot? | ");
        fill(slots + count, slot_count - count);
    }
    fill(slots, count);
    put(code == 0 ? "end " : "refused ");
    if (code != 0) {
        put_signed(code);
        put(" ");
    }
    put_number(count);
}

/* S, a table, a start and a message: its units with 32,768 slots. */
static bool walk(struct line *line) {
    struct table table;
    uint64_t start;
    struct bytes text;
    if (!take_table(line, &table) || !take_number(line, &start) || !take_last_text(line, &text)) return false;
    put_walk(&table, start, text, SLOTS_MOST);
    return true;
}

/* W, a table, a start, a number of slots and a message: its units with that many slots. */
static bool walk_slots(struct line *line) {
    struct table table;
    uint64_t start, slot_count;
    struct bytes text;
    if (!take_table(line, &table) || !take_number(line, &start) || !take_number(line, &slot_count) || slot_count > SLOTS_MOST ||
        !take_last_text(line, &text))
        return false;
    put_walk(&table, start, text, slot_count);
    return true;
}

/* ---- The kinds of requests

   A kind puts its answer without a newline. For a line that is none of its requests it answers false, and has put nothing. */
static const struct {
    char letter;
    bool (*answer)(struct line *line);
} kinds[] = {
    { 'T', message_tokens }, { 'D', data_tokens }, { 'C', channel_list }, { 'N', numeric_list }, { 'M', names },
    { 'F', check },          { 'A', resolve },     { 'S', walk },         { 'W', walk_slots },
};

static bool answer(struct line line) {
    struct bytes letter = field(&line);
    if (letter.length != 1) return false;
    for (size_t i = 0; i < sizeof kinds / sizeof kinds[0]; i++) {
        if (kinds[i].letter == (char)letter.at[0]) return kinds[i].answer(&line);
    }
    return false;
}

/* A line that is too long is no request. */
static void put_answer(const uint8_t *at, uint64_t length, bool too_long) {
    texts_length = 0;
    broken = false;
    if (too_long || length > LINE_MOST || !answer((struct line){ at, at + length })) put("request?");
    if (broken) put(" guard?");
    put("\n");
}

int main(void) {
    static uint8_t input[1 << 20];
    size_t held = 0;
    bool too_long = false;
    struct sigaction action = { .sa_handler = stop };
    sigaction(SIGSEGV, &action, NULL);
    sigaction(SIGBUS, &action, NULL);
    fence(&fenced_nodes);
    fence(&fenced_names);
    fence(&fenced_text);
    fence(&fenced_spec);
    fence(&fenced_item);
    fill_room(&slot_room);
    fill_room(&word_room);
    fill_room(&step_room);
    fill_room(&coordinate_room);
    for (;;) {
        /* The answers are written before the program waits for requests: a caller may send the next one after it has read an answer. */
        flush();
        ssize_t got = read(STDIN_FILENO, input + held, sizeof input - held);
        if (got < 0 && errno == EINTR) continue;
        if (got < 0) return 1;
        if (got == 0) break;
        const uint8_t *at = input, *from = input + held, *end = from + got, *newline;
        while ((newline = memchr(from, '\n', (size_t)(end - from))) != NULL) {
            put_answer(at, (uint64_t)(newline - at), too_long);
            too_long = false;
            at = from = newline + 1;
        }
        held = (size_t)(end - at);
        if (held > LINE_MOST) {
            too_long = true;
            held = 0;
        }
        memmove(input, at, held);
    }
    if (held > 0 || too_long) put_answer(input, held, too_long);
    flush();
    return 0;
}
