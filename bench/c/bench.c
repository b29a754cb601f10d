/* bench count|stack|check DIR: this library on the rows of DIR/plan, which inputs.c writes.
     count  calls each row twice, with a mark before and behind the second call, and prints its answer
     stack  calls each row on a painted stack, and prints how many bytes of it were written
     check  prints the verdict on each table
   What stands between the marks of the first row, which does nothing, is the program's own. rust/src/main.rs is the other side. */
#include "vinderaz.h"

#include <stdio.h>
#include <stdlib.h>
#include <string.h>
#include <unistd.h>

enum { SLOTS = 32768, STACK = 8 << 20, PAINT = 0xA5 };

struct row {
    char name[100];
    void (*run)(struct row *);
    const uint64_t *nodes;
    const uint8_t *names, *text;
    size_t node_count, names_length, length;
    /* the answer: the refusal or 0, units, tokens or items, and a sum over what was read */
    int32_t code;
    uint64_t units, count, sum;
};

static uint64_t slots[SLOTS];

static void nothing(struct row *r) { (void)r; }

/* ---- The rows: each calls the library as a card does. */

static void walk(struct row *r) {
    r->code = vinderaz_walk_accepted(r->nodes, r->node_count, r->names, r->names_length, 0, r->text, r->length, slots, SLOTS, &r->units, 1);
}

static void resolve(struct row *r) {
    r->code = vinderaz_resolve_accepted(r->nodes, r->node_count, r->names, r->names_length, 0, r->text, r->length, slots, 1);
    r->units = r->code == 0;
}

static void tokens(struct row *r, uint64_t *w) {
    uint64_t count = 0, sum = 0;
    while (!(r->code = vinderaz_token(r->text, r->length, w, VINDERAZ_WORDS)) && w[VINDERAZ_KIND] != VINDERAZ_END) {
        count++;
        sum += w[VINDERAZ_KIND] + w[VINDERAZ_START] + 2 * w[VINDERAZ_STOP] + 4 * w[VINDERAZ_START_2] + 8 * w[VINDERAZ_STOP_2];
    }
    r->count = count;
    r->sum = sum;
}

static void message(struct row *r) {
    uint64_t w[] = VINDERAZ_MESSAGE;
    tokens(r, w);
}

static void data(struct row *r) {
    uint64_t w[] = VINDERAZ_DATA;
    tokens(r, w);
}

/* The coordinates of a spec, and their sum. */
static inline int32_t coordinates(const uint8_t *spec, size_t length, size_t dimension, bool is_signed, uint64_t *sum) {
    uint64_t at[3];
    int32_t code = is_signed ? vinderaz_coordinates(spec, length, (int64_t *)at, dimension)
                             : vinderaz_unsigned_coordinates(spec, length, at, dimension);
    if (!code) {
        *sum += at[0];
        if (dimension > 1)
            *sum += 2 * at[1];
        if (dimension > 2)
            *sum += 4 * at[2];
    }
    return code;
}

static inline int32_t channels(const uint8_t *text, size_t length, bool is_signed, uint64_t *count, uint64_t *sum) {
    uint64_t w[VINDERAZ_WORDS];
    int32_t code = vinderaz_channel_list(text, length, w, VINDERAZ_WORDS);
    while (!code && !(code = vinderaz_channel(text, length, w, VINDERAZ_WORDS)) && w[VINDERAZ_KIND] != VINDERAZ_END) {
        ++*count;
        *sum += w[VINDERAZ_KIND];
        code = coordinates(text + w[VINDERAZ_START], w[VINDERAZ_STOP] - w[VINDERAZ_START], w[VINDERAZ_DIMENSION], is_signed, sum);
        if (!code && w[VINDERAZ_KIND] == VINDERAZ_CHANNEL_RANGE)
            code = coordinates(text + w[VINDERAZ_START_2], w[VINDERAZ_STOP_2] - w[VINDERAZ_START_2], w[VINDERAZ_DIMENSION], is_signed, sum);
    }
    return code;
}

static void signed_channels(struct row *r) {
    uint64_t count = 0, sum = 0;
    r->code = channels(r->text, r->length, true, &count, &sum);
    r->count = count;
    r->sum = sum;
}

static void unsigned_channels(struct row *r) {
    uint64_t count = 0, sum = 0;
    r->code = channels(r->text, r->length, false, &count, &sum);
    r->count = count;
    r->sum = sum;
}

/* The walk tells the commands; the channel lists among the items are then read off the tokens. */
static void relays(struct row *r) {
    uint64_t w[] = VINDERAZ_MESSAGE, count = 0, sum = 0;
    walk(r);
    while (!r->code && !(r->code = vinderaz_token(r->text, r->length, w, VINDERAZ_WORDS)) && w[VINDERAZ_KIND] != VINDERAZ_END)
        if (w[VINDERAZ_KIND] == VINDERAZ_EXPRESSION_PROGRAM_DATA)
            r->code = channels(r->text + w[VINDERAZ_START], w[VINDERAZ_STOP] - w[VINDERAZ_START], false, &count, &sum);
    r->count = count;
    r->sum = sum;
}

static void numeric(struct row *r) {
    uint64_t w[] = VINDERAZ_NUMERIC_LIST, count = 0, sum = 0;
    while (!(r->code = vinderaz_numeric(r->text, r->length, w, VINDERAZ_WORDS)) && w[VINDERAZ_KIND] != VINDERAZ_END) {
        count++;
        sum += w[VINDERAZ_KIND] + w[VINDERAZ_START] + 2 * w[VINDERAZ_STOP] + 4 * w[VINDERAZ_START_2] + 8 * w[VINDERAZ_STOP_2];
    }
    r->count = count;
    r->sum = sum;
}

static void match(struct row *r) { r->count = vinderaz_mnemonic_match(r->names, r->names_length, r->text, r->length); }

static const struct {
    const char *kind;
    void (*run)(struct row *);
} kinds[] = {
    {"walk", walk}, {"resolve", resolve}, {"relays", relays}, {"message", message}, {"tokens", data}, {"unsigned", unsigned_channels},
    {"signed", signed_channels}, {"numeric", numeric}, {"match", match},
};

/* ---- Reading the plan */

static const char *dir;

static _Noreturn void fail(const char *what) {
    perror(what);
    exit(2);
}

static void *load(const char *name, const char *ending, size_t *length) {
    char path[1024];
    snprintf(path, sizeof path, "%s/%s%s", dir, name, ending);
    FILE *f = fopen(path, "rb");
    if (!f)
        fail(path);
    uint8_t *bytes = malloc(1 << 16);
    *length = fread(bytes, 1, 1 << 16, f);
    if (ferror(f) || fclose(f))
        fail(path);
    return bytes;
}

static void load_table(struct row *r, const char *table) {
    r->nodes = load(table, ".nodes", &r->node_count);
    r->node_count /= sizeof *r->nodes;
    r->names = load(table, ".names", &r->names_length);
}

static struct row read_row(char *line) {
    struct row r = {0};
    char *field[5];
    for (int i = 0; i < 5; i++)
        if (!(field[i] = strtok(i ? NULL : line, "\t\n")))
            fail("plan");
    snprintf(r.name, sizeof r.name, "%s: %s", field[0], field[1]);
    for (size_t i = 0; i < sizeof kinds / sizeof *kinds; i++)
        if (!strcmp(kinds[i].kind, field[2]))
            r.run = kinds[i].run;
    if (!r.run)
        fail(field[2]);
    if (r.run == match) {
        r.names = (uint8_t *)strdup(field[3]);
        r.names_length = strlen(field[3]);
        r.text = (uint8_t *)strdup(field[4]);
        r.length = strlen(field[4]);
        return r;
    }
    if (strcmp(field[3], "-"))
        load_table(&r, field[3]);
    r.text = load(field[4], "", &r.length);
    return r;
}

/* ---- Marks and the painted stack */

/* What is counted is what is executed from one entry of this function to the next. The counter of Arm machines knows it by the call of getpid. */
__attribute__((noinline)) void bench_mark(void) { getpid(); }

static void count(struct row *r) {
    void (*volatile run)(struct row *) = r->run;
    run(r);
    bench_mark();
    run(r);
    bench_mark();
}

void bench_on(void *top, void (*run)(struct row *), struct row *r);
__asm__(".globl bench_on\n"
        "bench_on: push %rbp\n mov %rsp, %rbp\n mov %rdi, %rsp\n mov %rdx, %rdi\n call *%rsi\n mov %rbp, %rsp\n pop %rbp\n ret\n");

static size_t stack(struct row *r) {
    static uint8_t area[STACK] __attribute__((aligned(16)));
    memset(area, PAINT, STACK);
    bench_on(area + STACK, r->run, r);
    size_t i = 0;
    while (i < STACK && area[i] == PAINT)
        i++;
    return STACK - i;
}

int main(int n, char **arguments) {
    if (n != 3) {
        fprintf(stderr, "usage: bench count|stack|check DIR\n");
        return 2;
    }
    const char *mode = arguments[1];
    char line[500], path[1024];
    dir = arguments[2];
    snprintf(path, sizeof path, "%s/plan", dir);
    FILE *plan = fopen(path, "r");
    if (!plan)
        fail(path);
    struct row r = {.run = nothing};
    if (!strcmp(mode, "count"))
        count(&r);
    while (fgets(line, sizeof line, plan)) {
        r = read_row(line);
        if (!strcmp(mode, "check")) {
            if (r.node_count)
                printf("%s\t%d\n", r.name, vinderaz_check(r.nodes, r.node_count, r.names, r.names_length));
            continue;
        }
        if (!strcmp(mode, "stack")) {
            printf("%s\t%zu\n", r.name, stack(&r));
            continue;
        }
        count(&r);
        for (size_t i = 0; i < r.units; i++)
            r.sum += (i + 1) * (3 * VINDERAZ_COMMAND(slots[i]) + 2 * VINDERAZ_ITEMS(slots[i]) + VINDERAZ_QUERY(slots[i]));
        printf("%s\t%d %llu %llu %llu\n", r.name, r.code, (unsigned long long)r.units, (unsigned long long)r.count, (unsigned long long)r.sum);
    }
    return 0;
}
