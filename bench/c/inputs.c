/* inputs DIR: writes the tables and texts that both sides read, and DIR/plan with a line for each row: group, name, kind, table and
   text, with tabs between. Of a table there are the node words, NAME.nodes, and the text of its names, NAME.names; a text is a file.
   The row of a match has the name and the word themselves. The same files come out each time. */
#include "vinderaz.h"

#include <stdarg.h>
#include <stdio.h>
#include <stdlib.h>
#include <string.h>

static const char *dir, *group;
static FILE *plan;

static FILE *create(const char *name, const char *ending) {
    char path[1024];
    snprintf(path, sizeof path, "%s/%s%s", dir, name, ending);
    FILE *f = fopen(path, "wb");
    if (!f) {
        perror(path);
        exit(2);
    }
    return f;
}

static void finish(FILE *f) {
    if (ferror(f) | fclose(f)) {
        perror("inputs");
        exit(2);
    }
}

static void row(const char *name, const char *kind, const char *table, const char *text) {
    fprintf(plan, "%s\t%s\t%s\t%s\t%s\n", group, name, kind, table, text);
}

/* A row with a text of its own, kept in the file FILE. */
static void row_of(const char *name, const char *kind, const char *table, const char *file, const char *text) {
    FILE *f = create(file, "");
    fwrite(text, 1, strlen(text), f);
    finish(f);
    row(name, kind, table, file);
}

static uint32_t state;

static unsigned below(unsigned n) {
    state = state * 1664525 + 1013904223;
    return (uint64_t)state * n >> 32;
}

/* ---- Tables */

static uint64_t nodes[4096];
static size_t node_count;
static char names[65536];
static size_t names_length;
static char spoken[4097][16]; /* the short form of each node's name; behind the last node one that is no node's */

static void table_begin(void) {
    state = 1;
    node_count = names_length = 0;
}

static uint64_t name_of(const char *name) {
    uint64_t field = vinderaz_name(names_length, strlen(name));
    strcpy(names + names_length, name);
    names_length += strlen(name);
    return field;
}

static void table_end(const char *table) {
    FILE *f = create(table, ".nodes");
    fwrite(nodes, sizeof *nodes, node_count, f);
    finish(f);
    f = create(table, ".names");
    fwrite(names, 1, names_length, f);
    finish(f);
}

/* Names of four random capitals, none twice, and three small letters; or CHANnel1, CHANnel2 and so on. */
static uint64_t new_name(size_t i, int numbered) {
    char name[20];
    if (numbered) {
        snprintf(name, sizeof name, "CHANnel%zu", i);
        snprintf(spoken[i], sizeof *spoken, "CHAN%zu", i);
        return name_of(name);
    }
    static char used[26 * 26 * 26 * 26];
    if (i == 1)
        memset(used, 0, sizeof used);
    unsigned n;
    do
        n = below(sizeof used);
    while (used[n]);
    used[n] = 1;
    unsigned part[4] = {n / 17576, n / 676 % 26, n / 26 % 26, n % 26};
    for (int k = 0; k < 7; k++)
        name[k] = k < 4 ? 'A' + part[k] : 'a' + below(26);
    name[7] = 0;
    snprintf(spoken[i], sizeof *spoken, "%.4s", name);
    return name_of(name);
}

/* A root with leaves. */
static void wide(size_t n, int numbered) {
    table_begin();
    nodes[node_count++] = vinderaz_branch(0, 1, n - 1);
    for (size_t i = 1; i < n; i++)
        nodes[node_count++] = vinderaz_leaf(new_name(i, numbered), i);
    new_name(n, numbered);
}

/* Eight children to a branch, breadth first; the first child of the root is default. */
static void tree(size_t n, int numbered) {
    table_begin();
    for (size_t i = 0; i < n; i++) {
        size_t first = 8 * i + 1, count = first >= n ? 0 : n - first < 8 ? n - first : 8;
        uint64_t name = i ? new_name(i, numbered) : 0;
        nodes[node_count++] = count ? vinderaz_branch(name, first, count) : vinderaz_leaf(name, i);
    }
    nodes[1] |= VINDERAZ_DEFAULT;
    new_name(n, numbered);
}

/* A root, default branches one in the other, and a leaf. */
static void chain(size_t depth) {
    table_begin();
    nodes[node_count++] = vinderaz_branch(0, 1, 1);
    for (size_t i = 1; i <= depth; i++)
        nodes[node_count++] = VINDERAZ_DEFAULT | vinderaz_branch(new_name(i, 0), i + 1, 1);
    nodes[node_count++] = vinderaz_leaf(new_name(depth + 1, 0), 1);
}

/* The words that lead to a node of the tree. */
static void path(char *to, size_t i) {
    if (i > 8) {
        path(to, (i - 1) / 8);
        strcat(to, ":");
    }
    strcat(to, spoken[i]);
}

static void tables(void) {
    static const size_t sizes[] = {10, 100, 1000, 4096};
    static const char *const kinds[] = {"random", "CHANnel"};
    char table[40], file[60], text[200], name[80];
    for (int shape = 0; shape < 2; shape++)
        for (int numbered = 0; numbered < 2; numbered++) {
            char title[80];
            snprintf(title, sizeof title, "%s, %s names", shape ? "Tree of eight children a branch" : "Root with leaves", kinds[numbered]);
            group = title;
            for (int s = 0; s < 4; s++) {
                size_t n = sizes[s];
                snprintf(table, sizeof table, "%s-%s-%zu", shape ? "tree" : "wide", kinds[numbered], n);
                (shape ? tree : wide)(n, numbered);
                table_end(table);
                static const char *const where[] = {"first", "last", "unknown"};
                for (int w = 0; w < 3; w++) {
                    size_t leaf = n - 1;
                    if (w == 0)
                        for (leaf = 1; shape && 8 * leaf + 1 < n;)
                            leaf = 8 * leaf + 1;
                    *text = 0;
                    if (w == 2)
                        strcpy(text, spoken[n]);
                    else if (shape)
                        path(text, leaf);
                    else
                        strcpy(text, spoken[leaf]);
                    snprintf(file, sizeof file, "%s-%s", table, where[w]);
                    snprintf(name, sizeof name, "%zu nodes, %s", n, where[w]);
                    row_of(name, "resolve", table, file, text);
                }
            }
        }
    group = "Default branches unsaid";
    static const size_t depths[] = {10, 100, 1000, 4000};
    for (int s = 0; s < 4; s++) {
        snprintf(table, sizeof table, "chain-%zu", depths[s]);
        chain(depths[s]);
        table_end(table);
        snprintf(file, sizeof file, "%s-leaf", table);
        snprintf(name, sizeof name, "chain of %zu", depths[s]);
        row_of(name, "resolve", table, file, spoken[depths[s] + 1]);
    }
    /* A word with a 1 added is not told letter by letter. */
    char added[sizeof spoken[0] + 1];
    snprintf(added, sizeof added, "%.15s1", spoken[depths[3] + 1]);
    row_of("chain of 4000, 1 added", "resolve", table, "chain-4000-added", added);
}

/* The table of the program commandcheck. */
static void card(void) {
    table_begin();
    nodes[node_count++] = vinderaz_branch(0, 1, 4);
    nodes[node_count++] = vinderaz_leaf(name_of("*IDN"), 1);
    nodes[node_count++] = vinderaz_branch(name_of("ROUTe"), 5, 2);
    nodes[node_count++] = VINDERAZ_DEFAULT | vinderaz_branch(name_of("SENSe"), 7, 2);
    nodes[node_count++] = vinderaz_leaf(name_of("ABORt"), 2);
    nodes[node_count++] = vinderaz_leaf(name_of("CLOSe"), 3);
    nodes[node_count++] = vinderaz_leaf(name_of("OPEN"), 4);
    nodes[node_count++] = vinderaz_branch(name_of("VOLTage"), 9, 2);
    nodes[node_count++] = vinderaz_leaf(name_of("CURRent"), 5);
    nodes[node_count++] = VINDERAZ_DEFAULT | vinderaz_leaf(name_of("DC"), 6);
    nodes[node_count++] = vinderaz_leaf(name_of("AC2"), 7);
    table_end("card");
}

/* ---- Texts of 4,096 and of 60,000 bytes at most, made of pieces with a separator between */

static char text[65536];
static size_t length;

/* Writes a form, in which %d, %X and %o stand for random numbers below the arguments, and %c and %s for the arguments themselves. */
static void say(const char *form, ...) {
    va_list list;
    va_start(list, form);
    for (; *form; form++)
        if (*form != '%')
            text[length++] = *form;
        else if (*++form == 'c')
            text[length++] = va_arg(list, int);
        else if (*form == 's')
            length += sprintf(text + length, "%s", va_arg(list, const char *));
        else {
            unsigned n = below(va_arg(list, unsigned));
            length += sprintf(text + length, *form == 'd' ? "%u" : *form == 'X' ? "%X" : "%o", n);
        }
    va_end(list);
}

static void letters(size_t n) {
    for (; n; n--)
        text[length++] = "abcdefghijklmnopqrstuvwxyz ABCDEF,;:.012"[below(40)];
}

/* A unit of relay commands; each starts where the one before ended. */
static void relay(size_t i) {
    switch (i % 6) {
    case 0: say(":ROUT:CLOS (@%d!%d,%d!%d)", 100, 100, 100, 100); break;
    case 1: say("OPEN (@%d)", 100); break;
    case 2: say("CLOS (@%d!%d:%d!%d)", 100, 100, 100, 100); break;
    case 3: say("*IDN?"); break;
    case 4: say(":ROUTE:OPEN (@%d,%d,%d:%d)", 100, 100, 100, 100); break;
    case 5: say("close (@%d)", 100); break;
    }
}

static void mixed(size_t i) {
    switch (i % 10) {
    case 0: say(":SENS:VOLT:DC %d.%dE-3,%d mV", 10, 1000, 1000); break;
    case 1: say("AC2? MAX"); break;
    case 2: say(":CURR %d,-%d.%d", 1000, 10, 100); break;
    case 3: say(":ABOR"); break;
    case 4:
        say(":VOLT \"");
        letters(4 + below(30));
        say("\",1");
        break;
    case 5: say("*IDN?"); break;
    case 6: say(":SENSE:CURRENT #H%X,#Q%o", 65536, 4096); break;
    case 7: say(":ROUT:CLOS (@%d!%d,%d)", 100, 100, 100); break;
    case 8:
        say(":CURR #212");
        letters(12);
        break;
    case 9: say(":VOLT? MIN, DEF ,%d", 100); break;
    }
}

static void path_in_tree(size_t i) {
    (void)i;
    char to[200] = "";
    path(to, 125 + below(875));
    say(":%s%s", to, below(3) ? "" : "?");
}

static void spec(size_t i) {
    (void)i;
    say("%d", 100);
}

static void pair(size_t i) {
    (void)i;
    say("%d!%d", 100, 100);
}

static void range(size_t i) {
    if (i % 2)
        say("%d:%d", 100, 100);
    else
        say("%d!%d:%d!%d", 100, 100, 100, 100);
}

static void number(size_t i) {
    switch (i % 5) {
    case 0: say("%d", 1000); break;
    case 1: say("-%d.%d", 100, 1000); break;
    case 2: say("%d.%dE%d", 10, 100000, 12); break;
    case 3: say("+%d", 1000000); break;
    case 4: say("0.%dE-%d", 1000, 9); break;
    }
}

static void numeric(size_t i) {
    if (i % 3 == 2)
        say("%d:%d", 100, 10000);
    else
        number(i);
}

static void suffixed(size_t i) {
    static const char *const units[] = {"V", "mV", "MHz", "S", "V/S"};
    say("%d.%d%s%s", 100, 100, i % 2 ? " " : "", units[i % 5]);
}

static void radix(size_t i) {
    switch (i % 3) {
    case 0: say("#H%X", 1 << 24); break;
    case 1: say("#Q%o", 1 << 15); break;
    case 2:
        say("#B1");
        for (int k = 0; k < 9; k++)
            say("%d", 2);
        break;
    }
}

static void string(size_t i) {
    char quote = i % 4 ? '"' : '\'';
    say("%c", quote);
    letters(4 + below(40));
    if (i % 3 == 0) {
        say("%c%c", quote, quote);
        letters(5);
    }
    say("%c", quote);
}

static void block(size_t i) {
    (void)i;
    size_t n = 10 + below(90);
    say("#2%c%c", '0' + n / 10, '0' + n % 10);
    letters(n);
}

static void word(size_t i) {
    static const char *const words[] = {"MAX", "MINimum", "DEF", "ON", "OFF", "INFinity", "CH1"};
    (void)i;
    say("%s", words[below(7)]);
}

static void expression(size_t i) {
    say("(");
    if (i % 2)
        say("@%d!%d,%d", 100, 100, 100);
    else
        say("%d,%d:%d", 100, 100, 100);
    say(")");
}

static const size_t limits[] = {4096, 60000};
static const char *const sizes[] = {"4 kB", "60 kB"};

static void fill(const char *file, const char *before, void (*piece)(size_t), char between, size_t limit) {
    state = 1;
    length = 0;
    say("%s", before);
    for (size_t i = 0, good;; i++) {
        good = length;
        if (i)
            text[length++] = between;
        piece(i);
        if (length > limit) {
            length = good;
            break;
        }
    }
    FILE *f = create(file, "");
    fwrite(text, 1, length, f);
    finish(f);
}

static void both(const char *name, const char *kind, const char *table, const char *file, const char *before,
                 void (*piece)(size_t), char between) {
    for (int s = 0; s < 2; s++) {
        char at[60], title[80];
        snprintf(at, sizeof at, "%s-%zu", file, limits[s]);
        snprintf(title, sizeof title, "%s, %s", name, sizes[s]);
        fill(at, before, piece, between, limits[s]);
        row(title, kind, table, at);
    }
}

int main(int count, char **arguments) {
    static const char example[] = "ROUT:CLOS (@1!2,3!4);OPEN (@5);*IDN?;:VOLT?";
    if (count != 2) {
        fprintf(stderr, "usage: inputs DIR\n");
        return 2;
    }
    dir = arguments[1];
    plan = create("plan", "");
    card();

    group = "Short messages";
    row_of("ROUT:CLOS (@1!2,3!4)", "walk", "card", "short-1", "ROUT:CLOS (@1!2,3!4)");
    row_of("*IDN?", "walk", "card", "short-2", "*IDN?");
    row_of(":VOLT?", "walk", "card", "short-3", ":VOLT?");
    row_of("ROUT:OPEN (@5)", "walk", "card", "short-4", "ROUT:OPEN (@5)");
    row_of("ABOR", "walk", "card", "short-5", "ABOR");
    row_of("four units", "walk", "card", "short-6", example);

    group = "Messages";
    both("relay commands", "walk", "card", "relay", "", relay, ';');
    both("mixed commands", "walk", "card", "mixed", "", mixed, ';');
    tree(1000, 0);
    table_end("tree-message");
    both("headers of 1,000 nodes", "walk", "tree-message", "headers", "", path_in_tree, ';');

    group = "Messages read to their relays";
    row("ROUT:CLOS (@1!2,3!4)", "relays", "card", "short-1");
    row("four units", "relays", "card", "short-6");
    for (int s = 0; s < 2; s++) {
        char title[60], at[60];
        snprintf(title, sizeof title, "relay commands, %s", sizes[s]);
        snprintf(at, sizeof at, "relay-%zu", limits[s]);
        row(title, "relays", "card", at);
    }

    group = "Tokens of a message";
    row("four units", "message", "-", "short-6");
    row("relay commands, 4 kB", "message", "-", "relay-4096");
    row("relay commands, 60 kB", "message", "-", "relay-60000");

    group = "Tokens of data";
    both("numbers", "tokens", "-", "numbers", "", number, ',');
    both("numbers with suffix", "tokens", "-", "suffixed", "", suffixed, ',');
    both("numbers in a radix", "tokens", "-", "radix", "", radix, ',');
    both("strings", "tokens", "-", "strings", "", string, ',');
    both("blocks", "tokens", "-", "blocks", "", block, ',');
    both("words", "tokens", "-", "words", "", word, ',');
    both("expressions", "tokens", "-", "expressions", "", expression, ',');

    group = "Lists";
    both("channels", "unsigned", "-", "channels", "@", spec, ',');
    both("channel pairs", "unsigned", "-", "pairs", "@", pair, ',');
    both("channel ranges", "signed", "-", "ranges", "@", range, ',');
    both("numeric list", "numeric", "-", "numeric", "", numeric, ',');

    group = "Headers";
    row_of("ROUT:CLOS", "resolve", "card", "header-1", "ROUT:CLOS");
    row_of("*IDN?", "resolve", "card", "header-2", "*IDN?");
    row_of(":SENS:VOLT:DC?", "resolve", "card", "header-3", ":SENS:VOLT:DC?");
    row_of("VOLT, two nodes unsaid", "resolve", "card", "header-4", "VOLT");
    row_of("CURR", "resolve", "card", "header-5", "CURR");
    row_of("XYZ, unknown", "resolve", "card", "header-6", "XYZ");
    row_of("ROUT1:CLOS1, 1 added", "resolve", "card", "header-7", "ROUT1:CLOS1");
    tables();

    group = "Names";
    row("TRIGger, TRIG", "match", "TRIGger", "TRIG");
    row("TRIGger, trigger", "match", "TRIGger", "trigger");
    row("TRIGger, TRIG1", "match", "TRIGger", "TRIG1");
    row("TRIGger2, TRIG2", "match", "TRIGger2", "TRIG2");
    row("TRIGger, VOLT", "match", "TRIGger", "VOLT");
    row("TRIGger, TRIGGE", "match", "TRIGger", "TRIGGE");
    row("CHANnel12, CHAN13", "match", "CHANnel12", "CHAN13");
    finish(plan);
    return 0;
}
