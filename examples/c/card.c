/* A relay card: it checks its command table once, reads messages, and says what it would do. */
#include "vinderaz.h"

#include <stdio.h>
#include <stdlib.h>
#include <string.h>

/* The commands of the card, as they stand in the table. */
enum { IDENTIFY = 1, ABORT, CLOSE, OPEN, CURRENT, VOLTAGE_DC, VOLTAGE_AC };

static const uint8_t names[] = "*IDNROUTeSENSeABORtCLOSeOPENVOLTageCURRentDCAC2";
enum { NAMES = sizeof names - 1 };

#define NAME VINDERAZ_NAME
static const uint64_t nodes[] = {
    VINDERAZ_BRANCH(NAME(0, 0), 1, 4),                      /* 0, the root: nodes 1 to 4 */
    VINDERAZ_LEAF(NAME(0, 4), IDENTIFY),                    /* 1 *IDN */
    VINDERAZ_BRANCH(NAME(4, 5), 5, 2),                      /* 2 ROUTe: nodes 5 and 6 */
    VINDERAZ_BRANCH(NAME(9, 5), 7, 2) | VINDERAZ_DEFAULT,   /* 3 [SENSe]: nodes 7 and 8 */
    VINDERAZ_LEAF(NAME(14, 5), ABORT),                      /* 4 ABORt */
    VINDERAZ_LEAF(NAME(19, 5), CLOSE),                      /* 5 ROUTe:CLOSe */
    VINDERAZ_LEAF(NAME(24, 4), OPEN),                       /* 6 ROUTe:OPEN */
    VINDERAZ_BRANCH(NAME(28, 7), 9, 2),                     /* 7 [SENSe]:VOLTage: nodes 9 and 10 */
    VINDERAZ_LEAF(NAME(35, 7), CURRENT),                    /* 8 [SENSe]:CURRent */
    VINDERAZ_LEAF(NAME(42, 2), VOLTAGE_DC) | VINDERAZ_DEFAULT, /* 9 [SENSe]:VOLTage[:DC] */
    VINDERAZ_LEAF(NAME(44, 3), VOLTAGE_AC),                 /* 10 [SENSe]:VOLTage:AC2 */
};
enum { NODES = sizeof nodes / sizeof nodes[0] };

/* A refusal as SCPI-99 21.8 writes it: the number, and its text between quotes. */
static void refused(int32_t number) { printf("refused %d,\"%s\"", (int)number, vinderaz_text(number)); }

/* One channel: a number, or a row and a column. */
static void channel(const char *before, const uint8_t *spec, uint64_t length, uint64_t dimension) {
    int64_t at[3];
    int32_t refusal = dimension > 3 ? VINDERAZ_EXPRESSION_ERROR : vinderaz_coordinates(spec, length, at, dimension);
    if (refusal) {
        printf("%s ", before);
        refused(refusal);
    } else if (dimension == 1) {
        printf("%s channel %lld", before, (long long)at[0]);
    } else if (dimension == 2) {
        printf("%s row %lld, column %lld", before, (long long)at[0], (long long)at[1]);
    } else {
        printf("%s slot %lld, row %lld, column %lld", before, (long long)at[0], (long long)at[1], (long long)at[2]);
    }
}

/* A channel list: what stands between the brackets of (@1!2,3!4). */
static void relays(const char *what, const uint8_t *list, uint64_t length) {
    uint64_t w[VINDERAZ_WORDS];
    int32_t refusal = vinderaz_channel_list(list, length, w, VINDERAZ_WORDS);
    while (!refusal && !(refusal = vinderaz_channel(list, length, w, VINDERAZ_WORDS)) && w[VINDERAZ_KIND] != VINDERAZ_END) {
        printf("  %s", what);
        if (w[VINDERAZ_KIND] == VINDERAZ_PATH_NAME) {
            printf(" path %.*s\n", (int)(w[VINDERAZ_STOP] - w[VINDERAZ_START]), (const char *)list + w[VINDERAZ_START]);
            continue;
        }
        channel("", list + w[VINDERAZ_START], w[VINDERAZ_STOP] - w[VINDERAZ_START], w[VINDERAZ_DIMENSION]);
        if (w[VINDERAZ_KIND] == VINDERAZ_CHANNEL_RANGE) {
            channel(" to", list + w[VINDERAZ_START_2], w[VINDERAZ_STOP_2] - w[VINDERAZ_START_2], w[VINDERAZ_DIMENSION]);
        }
        printf("\n");
    }
    if (refusal) {
        printf("  ");
        refused(refusal);
        printf("\n");
    }
}

/* Goes on through the tokens of a message to the end of a unit. Its channel lists are opened where the command has a use for them. */
static void items(const char *what, const uint8_t *text, uint64_t length, uint64_t *w) {
    do {
        vinderaz_token(text, length, w, VINDERAZ_WORDS);
        if (what && w[VINDERAZ_KIND] == VINDERAZ_EXPRESSION_PROGRAM_DATA) {
            relays(what, text + w[VINDERAZ_START], w[VINDERAZ_STOP] - w[VINDERAZ_START]);
        }
    } while (w[VINDERAZ_KIND] != VINDERAZ_PROGRAM_MESSAGE_UNIT_SEPARATOR && w[VINDERAZ_KIND] != VINDERAZ_END);
}

/* What the card does with a unit. The walk has read all of it, so its tokens are known to be good. */
static void command(uint64_t unit, const uint8_t *text, uint64_t length, uint64_t *w) {
    const char *what = NULL;
    switch (VINDERAZ_COMMAND(unit)) {
    case IDENTIFY: printf("say who I am\n"); break;
    case ABORT: printf("stop\n"); break;
    case CLOSE: printf("close %u item(s)\n", (unsigned)VINDERAZ_ITEMS(unit)); what = "close"; break;
    case OPEN: printf("open %u item(s)\n", (unsigned)VINDERAZ_ITEMS(unit)); what = "open"; break;
    case CURRENT: printf("%s current\n", VINDERAZ_QUERY(unit) ? "measure" : "set"); break;
    case VOLTAGE_DC: printf("%s voltage\n", VINDERAZ_QUERY(unit) ? "measure" : "set"); break;
    case VOLTAGE_AC: printf("%s alternating voltage\n", VINDERAZ_QUERY(unit) ? "measure" : "set"); break;
    }
    items(what, text, length, w);
}

/* Reads a message from the branch where the last one ended, and says the branch that the next one starts from. */
static uint64_t message(uint64_t branch, const char *line) {
    const uint8_t *text = (const uint8_t *)line;
    uint64_t length = strlen(line);
    uint64_t slots[16], units = 0;
    printf("> %s\n", line);
    int32_t refusal = vinderaz_walk_accepted(nodes, NODES, names, NAMES, branch, text, length, slots, 16, &units, 1);
    uint64_t w[VINDERAZ_WORDS] = VINDERAZ_MESSAGE;
    for (uint64_t i = 0; i < units; i++) {
        command(slots[i], text, length, w);
        branch = VINDERAZ_KEPT(slots[i]);
    }
    if (refusal) {
        refused(refusal);
        printf("\n");
    }
    return branch;
}

int main(void) {
    int32_t fault = vinderaz_check(nodes, NODES, names, NAMES);
    if (fault) {
        printf("the command table has fault %d\n", (int)fault);
        return EXIT_FAILURE;
    }
    message(0, "ROUT:CLOS (@1!2,3!4);OPEN (@5);*IDN?;:VOLT?");
    uint64_t branch = message(0, "route:close (@3!7),(@1!1:1!4)");
    message(branch, "OPEN (@3!7);CLOS (@3!x)");
    message(0, "CURR?;VOLT:AC2?;:ABOR;BOGUS?;ABOR");
    return EXIT_SUCCESS;
}
