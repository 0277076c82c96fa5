/*
 * When the shop closes: a sheet of a ledger and a card. Title 1 is lent, title 2 is moved to the card, title 3 is deleted.
 */
#include <inttypes.h>
#include <stdio.h>

#include "music_counter.h"

#define ROWS 64
#define APPLICATION 7

static uint8_t ledger[COUNTER_LEDGER_SIZE(ROWS)];
static uint8_t titles[COUNTER_TITLES_SIZE];
static uint8_t rules[COUNTER_RULES_SIZE];

/* Each buffer is passed as a pointer and a length, the card's after the pair. */
#define LEDGER ledger, sizeof ledger
#define CARD titles, sizeof titles, rules, sizeof rules
#define SHOP COUNTER_AUDIO, LEDGER, CARD

static const uint64_t title_key = 0x31415926535897, sti_key = 0x27182818284590, hash = 0x0123456789abcdef;

/* What keys are overwritten with; a till takes fresh random numbers. */
static const uint64_t f1 = 0xf1a0a1a2a3a4a5a6, f2 = 0xf2b0b1b2b3b4b5b6, f3 = 0xf3c0c1c2c3c4c5c6, f4 = 0xf4d0d1d2d3d4d5d6;

static void show(const char *step, uint64_t answer)
{
    printf("%-44s %2" PRIu64 "  %s\n", step, answer, counter_text(answer));
}

/* How many entries it reads does not matter here. */
static void move_in(const char *step, uint64_t title, uint64_t entry)
{
    uint64_t entries_read;

    show(step, counter_move_in(SHOP, title, entry, hash, &entries_read));
}

static void register_title(uint64_t title, uint64_t rights, uint64_t permits)
{
    show("register", counter_register(LEDGER, title, 2, 0, rights, permits, title_key, sti_key));
}

/*
 * A line for each title: its row, state, permits, rights and copies; then the totals, and how many entries are spent (8 and 10
 * here). If refused, nothing is printed.
 */
static void print_sheet(void)
{
    uint8_t text[COUNTER_SHEET_SIZE];
    size_t used = 0;

    show("closing sheet", counter_sheet(SHOP, text, sizeof text, &used));
    fwrite(text, 1, used, stdout);
}

int main(void)
{
    show("format a ledger", counter_format_ledger(LEDGER, ROWS, APPLICATION));
    show("format a card", counter_format_card(COUNTER_AUDIO, CARD, APPLICATION));

    /* Of three permits one is left, one is lent, and one went with a copy that was deleted on the card. */
    register_title(1, COUNTER_UNLIMITED, 3);
    show("check out title 1 to entry 7", counter_check_out(SHOP, 1, 7));
    show("check out title 1 to entry 8", counter_check_out(SHOP, 1, 8));
    show("delete entry 8", counter_delete(SHOP, 8, f1, f2, f3, f4));

    /* Of four moves three are left; loans without a limit are not in the total. */
    register_title(2, 4, COUNTER_UNLIMITED);
    move_in("move title 2 in to entry 9", 2, 9);

    register_title(3, 4, 4);
    move_in("move title 3 in to entry 10", 3, 10);
    show("delete entry 10", counter_delete(SHOP, 10, f1, f2, f3, f4));

    print_sheet();
    return 0;
}
