/* What is inspected and what is told of it: inspect.c reads it; heads.c, tables.c and faults.c print it. */
#ifndef INSPECT_H
#define INSPECT_H

#include "files.h"
#include "music_counter.h"

_Static_assert(MOST_READ > COUNTER_RULES_SIZE && MOST_READ > COUNTER_TITLES_SIZE &&
                   MOST_READ > COUNTER_LEDGER_SIZE(COUNTER_MOST_ROWS),
               "what is right is read whole");

/* An entry or a row as the library tells it. The content ID is the entry's; that of a row is its number. */
struct told {
    uint64_t kind_or_state;
    uint64_t content;
    uint64_t facts[COUNTER_FACT_COUNT];
};

struct inspection {
    bool pair;
    bool with_keys;
    bool with_ledger;
    struct file titles, rules, ledger;

    /* What the library answers to each file by itself, and to the rule table beside the ledger. */
    uint64_t titles_answer, rules_answer, ledger_answer, together_answer;

    /* From place 1 on. None are told where a head is refused. */
    struct told entries[COUNTER_LAST_ENTRY + 1];
    struct told rows[COUNTER_MOST_ROWS + 1];
    uint64_t entry_count, row_count;

    /* How many lines said that something is off. */
    unsigned long off_count;
};

/* Asks the library for its answers to the files. */
void judge_heads(struct inspection *seen);

/* Whether entries can be told, whether rows can, and whether they can be compared. */
bool card_is_told(const struct inspection *seen);
bool ledger_is_told(const struct inspection *seen);
bool can_be_compared(const struct inspection *seen);

void print_heads(const struct inspection *seen);

/* Every entry and row that is in use, in columns; then how many are of each kind and in each state. */
void print_entries(const struct inspection *seen);
void print_rows(const struct inspection *seen);
void print_counts(const struct inspection *seen);

/* A state of a row in words. */
const char *state_words(uint64_t state);

/* A line for each thing that is off, or one that says that nothing is. */
void print_what_is_off(struct inspection *seen);

#endif
