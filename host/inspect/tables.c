/* Entries and rows in columns, and their counts. */
#include <inttypes.h>

#include "inspect.h"

static const char *const kind_words[] = {
    [COUNTER_ENTRY_FREE] = "free",
    [COUNTER_ENTRY_COPY] = "copy",
    [COUNTER_ENTRY_FULL] = "full",
    [COUNTER_ENTRY_TORN] = "torn",
    [COUNTER_ENTRY_SPENT] = "spent",
};

static const char *const states_in_words[] = {
    [COUNTER_ROW_EMPTY] = "empty",
    [COUNTER_ROW_HERE] = "here",
    [COUNTER_ROW_AWAY] = "away",
    [COUNTER_ROW_GONE] = "gone",
    [COUNTER_ROW_NO_STATE] = "in no state",
};

#define COUNT_OF(list) (sizeof(list) / sizeof(list)[0])

const char *state_words(uint64_t state)
{
    return states_in_words[state];
}

/* ---------------------------------------------------------------- columns */

static const struct column {
    const char *heading;
    int width;
    bool of_copy, is_key;
} columns[COUNTER_FACT_COUNT] = {
    [COUNTER_FACT_CCI] = {"CCI", 3, true, false},
    [COUNTER_FACT_TRIGGER] = {"trigger", 7, false, false},
    [COUNTER_FACT_RIGHTS] = {"rights", 6, false, false},
    [COUNTER_FACT_PERMITS] = {"permits", 7, false, false},
    [COUNTER_FACT_TITLE_KEY] = {"title key", 14, true, true},
    [COUNTER_FACT_STI_KEY] = {"STI key", 14, false, true},
};

/* Which facts an entry or a row has. Those of a copy that are missing are its row's. */
enum has { NO_FACTS, FACTS_OF_A_COPY, ALL_FACTS };

static void print_no_number(int width)
{
    printf("  %*s", width, "-");
}

static void print_number(const struct column *column, uint64_t number)
{
    if (column->is_key)
        printf("  %0*" PRIX64, column->width, number);
    else
        printf("  %*" PRIu64, column->width, number);
}

static bool is_shown(const struct inspection *seen, const struct column *column)
{
    return seen->with_keys || !column->is_key;
}

static void print_headings(const struct inspection *seen, const char *first)
{
    printf("\n%s", first);
    for (const struct column *column = columns; column < columns + COUNTER_FACT_COUNT; column++)
        if (is_shown(seen, column))
            printf("  %*s", column->width, column->heading);
    printf("\n");
}

static void print_facts(const struct inspection *seen, const uint64_t facts[COUNTER_FACT_COUNT], enum has has)
{
    for (size_t i = 0; i < COUNTER_FACT_COUNT; i++) {
        if (!is_shown(seen, &columns[i]))
            continue;
        if (has == ALL_FACTS || (has == FACTS_OF_A_COPY && columns[i].of_copy))
            print_number(&columns[i], facts[i]);
        else
            print_no_number(columns[i].width);
    }
    printf("\n");
}

/* ---------------------------------------------------------------- entries and rows */

static enum has facts_of_kind(uint64_t kind)
{
    switch (kind) {
    case COUNTER_ENTRY_COPY: return FACTS_OF_A_COPY;
    case COUNTER_ENTRY_FULL: return ALL_FACTS;
    default: return NO_FACTS;
    }
}

static void print_entry(const struct inspection *seen, uint64_t number)
{
    const struct told *entry = &seen->entries[number];

    printf("%5" PRIu64 "  %-5s", number, kind_words[entry->kind_or_state]);
    if (entry->content == 0)
        print_no_number(5);
    else
        printf("  %5" PRIu64, entry->content);
    print_facts(seen, entry->facts, facts_of_kind(entry->kind_or_state));
}

static void print_row(const struct inspection *seen, uint64_t number)
{
    const struct told *row = &seen->rows[number];

    printf("%5" PRIu64 "  %-11s ", number, state_words(row->kind_or_state));
    print_facts(seen, row->facts, row->kind_or_state == COUNTER_ROW_HERE ? ALL_FACTS : NO_FACTS);
}

/* How many of them, from place 1 on, are of this kind or in this state. */
static uint64_t count_of(const struct told *told, uint64_t count, uint64_t kind_or_state)
{
    uint64_t found = 0;

    for (uint64_t number = 1; number <= count; number++)
        found += told[number].kind_or_state == kind_or_state;
    return found;
}

void print_entries(const struct inspection *seen)
{
    if (!card_is_told(seen)) {
        printf("\nentries cannot be told, since a table is refused\n");
        return;
    }
    if (count_of(seen->entries, seen->entry_count, COUNTER_ENTRY_FREE) == seen->entry_count) {
        printf("\nevery entry is free\n");
        return;
    }
    print_headings(seen, "entry  kind   title");
    for (uint64_t number = 1; number <= seen->entry_count; number++)
        if (seen->entries[number].kind_or_state != COUNTER_ENTRY_FREE)
            print_entry(seen, number);
}

void print_rows(const struct inspection *seen)
{
    if (!seen->with_ledger)
        return;
    if (!ledger_is_told(seen)) {
        printf("\nrows cannot be told, since the ledger is refused\n");
        return;
    }
    if (count_of(seen->rows, seen->row_count, COUNTER_ROW_EMPTY) == seen->row_count) {
        printf("\nevery row is empty\n");
        return;
    }
    print_headings(seen, "  row  state       ");
    for (uint64_t number = 1; number <= seen->row_count; number++)
        if (seen->rows[number].kind_or_state != COUNTER_ROW_EMPTY)
            print_row(seen, number);
}

/* ---------------------------------------------------------------- counts */

static void print_count(const char *before, const char *words, uint64_t count)
{
    printf("%s%s %" PRIu64, before, words, count);
}

static void print_entry_counts(const struct inspection *seen)
{
    for (size_t kind = 0; kind < COUNT_OF(kind_words); kind++)
        print_count(kind == 0 ? "entries  " : ", ", kind_words[kind],
                    count_of(seen->entries, seen->entry_count, kind));
    printf("\n");
}

static void print_row_counts(const struct inspection *seen)
{
    for (size_t state = 0; state < COUNT_OF(states_in_words); state++)
        print_count(state == 0 ? "rows     " : ", ", states_in_words[state],
                    count_of(seen->rows, seen->row_count, state));
    printf("\n");
}

void print_counts(const struct inspection *seen)
{
    if (card_is_told(seen) || ledger_is_told(seen))
        printf("\n");
    if (card_is_told(seen))
        print_entry_counts(seen);
    if (ledger_is_told(seen))
        print_row_counts(seen);
}
