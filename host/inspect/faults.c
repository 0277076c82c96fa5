/* What is off: a head that is refused, and what does not fit together behind heads that are right. */
#include <inttypes.h>
#include <stdarg.h>

#include "inspect.h"

static void say(struct inspection *seen, const char *format, ...)
{
    va_list values;

    va_start(values, format);
    printf("off: ");
    vprintf(format, values);
    printf("\n");
    va_end(values);
    seen->off_count++;
}

/* ---------------------------------------------------------------- answers */

static void look_at_answer(struct inspection *seen, const char *name, uint64_t answer)
{
    if (answer != COUNTER_DONE)
        say(seen, "the %s is refused with %" PRIu64, name, answer);
}

static void look_at_answers(struct inspection *seen)
{
    look_at_answer(seen, "title table", seen->titles_answer);
    look_at_answer(seen, "rule table", seen->rules_answer);
    look_at_answer(seen, "ledger", seen->ledger_answer);
    look_at_answer(seen, "rule table beside this ledger", seen->together_answer);
    if (seen->with_ledger && !can_be_compared(seen))
        say(seen, "card and ledger cannot be compared");
}

/* ---------------------------------------------------------------- entries */

/* A copy goes back to its row, which is here for that. The row of a full entry is away: the entry holds the title. */
static void compare_entry(struct inspection *seen, uint64_t number, const char *what, uint64_t needed)
{
    uint64_t content = seen->entries[number].content, state;

    if (content > seen->row_count) {
        say(seen, "entry %" PRIu64 " is %s title %" PRIu64 ", which is above R, %" PRIu64, number, what, content,
            seen->row_count);
        return;
    }
    state = seen->rows[content].kind_or_state;
    if (state != needed)
        say(seen, "entry %" PRIu64 " is %s title %" PRIu64 ", whose row is %s, not %s", number, what, content,
            state_words(state), state_words(needed));
}

static void look_at_entry(struct inspection *seen, uint64_t number)
{
    uint64_t kind = seen->entries[number].kind_or_state;

    if (kind == COUNTER_ENTRY_TORN)
        say(seen, "entry %" PRIu64 " is torn", number);
    else if (kind == COUNTER_ENTRY_COPY && can_be_compared(seen))
        compare_entry(seen, number, "a copy of", COUNTER_ROW_HERE);
    else if (kind == COUNTER_ENTRY_FULL && can_be_compared(seen))
        compare_entry(seen, number, "full with", COUNTER_ROW_AWAY);
}

static void look_at_entries(struct inspection *seen)
{
    for (uint64_t number = 1; number <= seen->entry_count; number++)
        look_at_entry(seen, number);
}

/* ---------------------------------------------------------------- titles */

/* Which titles the card has, as copies or full. */
static void find_on_card(const struct inspection *seen, bool on_card[COUNTER_MOST_ROWS + 1])
{
    for (uint64_t number = 1; number <= seen->entry_count; number++) {
        const struct told *entry = &seen->entries[number];

        if (entry->kind_or_state == COUNTER_ENTRY_COPY || entry->kind_or_state == COUNTER_ENTRY_FULL)
            on_card[entry->content] = true;
    }
}

/* One ledger serves several cards, and only one of them is looked at. */
static const char *where_else(uint64_t state, uint64_t holders)
{
    return state == COUNTER_ROW_AWAY && holders == 0 ? "; another card may have it" : "";
}

static void say_holders(struct inspection *seen, uint64_t content, uint64_t holders, uint64_t needed, uint64_t copies)
{
    uint64_t state = seen->rows[content].kind_or_state;
    uint64_t full = state == COUNTER_ROW_HERE ? holders - 1 : holders;

    say(seen, "title %" PRIu64 " has %" PRIu64 " holder%s on this card and in the ledger, not %" PRIu64
        ": row %s, full entries %" PRIu64 ", copies %" PRIu64 "%s", content, holders, plural(holders), needed,
        state_words(state), full, copies, where_else(state, holders));
}

/*
 * A title has one holder, and none once it is gone. No title up to R is refused where card and ledger can be compared; if one
 * were, that would be said, and not counts that are not told.
 */
static void look_at_holders(struct inspection *seen, uint64_t content)
{
    const struct file *l = &seen->ledger, *t = &seen->titles, *r = &seen->rules;
    uint64_t needed = seen->rows[content].kind_or_state == COUNTER_ROW_GONE ? 0 : 1;
    uint64_t holders = 0, copies = 0;
    uint64_t answer = counter_inspect_title(seen->pair, l->bytes, l->length, t->bytes, t->length, r->bytes, r->length,
                                            content, &holders, &copies);

    if (answer != COUNTER_DONE)
        say(seen, "title %" PRIu64 " is refused with %" PRIu64, content, answer);
    else if (holders != needed)
        say_holders(seen, content, holders, needed, copies);
}

/* A row that is empty or in no state tells of no title. Beside it holders are counted only where the card has the title. */
static void look_at_title(struct inspection *seen, uint64_t content, bool on_card)
{
    uint64_t state = seen->rows[content].kind_or_state;
    bool tells = state != COUNTER_ROW_EMPTY && state != COUNTER_ROW_NO_STATE;

    if (state == COUNTER_ROW_NO_STATE)
        say(seen, "row %" PRIu64 " is in no state", content);
    if (can_be_compared(seen) && (tells || on_card))
        look_at_holders(seen, content);
}

static void look_at_titles(struct inspection *seen)
{
    bool on_card[COUNTER_MOST_ROWS + 1] = {false};

    find_on_card(seen, on_card);
    for (uint64_t content = 1; content <= seen->row_count; content++)
        look_at_title(seen, content, on_card[content]);
}

/* ---------------------------------------------------------------- all of it */

void print_what_is_off(struct inspection *seen)
{
    printf("\n");
    look_at_answers(seen);
    look_at_entries(seen);
    look_at_titles(seen);
    if (seen->off_count == 0)
        printf("nothing is off\n");
}
