/*
 * The heads of the files. Whether one is refused is what the library answers. It does not answer why, so the first byte
 * at fault is found here, by the layout of document 01.
 */
#include <inttypes.h>
#include <string.h>

#include "inspect.h"

/* ---------------------------------------------------------------- what the library answers */

/* Of a whole card it answers the first fault only, so each table is lent to it beside a fresh one of the other kind. */
void judge_heads(struct inspection *seen)
{
    static uint8_t titles[COUNTER_TITLES_SIZE], rules[COUNTER_RULES_SIZE];
    const struct file *t = &seen->titles, *r = &seen->rules, *l = &seen->ledger;
    uint64_t kind, content, state, holders, copies, facts[COUNTER_FACT_COUNT];

    counter_format_card(seen->pair, titles, sizeof titles, rules, sizeof rules, 0);
    seen->titles_answer =
        counter_inspect_entry(seen->pair, t->bytes, t->length, rules, sizeof rules, 1, &kind, &content, facts);
    seen->rules_answer =
        counter_inspect_entry(seen->pair, titles, sizeof titles, r->bytes, r->length, 1, &kind, &content, facts);
    if (seen->with_ledger)
        seen->ledger_answer = counter_inspect_row(l->bytes, l->length, 1, &state, facts);
    if (ledger_is_told(seen) && seen->rules_answer == COUNTER_DONE)
        seen->together_answer = counter_inspect_title(seen->pair, l->bytes, l->length, titles, sizeof titles, r->bytes,
                                                      r->length, 1, &holders, &copies);
}

bool card_is_told(const struct inspection *seen)
{
    return seen->titles_answer == COUNTER_DONE && seen->rules_answer == COUNTER_DONE;
}

bool ledger_is_told(const struct inspection *seen)
{
    return seen->with_ledger && seen->ledger_answer == COUNTER_DONE;
}

bool can_be_compared(const struct inspection *seen)
{
    return card_is_told(seen) && ledger_is_told(seen) && seen->together_answer == COUNTER_DONE;
}

/* ---------------------------------------------------------------- what is at fault */

/* What may stand in a byte of a head: `least` to `most`, or `other`. */
struct allowed {
    const char *name;
    unsigned least, most, other;
};

#define IS(name, value) {name, value, value, value}
#define FROM(name, value) {name, value, 0xff, value}
#define ANY FROM("", 0x00)

/* What stands behind these bytes is ignored. */
#define TABLE_HEAD 14
#define LEDGER_HEAD 4

#define IDENTIFIER 0
#define VERSION 3
#define APPLICATION 8
#define ROWS 2

static const struct allowed titles_head[TABLE_HEAD] = {
    IS("identifier", 'A'), IS("identifier", '1'), ANY, {"version", 0x09, 0x09, 0x10},
    IS("size", 0x00), IS("size", 0x00), IS("size", 0x3e), IS("size", 0x80),
    IS("zero", 0x00), IS("zero", 0x00), IS("count", 0x03), IS("count", 0xe7),
    IS("length of an entry", 0x10), IS("mark", 0x01),
};

static const struct allowed rules_head[TABLE_HEAD] = {
    IS("identifier", 'M'), IS("identifier", '1'), ANY, FROM("version", 0x11),
    IS("size", 0x00), IS("size", 0x00), IS("size", 0x7d), IS("size", 0x00),
    ANY, ANY, IS("count", 0x03), IS("count", 0xe7),
    IS("length of an entry", 0x20), IS("mark", 0x02),
};

/* R is 1 to 999, which is 0001h to 03E7h. */
static const struct allowed ledger_head[LEDGER_HEAD] = {ANY, ANY, {"R", 0x00, 0x03, 0x00}, {"R", 0x00, 0xe7, 0x00}};

/* Behind the first line of a head. */
#define NEXT_LINE "             "

static bool allows(const struct allowed *allowed, unsigned byte)
{
    return (allowed->least <= byte && byte <= allowed->most) || byte == allowed->other;
}

static void print_byte(size_t at, unsigned byte, const struct allowed *allowed)
{
    printf(NEXT_LINE "byte %zu, %s: found %02Xh, not %02Xh", at, allowed->name, byte, allowed->least);
    if (allowed->other != allowed->least)
        printf(" or %02Xh", allowed->other);
    else if (allowed->most == 0xff)
        printf(" or more");
    else if (allowed->most != allowed->least)
        printf(" to %02Xh", allowed->most);
    printf("\n");
}

static void print_first_fault(const struct file *file, const struct allowed *head, size_t count)
{
    for (size_t at = 0; at < count; at++)
        if (!allows(&head[at], file->bytes[at])) {
            print_byte(at, file->bytes[at], &head[at]);
            return;
        }
}

static void print_length(const struct file *file, size_t right, const char *more)
{
    printf(NEXT_LINE "found %zu byte%s%s, not %zu%s\n", file->length, plural(file->length),
           file->length == MOST_READ ? " or more" : "", right, more);
}

/* The identifiers of the two pairs differ in their first byte only. */
static unsigned first_letter(bool pair, const struct allowed *audio)
{
    return pair == COUNTER_PICTURE ? 'P' : audio[IDENTIFIER].least;
}

static void print_other_pair(bool pair, const struct file *table, const struct allowed *audio)
{
    if (table->bytes[IDENTIFIER] != first_letter(!pair, audio) || table->bytes[IDENTIFIER + 1] != '1')
        return;
    if (pair == COUNTER_PICTURE)
        printf(NEXT_LINE "it is of a card for music: leave out --picture\n");
    else
        printf(NEXT_LINE "it is of a card for pictures: see --picture\n");
}

static void print_table_fault(bool pair, const struct file *table, size_t size, const struct allowed *audio)
{
    struct allowed head[TABLE_HEAD];
    unsigned letter = first_letter(pair, audio);

    if (table->length != size) {
        print_length(table, size, "");
        return;
    }
    memcpy(head, audio, sizeof head);
    head[IDENTIFIER] = (struct allowed)IS("identifier", letter);
    print_first_fault(table, head, TABLE_HEAD);
    print_other_pair(pair, table, audio);
}

/* A rule table that is right by itself is refused beside a ledger for its application number only. */
static void print_application_fault(const struct file *rules, const struct file *ledger)
{
    size_t place = rules->bytes[APPLICATION] == ledger->bytes[0] ? 1 : 0;
    struct allowed own = IS("application number", ledger->bytes[place]);

    print_byte(APPLICATION + place, rules->bytes[APPLICATION + place], &own);
}

static uint64_t number_at(const struct file *file, size_t at)
{
    return (uint64_t)file->bytes[at] << 8 | file->bytes[at + 1];
}

/* What the low byte of R may be depends on the high one. */
static void print_ledger_fault(const struct file *ledger)
{
    struct allowed head[LEDGER_HEAD];
    uint64_t rows;

    if (ledger->length < COUNTER_LEDGER_SIZE(1)) {
        print_length(ledger, COUNTER_LEDGER_SIZE(1), " or more");
        return;
    }
    rows = number_at(ledger, ROWS);
    memcpy(head, ledger_head, sizeof head);
    if (rows == 0)
        head[ROWS + 1] = (struct allowed)FROM("R", 0x01);
    if (rows == 0 || rows > COUNTER_MOST_ROWS)
        print_first_fault(ledger, head, LEDGER_HEAD);
    else
        print_length(ledger, COUNTER_LEDGER_SIZE(rows), ", by the R in its head");
}

/* ---------------------------------------------------------------- the heads */

static void print_refusal(uint64_t answer)
{
    printf("refused with %" PRIu64 ": %s\n", answer, counter_text(answer));
}

static void print_titles_head(const struct inspection *seen)
{
    const struct file *titles = &seen->titles;

    printf("title table  ");
    if (seen->titles_answer == COUNTER_DONE) {
        printf("version %02Xh\n", titles->bytes[VERSION]);
        return;
    }
    print_refusal(seen->titles_answer);
    print_table_fault(seen->pair, titles, COUNTER_TITLES_SIZE, titles_head);
}

static void print_rules_head(const struct inspection *seen)
{
    const struct file *rules = &seen->rules;

    printf("rule table   ");
    if (seen->rules_answer != COUNTER_DONE) {
        print_refusal(seen->rules_answer);
        print_table_fault(seen->pair, rules, COUNTER_RULES_SIZE, rules_head);
        return;
    }
    printf("version %02Xh, application number %" PRIu64 "\n", rules->bytes[VERSION], number_at(rules, APPLICATION));
    if (seen->together_answer != COUNTER_DONE) {
        printf(NEXT_LINE);
        print_refusal(seen->together_answer);
        print_application_fault(rules, &seen->ledger);
    }
}

static void print_ledger_head(const struct inspection *seen)
{
    const struct file *ledger = &seen->ledger;

    printf("ledger       ");
    if (seen->ledger_answer == COUNTER_DONE) {
        printf("application number %" PRIu64 ", R %" PRIu64 "\n", number_at(ledger, 0), number_at(ledger, ROWS));
        return;
    }
    print_refusal(seen->ledger_answer);
    print_ledger_fault(ledger);
}

void print_heads(const struct inspection *seen)
{
    print_titles_head(seen);
    print_rules_head(seen);
    if (seen->with_ledger)
        print_ledger_head(seen);
}
