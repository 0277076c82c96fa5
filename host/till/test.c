/*
 * Tests libtill.a through music_counter.h, call by call, against document 01 and, for picture tables, the closing sheet, the
 * CCI of copies, what a move in reports, previews and spent entries, requests W1 to W7 of document 02, and against what the header
 * says of inspection. All that is lent tables runs twice, with those of either pair. Each call that can be a request in numbers is
 * also made as one, and previewed.
 *
 * Before each call the test knows every byte of the buffers; after it, it knows every byte that the paper wants there, since
 * it sets them itself, field by field. All bytes are compared after every call, and so are the guard bytes
 * before each buffer. Behind each buffer lies a page that can be neither read nor written, so that a step past the end is
 * caught too, for every length.
 */
#define _DEFAULT_SOURCE
#include <inttypes.h>
#include <stdio.h>
#include <stdlib.h>
#include <string.h>
#include <sys/mman.h>

#include "music_counter.h"

#define GUARD 0xa5
#define ROOM ((size_t)40960)
#define PAGE ((size_t)4096)
#define TOP UINT64_MAX
#define KEY_LIMIT ((uint64_t)1 << 56)
#define COUNT_OF(list) (sizeof(list) / sizeof(list)[0])

static unsigned long checks;

/* The pair that a fresh card is of and that every call names; a failure tells it. */
static bool pair;
static const char *tables;

static void take(bool next)
{
    pair = next;
    tables = next == COUNTER_AUDIO ? "audio tables" : "picture tables";
}

static void fail(int line, const char *name, const char *what, uint64_t found, uint64_t wanted)
{
    printf("host/till/test.c:%d: %s: %s: %s %" PRIu64 ", not %" PRIu64 "\n", line, tables, name, what, found, wanted);
    exit(1);
}

static void same(int line, const char *name, const char *what, uint64_t found, uint64_t wanted)
{
    checks++;
    if (found != wanted)
        fail(line, name, what, found, wanted);
}

/* ---------------------------------------------------------------- buffers */

/*
 * A buffer stands at the end of its room; `wanted` is what the whole room must hold after the next call, `before` what it held
 * when the test began to make it.
 */
struct buffer {
    const char *name;
    uint8_t *room, *wanted, *before;
    size_t length;
};

#define NO_ROOM NULL, NULL, NULL, 0

static struct buffer ledger = {"ledger", NO_ROOM}, titles = {"title table", NO_ROOM}, rules = {"rule table", NO_ROOM};
static struct buffer text = {"text", NO_ROOM}, numbers_told = {"numbers told", NO_ROOM};
static struct buffer scratch_ledger = {"scratch ledger", NO_ROOM}, scratch_titles = {"scratch title table", NO_ROOM};
static struct buffer scratch_rules = {"scratch rule table", NO_ROOM};
static struct buffer basket = {"basket", NO_ROOM}, answers = {"answers", NO_ROOM};

/* What a preview copies, and to where. */
static struct buffer *const originals[] = {&ledger, &titles, &rules};
static struct buffer *const scratch[] = {&scratch_ledger, &scratch_titles, &scratch_rules};

/* What most functions are lent, and what inspections, and previews and requests, are lent beside it. */
static struct buffer *const tables_and_text[] = {&ledger, &titles, &rules, &text, NULL};
static struct buffer *const for_inspection[] = {&numbers_told, NULL};
static struct buffer *const for_requests[] = {&scratch_ledger, &scratch_titles, &scratch_rules, &basket, &answers, NULL};

static void make(struct buffer *b)
{
    b->room = mmap(NULL, ROOM + PAGE, PROT_READ | PROT_WRITE, MAP_PRIVATE | MAP_ANONYMOUS, -1, 0);
    b->wanted = malloc(ROOM);
    b->before = malloc(ROOM);
    if (b->room == MAP_FAILED || b->wanted == NULL || b->before == NULL || mprotect(b->room + ROOM, PAGE, PROT_NONE) != 0) {
        printf("no room for the buffers\n");
        exit(1);
    }
}

/* The first byte of the buffer, and of what is wanted there. */
static uint8_t *bytes(const struct buffer *b)
{
    return b->room + ROOM - b->length;
}

static uint8_t *wanted(const struct buffer *b)
{
    return b->wanted + ROOM - b->length;
}

/* Another length: the front stays, what is new is 0. */
static void resize(struct buffer *b, size_t length)
{
    uint8_t old[ROOM];
    size_t kept = b->length < length ? b->length : length;

    memcpy(old, wanted(b), kept);
    b->length = length;
    memset(b->wanted, GUARD, ROOM);
    memset(wanted(b), 0, length);
    memcpy(wanted(b), old, kept);
}

/* `count` bytes that hold a value, the most significant first. Nothing where they are past the end. */
static void put(struct buffer *b, size_t at, size_t count, uint64_t value)
{
    if (b->length < at + count)
        return;
    while (count > 0) {
        count--;
        wanted(b)[at + count] = (uint8_t)(value & 0xff);
        value >>= 8;
    }
}

/* The value that is wanted there. */
static uint64_t get(const struct buffer *b, size_t at, size_t count)
{
    uint64_t value = 0;

    for (size_t i = 0; i < count; i++)
        value = value << 8 | wanted(b)[at + i];
    return value;
}

static void put_byte(struct buffer *b, size_t at, unsigned value)
{
    put(b, at, 1, value);
}

/* A number of C, in a place of a buffer of such. */
static void put_word(struct buffer *b, size_t i, uint64_t value)
{
    memcpy(wanted(b) + i * sizeof value, &value, sizeof value);
}

static void settle_one(struct buffer *b)
{
    memcpy(b->room, b->wanted, ROOM);
    memcpy(b->before, b->wanted, ROOM);
}

static void each_of(struct buffer *const *b, void (*each)(struct buffer *b))
{
    while (*b != NULL)
        each(*b++);
}

/* What is wanted now is what the next call finds. */
static void settle(void) { each_of(tables_and_text, settle_one); }

static void compare(int line, const char *name, const struct buffer *b)
{
    checks++;
    if (memcmp(b->room, b->wanted, ROOM) == 0)
        return;
    for (size_t i = 0; i < ROOM; i++)
        if (b->room[i] != b->wanted[i]) {
            printf("byte %ld of the %s, counted from its start: ", (long)i - (long)(ROOM - b->length), b->name);
            fail(line, name, "holds", b->room[i], b->wanted[i]);
        }
}

static void compare_each(int line, const char *name, struct buffer *const *b)
{
    while (*b != NULL)
        compare(line, name, *b++);
}

/* ---------------------------------------------------------------- the tables, from documents 01 and 02 */

#define APPLICATION 0x1234

/* "Picture tables have the identifiers P1 and P1 in place of A1 and M1, otherwise the same layout" */
#define A1 0x4131
#define M1 0x4d31
#define P1 0x5031

static const struct { uint64_t titles, rules; } identifiers[] = {
    [COUNTER_AUDIO] = {A1, M1},
    [COUNTER_PICTURE] = {P1, P1},
};

/* The arguments of the next call, as far as it has them. */
static struct {
    uint64_t rows, application, c, j;
    uint64_t cci, trigger, rights, permits, title_key, sti_key;
    uint64_t h, f1, f2, f3, f4;
    uint64_t kind;
} a;

/* What tally, move in and sheet tell beside their answers. */
static uint64_t copies, copies_wanted, entries_read, entries_read_wanted;
static size_t used, used_wanted;

static void fresh_ledger(uint64_t rows)
{
    resize(&ledger, 0);
    resize(&ledger, 24 * (size_t)(rows + 1));
    put(&ledger, 0, 2, APPLICATION);
    put(&ledger, 2, 2, rows);
}

static void fresh_card(uint64_t application)
{
    resize(&titles, 0);
    resize(&titles, 16000);
    put(&titles, 0, 2, identifiers[pair].titles);
    put(&titles, 2, 2, 0x0010);
    put(&titles, 4, 4, 16000);
    put(&titles, 10, 2, 999);
    put(&titles, 12, 2, 0x1001);
    resize(&rules, 0);
    resize(&rules, 32000);
    put(&rules, 0, 2, identifiers[pair].rules);
    put(&rules, 2, 2, 0x0011);
    put(&rules, 4, 4, 32000);
    put(&rules, 8, 2, application);
    put(&rules, 10, 2, 999);
    put(&rules, 12, 2, 0x2002);
}

/* A title table or a rule table as the other pair has it. */
static void of_other_pair(struct buffer *b)
{
    put(b, 0, 2, b == &titles ? identifiers[!pair].titles : identifiers[!pair].rules);
}

static void plain_row(uint64_t c, unsigned state)
{
    for (size_t i = 0; i < 24; i++)
        put_byte(&ledger, 24 * c + i, 0);
    put_byte(&ledger, 24 * c, state);
}

/* A row that is here with the facts of `a`. */
static void here_row(uint64_t c)
{
    plain_row(c, 1);
    put(&ledger, 24 * c + 1, 1, a.cci);
    put(&ledger, 24 * c + 2, 1, a.trigger);
    put(&ledger, 24 * c + 3, 1, a.rights);
    put(&ledger, 24 * c + 4, 1, a.permits);
    put(&ledger, 24 * c + 8, 7, a.title_key);
    put(&ledger, 24 * c + 16, 7, a.sti_key);
}

/* The title half of entry j with the CCI and key of `a`. */
static void title_half(uint64_t j, uint64_t c)
{
    put(&titles, 16 * j, 1, a.cci);
    put(&titles, 16 * j + 1, 7, a.title_key);
    put(&titles, 16 * j + 8, 8, ((uint64_t)1 << 63) + c);
}

static void rule_half(uint64_t j, uint64_t c)
{
    put(&rules, 32 * j, 1, 0);
    put(&rules, 32 * j + 1, 7, a.sti_key);
    put(&rules, 32 * j + 8, 8, ((uint64_t)1 << 63) + c);
    put(&rules, 32 * j + 16, 1, a.trigger * 128);
    put(&rules, 32 * j + 17, 1, a.rights * 16 + a.permits);
    put(&rules, 32 * j + 18, 8, a.h);
    put(&rules, 32 * j + 26, 6, 0);
}

static void wipe_title(uint64_t j)
{
    put(&titles, 16 * j, 8, a.f1);
    put_byte(&titles, 16 * j + 8, wanted(&titles)[16 * j + 8] % 128u);
}

static void wipe_rule(uint64_t j)
{
    put(&rules, 32 * j, 8, a.f2);
    put_byte(&rules, 32 * j + 8, wanted(&rules)[32 * j + 8] % 128u);
    put(&rules, 32 * j + 16, 8, a.f3);
    put(&rules, 32 * j + 24, 8, a.f4);
}

static uint64_t one_less(uint64_t count)
{
    return count == 15 ? 15 : count - 1;
}

static uint64_t one_more(uint64_t count)
{
    return count == 15 ? 15 : count + 1;
}

/* ---------------------------------------------------------------- the sheet, from document 02 */

/* The last two are no kinds, but what functions need: an entry with no half usable, and none. */
enum kind { FREE, COPY, FULL, TORN, SPENT, VACANT, NO_ENTRY };
enum state { EMPTY, HERE, AWAY, GONE, NO_STATE, ANY_STATE };

static int usable(uint64_t flag, uint64_t id)
{
    return flag == 1 && id != 0;
}

/*
 * "copy, only the title half usable; full, both usable with equal IDs; torn, anything else", by document 01. By W7 "spent: no half
 * usable, and a title half with flag 0 and an ID from 1 to 999. Free now means no half usable and not spent."
 */
static enum kind kind_of(uint64_t title_flag, uint64_t title_id, uint64_t cci, uint64_t rule_flag, uint64_t rule_id)
{
    int title = usable(title_flag, title_id), rule = usable(rule_flag, rule_id);

    if ((title && (title_id > 999 || cci == 1)) || (rule && rule_id > 999))
        return TORN;
    if (!title && !rule)
        return title_flag == 0 && 1 <= title_id && title_id <= 999 ? SPENT : FREE;
    if (title && !rule)
        return COPY;
    return title && title_id == rule_id ? FULL : TORN;
}

/* "A row is here exactly when byte 0 is 1, CCI is 0, 2 or 3, trigger at most 1, rights and permits at most 15" */
static enum state state_at(uint64_t c)
{
    const uint8_t *row = wanted(&ledger) + 24 * c;

    if (row[0] == HERE)
        return row[1] != 1 && row[1] <= 3 && row[2] <= 1 && row[3] <= 15 && row[4] <= 15 ? HERE : NO_STATE;
    return row[0] <= GONE ? (enum state)row[0] : NO_STATE;
}

/* What the card has of each content ID, its first full entry's permits and rights among it. */
struct on_card {
    unsigned copies, permits, rights;
};

static uint64_t id_at(size_t j) { return get(&titles, 16 * j + 14, 2) % 1024; }

static enum kind kind_at(size_t j)
{
    return kind_of(get(&titles, 16 * j + 8, 1) / 128, id_at(j), get(&titles, 16 * j, 1) % 4,
                   get(&rules, 32 * j + 8, 1) / 128, get(&rules, 32 * j + 14, 2) % 1024);
}

/* From the last entry on, so that the first full one of a title has the last word. Answers how many entries are spent. */
static unsigned look_at_card(struct on_card on_card[1024])
{
    unsigned spent = 0;

    memset(on_card, 0, 1024 * sizeof on_card[0]);
    for (size_t j = 999; j >= 1; j--) {
        uint64_t id = id_at(j);
        enum kind kind = kind_at(j);

        if (kind == COPY)
            on_card[id].copies++;
        if (kind == FULL) {
            on_card[id].permits = get(&rules, 32 * j + 17, 1) % 16;
            on_card[id].rights = (unsigned)get(&rules, 32 * j + 17, 1) / 16;
        }
        spent += kind == SPENT;
    }
    return spent;
}

/* The sheet of the tables as they are wanted; a 0 ends it here. */
static const char *sheet(void)
{
    static char out[COUNTER_SHEET_SIZE + 1];
    struct on_card on_card[1024];
    unsigned all_permits = 0, all_copies = 0, spent = look_at_card(on_card);
    int length = 0;

    for (unsigned c = 1; 24 * (c + 1) <= ledger.length; c++) {
        const uint8_t *row = wanted(&ledger) + 24 * c;
        unsigned permits = 0, rights = 0;

        if (row[0] == EMPTY)
            continue;
        if (state_at(c) == HERE) {
            permits = row[4];
            rights = row[3];
        }
        if (row[0] == AWAY) {
            permits = on_card[c].permits;
            rights = on_card[c].rights;
        }
        length += sprintf(out + length, "%u %u %u %u %u\n", c, row[0], permits, rights, on_card[c].copies);
        all_permits += permits != 15 ? permits : 0;
        all_copies += on_card[c].copies;
    }
    sprintf(out + length, "total %u %u\nspent %u\n", all_permits, all_copies, spent);
    return out;
}

/* ---------------------------------------------------------------- what an inspection tells, from the header */

/*
 * The places of the numbers told, with one between those of a call that is lent as no place. The last of each call is the last
 * of all, so that the page is behind it.
 */
enum { KIND = 0, CONTENT = 2, STATE = 2, FACT_PLACES = 4, HOLDERS = 7, COPIES = 9, VACANCY = 9, PLACES_TOLD = 10 };

_Static_assert(COUNTER_ENTRY_FREE == 0 && COUNTER_ENTRY_COPY == 1 && COUNTER_ENTRY_FULL == 2 && COUNTER_ENTRY_TORN == 3 &&
                   COUNTER_ENTRY_SPENT == 4,
               "the kinds by their numbers");
_Static_assert(COUNTER_ROW_EMPTY == 0 && COUNTER_ROW_HERE == 1 && COUNTER_ROW_AWAY == 2 && COUNTER_ROW_GONE == 3 &&
                   COUNTER_ROW_NO_STATE == 4,
               "the states by their numbers");

/* "in the order in which counter_register takes them" */
static void tell_facts(uint64_t cci, uint64_t trigger, uint64_t rights, uint64_t permits, uint64_t title_key, uint64_t sti_key)
{
    put_word(&numbers_told, FACT_PLACES + COUNTER_FACT_CCI, cci);
    put_word(&numbers_told, FACT_PLACES + COUNTER_FACT_TRIGGER, trigger);
    put_word(&numbers_told, FACT_PLACES + COUNTER_FACT_RIGHTS, rights);
    put_word(&numbers_told, FACT_PLACES + COUNTER_FACT_PERMITS, permits);
    put_word(&numbers_told, FACT_PLACES + COUNTER_FACT_TITLE_KEY, title_key);
    put_word(&numbers_told, FACT_PLACES + COUNTER_FACT_STI_KEY, sti_key);
}

static void after_inspect_entry(void)
{
    enum kind kind = kind_at(a.j);
    uint64_t cci = get(&titles, 16 * a.j, 1) % 4, title_key = get(&titles, 16 * a.j + 1, 7);
    uint64_t counts = get(&rules, 32 * a.j + 17, 1);

    put_word(&numbers_told, KIND, kind);
    put_word(&numbers_told, CONTENT, kind == COPY || kind == FULL || kind == SPENT ? id_at(a.j) : 0);
    tell_facts(0, 0, 0, 0, 0, 0);
    if (kind == COPY)
        tell_facts(cci, 0, 0, 0, title_key, 0);
    if (kind == FULL)
        tell_facts(cci, get(&rules, 32 * a.j + 16, 1) / 128, counts / 16, counts % 16, title_key, get(&rules, 32 * a.j + 1, 7));
}

static void after_inspect_row(void)
{
    const uint8_t *row = wanted(&ledger) + 24 * a.c;

    put_word(&numbers_told, STATE, state_at(a.c));
    tell_facts(0, 0, 0, 0, 0, 0);
    if (state_at(a.c) == HERE)
        tell_facts(row[1], row[2], row[3], row[4], get(&ledger, 24 * a.c + 8, 7), get(&ledger, 24 * a.c + 16, 7));
}

static void after_inspect_title(void)
{
    uint64_t holders = state_at(a.c) == HERE, lent = 0;

    for (size_t j = 1; j <= 999; j++) {
        holders += kind_at(j) == FULL && id_at(j) == a.c;
        lent += kind_at(j) == COPY && id_at(j) == a.c;
    }
    put_word(&numbers_told, HOLDERS, holders);
    put_word(&numbers_told, COPIES, lent);
}

static void after_first_vacant(void)
{
    uint64_t j = a.j;

    while (j <= 999 && kind_at(j) != FREE && kind_at(j) != SPENT)
        j++;
    put_word(&numbers_told, VACANCY, j <= 999 ? j : 0);
}

/* ---------------------------------------------------------------- the seventeen functions that are lent tables */

#define LEDGER bytes(&ledger), ledger.length
#define TITLES bytes(&titles), titles.length
#define RULES bytes(&rules), rules.length
#define CARD TITLES, RULES
#define TEXT bytes(&text), text.length
#define FACTS a.cci, a.trigger, a.rights, a.permits, a.title_key, a.sti_key

static uint64_t call_format_ledger(void) { return counter_format_ledger(LEDGER, a.rows, (uint16_t)a.application); }
static uint64_t call_format_card(void) { return counter_format_card(pair, CARD, (uint16_t)a.application); }
static uint64_t call_register(void) { return counter_register(LEDGER, a.c, FACTS); }
static uint64_t call_record(void) { return counter_record(pair, LEDGER, CARD, a.c, a.j, FACTS, a.h); }
static uint64_t call_check_out(void) { return counter_check_out(pair, LEDGER, CARD, a.c, a.j); }
static uint64_t call_check_in(void) { return counter_check_in(pair, LEDGER, CARD, a.j, a.f1); }
static uint64_t call_move_out(void) { return counter_move_out(pair, LEDGER, CARD, a.j, a.h, a.f1, a.f2, a.f3, a.f4); }
static uint64_t call_move_in(void) { return counter_move_in(pair, LEDGER, CARD, a.c, a.j, a.h, &entries_read); }
static uint64_t call_delete(void) { return counter_delete(pair, LEDGER, CARD, a.j, a.f1, a.f2, a.f3, a.f4); }
static uint64_t call_tally(void) { return counter_tally(pair, CARD, a.c, &copies); }

static uint64_t *place_told(size_t i)
{
    void *front = bytes(&numbers_told);

    return (uint64_t *)front + i;
}

static uint64_t call_inspect_entry(void)
{
    return counter_inspect_entry(pair, CARD, a.j, place_told(KIND), place_told(CONTENT), place_told(FACT_PLACES));
}

static uint64_t call_inspect_row(void)
{
    return counter_inspect_row(LEDGER, a.c, place_told(STATE), place_told(FACT_PLACES));
}

static uint64_t call_inspect_title(void)
{
    return counter_inspect_title(pair, LEDGER, CARD, a.c, place_told(HOLDERS), place_told(COPIES));
}

static uint64_t call_first_vacant(void) { return counter_first_vacant(pair, CARD, a.j, place_told(VACANCY)); }
static uint64_t call_sheet(void) { return counter_sheet(pair, LEDGER, CARD, TEXT, &used); }

/* The request at this place of the basket. */
static const struct counter_request *place(size_t i)
{
    const void *front = bytes(&basket) + i * sizeof(struct counter_request);

    return front;
}

/* A call of this kind as a request in numbers; behind its arguments, and in a request of no kind, stands anything. */
static struct counter_request request_of(uint64_t kind)
{
    struct counter_request r;
#define ARGUMENTS(...) memcpy(r.arguments, (uint64_t[]){__VA_ARGS__}, sizeof(uint64_t[]){__VA_ARGS__})

    memset(&r, 0x5e, sizeof r);
    r.kind = kind;
    switch (kind) {
    case COUNTER_REGISTER: ARGUMENTS(a.c, FACTS); break;
    case COUNTER_RECORD: ARGUMENTS(a.c, a.j, FACTS, a.h); break;
    case COUNTER_CHECK_OUT: ARGUMENTS(a.c, a.j); break;
    case COUNTER_CHECK_IN: ARGUMENTS(a.j, a.f1); break;
    case COUNTER_MOVE_OUT: ARGUMENTS(a.j, a.h, a.f1, a.f2, a.f3, a.f4); break;
    case COUNTER_MOVE_IN: ARGUMENTS(a.c, a.j, a.h); break;
    case COUNTER_DELETE: ARGUMENTS(a.j, a.f1, a.f2, a.f3, a.f4); break;
    default: ARGUMENTS(a.c, a.j); break;
    }
    return r;
}

static void put_request(size_t i, struct counter_request r)
{
    memcpy(wanted(&basket) + i * sizeof r, &r, sizeof r);
}

/* A request that stands alone, so that the page is behind it. */
static uint64_t call_perform(void)
{
    resize(&basket, sizeof(struct counter_request));
    put_request(0, request_of(a.kind));
    settle_one(&basket);
    return counter_perform(pair, LEDGER, CARD, place(0));
}

/* How many requests of the basket are to be previewed. */
static uint64_t count;

static uint64_t call_preview(void)
{
    void *told = bytes(&answers);

    return counter_preview(pair, LEDGER, CARD, bytes(&scratch_ledger), scratch_ledger.length, bytes(&scratch_titles),
                           scratch_titles.length, bytes(&scratch_rules), scratch_rules.length, place(0), count, told);
}

/* What each finds where it is done. Formatting finds anything. */
static void ready_format(void)
{
    memset(wanted(&ledger), 0xee, ledger.length);
    memset(wanted(&titles), 0xee, titles.length);
    memset(wanted(&rules), 0xee, rules.length);
}

static void ready_empty(void) {}
static void ready_here(void) { here_row(a.c); }

static void ready_copy(void)
{
    here_row(a.c);
    title_half(a.j, a.c);
}

static void ready_full(void)
{
    plain_row(a.c, 2);
    title_half(a.j, a.c);
    rule_half(a.j, a.c);
}

static void ready_tally(void)
{
    title_half(a.j, a.c);
    title_half(999, a.c);
    title_half(1, a.c % 999 + 1);
}

/* Its row, and as many copies as a tally finds. */
static void ready_inspect_title(void)
{
    here_row(a.c);
    ready_tally();
}

/* What each leaves where it is done. */
static void after_format_ledger(void)
{
    fresh_ledger(a.rows);
    put(&ledger, 0, 2, a.application);
}

static void after_format_card(void) { fresh_card(a.application); }
static void after_register(void) { here_row(a.c); }

static void after_record(void)
{
    plain_row(a.c, 2);
    title_half(a.j, a.c);
    rule_half(a.j, a.c);
}

static void after_check_out(void)
{
    put(&ledger, 24 * a.c + 4, 1, one_less(a.permits));
    title_half(a.j, a.c);
    put(&titles, 16 * a.j, 1, a.cci == 2 ? 3 : a.cci);
}

static void after_check_in(void)
{
    put(&ledger, 24 * a.c + 4, 1, one_more(a.permits));
    wipe_title(a.j);
}

static void after_move_out(void)
{
    here_row(a.c);
    put(&ledger, 24 * a.c + 3, 1, one_less(a.rights));
    wipe_title(a.j);
    wipe_rule(a.j);
}

static void after_move_in(void)
{
    plain_row(a.c, 2);
    title_half(a.j, a.c);
    rule_half(a.j, a.c);
    put(&rules, 32 * a.j + 17, 1, one_less(a.rights) * 16 + a.permits);
}

static void after_delete_copy(void) { wipe_title(a.j); }

static void after_delete_full(void)
{
    plain_row(a.c, 3);
    wipe_title(a.j);
    wipe_rule(a.j);
}

static void after_tally(void) { copies_wanted = a.j == 999 ? 1 : 2; }

static void after_sheet(void)
{
    const char *front = sheet();

    used_wanted = strlen(front);
    memcpy(wanted(&text), front, used_wanted);
}

/* Scratch buffers as long as their originals, and places for a basket and its answers, all of them full of anything. */
static void lend_scratch(void)
{
    for (size_t i = 0; i < 3; i++) {
        resize(scratch[i], originals[i]->length);
        memset(wanted(scratch[i]), 0xee, scratch[i]->length);
    }
    resize(&basket, COUNTER_BASKET_SIZE * sizeof(struct counter_request));
    memset(wanted(&basket), 0xee, basket.length);
    resize(&answers, COUNTER_BASKET_SIZE * sizeof(uint64_t));
    memset(wanted(&answers), 0xee, answers.length);
}

/* What is wanted of the originals is wanted of the scratch buffers, and the originals are to stay. */
static void to_scratch(void)
{
    for (size_t i = 0; i < 3; i++) {
        memcpy(wanted(scratch[i]), wanted(originals[i]), originals[i]->length);
        memcpy(originals[i]->wanted, originals[i]->before, ROOM);
    }
}

/* And the other way round: a commit leaves what a preview left there. */
static void from_scratch(void)
{
    for (size_t i = 0; i < 3; i++)
        memcpy(wanted(originals[i]), wanted(scratch[i]), originals[i]->length);
}

static void ready_preview(void);
static void after_preview(void);

/*
 * What a move in with this answer reports: "the number of the first copy's entry if there is one, else 999. If an earlier
 * check refuses, the report is 0."
 */
static uint64_t report(uint64_t answer)
{
    if (answer != COUNTER_DONE && answer != COUNTER_COPY_OUT)
        return 0;
    for (size_t j = 1; j <= 999; j++)
        if (kind_at(j) == COPY && id_at(j) == a.c)
            return j;
    return 999;
}

struct function {
    const char *name;
    void (*ready)(void);
    uint64_t (*call)(void);
    void (*after)(void);
    enum kind kind;             /* the kind of entry that it needs */
    enum state state;           /* the state of row that it needs */
    unsigned char refusals[10]; /* what it can be refused with, in the order tested */
    uint64_t request;           /* the kind of request that it is, or 0 */
};

static const struct function functions[] = {
    {"format ledger", ready_format, call_format_ledger, after_format_ledger, NO_ENTRY, ANY_STATE, {4, 7}, 0},
    {"format card", ready_format, call_format_card, after_format_card, NO_ENTRY, ANY_STATE, {8, 9}, 0},
    {"register", ready_empty, call_register, after_register, NO_ENTRY, EMPTY, {4, 6, 7, 11}, COUNTER_REGISTER},
    {"record", ready_empty, call_record, after_record, VACANT, EMPTY, {4, 5, 6, 7, 8, 9, 10, 11}, COUNTER_RECORD},
    {"check-out", ready_here, call_check_out, after_check_out, VACANT, HERE, {4, 5, 7, 8, 9, 10, 11, 12}, COUNTER_CHECK_OUT},
    {"check-in", ready_copy, call_check_in, after_check_in, COPY, HERE, {5, 7, 8, 9, 10, 11, 15, 16}, COUNTER_CHECK_IN},
    {"move out", ready_full, call_move_out, after_move_out, FULL, AWAY, {5, 7, 8, 9, 10, 11, 12, 13, 16}, COUNTER_MOVE_OUT},
    {"move in", ready_here, call_move_in, after_move_in, VACANT, HERE, {4, 5, 7, 8, 9, 10, 11, 12, 14}, COUNTER_MOVE_IN},
    {"delete of a copy", ready_copy, call_delete, after_delete_copy, COPY, ANY_STATE, {5, 7, 8, 9, 10, 16}, COUNTER_DELETE},
    {"delete of a full entry", ready_full, call_delete, after_delete_full, FULL, AWAY, {5, 7, 8, 9, 10, 11, 16},
     COUNTER_DELETE},
    {"tally", ready_tally, call_tally, after_tally, NO_ENTRY, ANY_STATE, {4, 8, 9}, 0},
    {"inspect entry", ready_full, call_inspect_entry, after_inspect_entry, NO_ENTRY, ANY_STATE, {5, 8, 9}, 0},
    {"inspect row", ready_here, call_inspect_row, after_inspect_row, NO_ENTRY, ANY_STATE, {4, 7, 11}, 0},
    {"inspect title", ready_inspect_title, call_inspect_title, after_inspect_title, NO_ENTRY, ANY_STATE, {4, 7, 8, 9, 11}, 0},
    {"first vacant", ready_copy, call_first_vacant, after_first_vacant, NO_ENTRY, ANY_STATE, {5, 8, 9}, 0},
    {"sheet", ready_copy, call_sheet, after_sheet, NO_ENTRY, ANY_STATE, {7, 8, 9, 1}, 0},
    /* a check-out whose kind is an argument too */
    {"perform", ready_here, call_perform, after_check_out, VACANT, HERE, {3, 4, 5, 7, 8, 9, 10, 11, 12}, 0},
    {"preview", ready_preview, call_preview, after_preview, NO_ENTRY, ANY_STATE, {17, 18}, 0},
};

#define FUNCTIONS COUNT_OF(functions)

static int refuses(const struct function *f, unsigned number)
{
    return memchr(f->refusals, (int)number, sizeof f->refusals) != NULL;
}

static const struct function *named(const char *name)
{
    for (size_t i = 0; i < FUNCTIONS; i++)
        if (strcmp(functions[i].name, name) == 0)
            return &functions[i];
    printf("no function %s\n", name);
    exit(1);
}

/* Arguments such that each function is done, on tables that are ready for it. */
static void set_arguments(uint64_t rows, uint64_t c, uint64_t j)
{
    a.rows = rows;
    a.application = APPLICATION;
    a.c = c;
    a.j = j;
    a.cci = 2;
    a.trigger = 0;
    a.rights = 7;
    a.permits = 5;
    a.title_key = 0x11223344556677;
    a.sti_key = 0x8899aabbccddee;
    a.h = 0x0123456789abcdef;
    a.f1 = 0xf1a0a1a2a3a4a5a6;
    a.f2 = 0xf2b0b1b2b3b4b5b6;
    a.f3 = 0x73c0c1c2c3c4c5c6;
    a.f4 = 0x74d0d1d2d3d4d5d6;
    a.kind = COUNTER_CHECK_OUT;
}

/* Tables of `rows` rows, and arguments, such that f is done. */
static void begin(const struct function *f, uint64_t rows, uint64_t c, uint64_t j)
{
    set_arguments(rows, c, j);
    fresh_ledger(rows);
    fresh_card(APPLICATION);
    resize(&text, COUNTER_SHEET_SIZE);
    resize(&numbers_told, PLACES_TOLD * sizeof(uint64_t));
    f->ready();
}

/* How often each function gave each answer, and a request in a basket of more than one, for each pair. */
static unsigned long given[2][FUNCTIONS][COUNTER_SCRATCH + 1], given_in_basket[2][COUNTER_SCRATCH + 1];

/*
 * The call as a request, the first in the basket: previewed alone, and then carried out. The originals are then again what they
 * were before it.
 */
static void as_request(int line, const struct function *f, uint64_t answer)
{
    count = 1;
    memset(wanted(&answers), 0, answers.length);
    put_word(&answers, 0, answer);
    to_scratch();
    same(line, f->name, "as a request previewed", call_preview(), COUNTER_DONE);
    compare_each(line, f->name, tables_and_text);
    compare_each(line, f->name, for_requests);
    from_scratch();
    same(line, f->name, "as a request answered", counter_perform(pair, LEDGER, CARD, place(0)), answer);
    compare_each(line, f->name, tables_and_text);
    compare_each(line, f->name, for_requests);
    for (size_t i = 0; i < 3; i++)
        memcpy(originals[i]->room, originals[i]->before, ROOM);
}

/* Calls f on what is wanted now, and wants this answer and, where it is 0, what f leaves. */
static void check(int line, const struct function *f, uint64_t answer)
{
    int lent_requests = f->request != 0 || f->call == call_perform || f->call == call_preview;

    memset(wanted(&text), 0xee, text.length);
    memset(wanted(&numbers_told), 0xee, numbers_told.length);
    if (f->request != 0) {
        lend_scratch();
        put_request(0, request_of(f->request));
    }
    if (lent_requests)
        each_of(for_requests, settle_one);
    settle();
    each_of(for_inspection, settle_one);
    copies = copies_wanted = used = used_wanted = entries_read = entries_read_wanted = 0xcccc;
    if (f->call == call_move_in)
        entries_read_wanted = report(answer);
    if (answer == COUNTER_DONE)
        f->after();
    if (f->request != 0)
        as_request(line, f, answer);
    same(line, f->name, "answered", f->call(), answer);
    compare_each(line, f->name, tables_and_text);
    if (lent_requests)
        compare_each(line, f->name, for_requests);
    compare_each(line, f->name, for_inspection);
    same(line, f->name, "entries read", entries_read, entries_read_wanted);
    same(line, f->name, "copies", copies, copies_wanted);
    same(line, f->name, "used", used, used_wanted);
    given[pair][f - functions][answer]++;
}

#define CHECK(f, answer) check(__LINE__, f, answer)

/* Each function was done, and gave each of its refusals, with tables of this pair, and so did requests in baskets. */
static void all_answers(void)
{
    for (size_t i = 0; i < FUNCTIONS; i++) {
        size_t seen = given[pair][i][COUNTER_DONE] > 0;

        for (unsigned number = 1; number <= COUNTER_SCRATCH; number++)
            seen += refuses(&functions[i], number) && given[pair][i][number] > 0;
        same(__LINE__, functions[i].name, "answers that came up are", seen, 1 + strlen((const char *)functions[i].refusals));
    }
    for (unsigned number = 0; number <= COUNTER_SCRATCH; number++) {
        int allowed = number == COUNTER_DONE || (COUNTER_KIND <= number && number <= COUNTER_FILLER);

        same(__LINE__, "preview", "came up in baskets", given_in_basket[pair][number] > 0, allowed);
    }
}

/* ---------------------------------------------------------------- every refusal, alone and with others */

/* Entry j with these flags and IDs in its halves. */
static void halves(uint64_t j, uint64_t title_flag, uint64_t title_id, uint64_t rule_flag, uint64_t rule_id)
{
    put(&titles, 16 * j + 8, 8, (title_flag << 63) + title_id);
    put(&rules, 32 * j + 8, 8, (rule_flag << 63) + rule_id);
}

/* Makes f meet the condition of a number. */
static void meet(const struct function *f, unsigned number)
{
    switch (number) {
    case 1: resize(&text, strlen(sheet()) - 1); break;
    case 3: a.kind = 8; break;
    case 4: a.c = a.rows = 1000; break;
    case 5: a.j = 1000; break;
    case 6: a.rights = 16; break;
    case 7: resize(&ledger, ledger.length + 1); break;
    case 8: resize(&titles, titles.length - 1); break;
    case 9: resize(&rules, rules.length + 1); break;
    case 10: halves(7, 1, 5, 1, 6); break;
    case 11:
        if (f->state == ANY_STATE)
            a.c = ledger.length / 24;
        else
            put_byte(&ledger, 24 * 5, 4);
        break;
    case 12:
        if (f->after == after_check_out)
            put_byte(&ledger, 24 * 5 + 4, 0);
        if (f == named("move out"))
            put_byte(&rules, 32 * 7 + 16, 0x80);
        if (f == named("move in"))
            put_byte(&ledger, 24 * 5 + 3, 0);
        break;
    case 13: a.h++; break;
    case 14: title_half(8, 5); break;
    case 15: put_byte(&ledger, 24 * 5 + 4, 14); break;
    case 16: a.f1 = a.title_key; break;
    case 17: count = COUNTER_BASKET_SIZE + 1; break;
    case 18: resize(&scratch_titles, scratch_titles.length - 1); break;
    default: exit(2);
    }
}

/*
 * The same, where there is another way: a text of no bytes, no kind at all, a table of the other pair, in an audio call an f2
 * that leaves the STI key, the greatest count, or another scratch buffer.
 */
static void meet_otherwise(const struct function *f, unsigned number)
{
    if (number == 1)
        resize(&text, 0);
    else if (number == 3)
        a.kind = 0;
    else if (number == 17)
        count = TOP;
    else if (number == 18)
        resize(&scratch_rules, scratch_rules.length + 1);
    else if (number == 8 && f->ready != ready_format)
        of_other_pair(&titles);
    else if (number == 9 && f->ready != ready_format)
        of_other_pair(&rules);
    else if (number == 16 && f->kind == FULL && pair == COUNTER_AUDIO)
        a.f2 = a.sti_key;
    else
        meet(f, number);
}

/* Each set of a function's conditions at once: the one tested first is answered. The empty set is done. */
static void all_sets_of_refusals(void (*met)(const struct function *f, unsigned number))
{
    for (size_t i = 0; i < FUNCTIONS; i++) {
        const struct function *f = &functions[i];
        size_t count = strlen((const char *)f->refusals);

        for (unsigned set = 0; set < 1u << count; set++) {
            uint64_t answer = 0;

            begin(f, 64, 5, 7);
            for (size_t k = count; k > 0; k--)
                if (set >> (k - 1) & 1) {
                    met(f, f->refusals[k - 1]);
                    answer = f->refusals[k - 1];
                }
            CHECK(f, answer);
        }
    }
}

static void sets_of_refusals(void)
{
    all_sets_of_refusals(meet);
    all_sets_of_refusals(meet_otherwise);
}

/* ---------------------------------------------------------------- arguments */

static void content_ids(void)
{
    static const uint64_t ids[] = {0, 1, 63, 64, 65, 66, 999, 1000, 1023, 1024 + 5, 65536 + 5, ((uint64_t)1 << 32) + 5, TOP};

    for (size_t i = 0; i < FUNCTIONS; i++) {
        const struct function *f = &functions[i];

        if (!refuses(f, 4) || f == named("format ledger"))
            continue;
        for (size_t k = 0; k < COUNT_OF(ids); k++) {
            int in_range = 1 <= ids[k] && ids[k] <= 999;

            begin(f, 64, in_range ? ids[k] : 5, 7);
            a.c = ids[k];
            CHECK(f, !in_range ? 4 : refuses(f, 11) && ids[k] > 64 ? 11 : 0);
        }
    }
}

static void entry_numbers(void)
{
    static const uint64_t entries[] = {0, 1, 2, 998, 999, 1000, 65536 + 7, ((uint64_t)1 << 60) + 7, TOP};

    for (size_t i = 0; i < FUNCTIONS; i++) {
        const struct function *f = &functions[i];

        if (!refuses(f, 5))
            continue;
        for (size_t k = 0; k < COUNT_OF(entries); k++) {
            int in_range = 1 <= entries[k] && entries[k] <= 999;

            begin(f, 64, 5, in_range ? entries[k] : 7);
            a.j = entries[k];
            CHECK(f, in_range ? 0 : 5);
        }
    }
}

static void set_fact(size_t fact, uint64_t value)
{
    switch (fact) {
    case 0: a.cci = value; break;
    case 1: a.trigger = value; break;
    case 2: a.rights = value; break;
    case 3: a.permits = value; break;
    case 4: a.title_key = value; break;
    default: a.sti_key = value; break;
    }
}

static void facts(void)
{
    static const uint64_t values[] = {0,   1,   2,   3,   4,   14,  15,  16,
                                      255, 256, 257, KEY_LIMIT - 1, KEY_LIMIT, KEY_LIMIT + 1, TOP};
    static const uint64_t limits[] = {4, 2, 16, 16, KEY_LIMIT, KEY_LIMIT};

    for (size_t i = 0; i < FUNCTIONS; i++)
        for (size_t fact = 0; fact < 6 && refuses(&functions[i], 6); fact++)
            for (size_t k = 0; k < COUNT_OF(values); k++) {
                int good = values[k] < limits[fact] && !(fact == 0 && values[k] == 1);

                begin(&functions[i], 64, 5, 7);
                set_fact(fact, values[k]);
                CHECK(&functions[i], good ? 0 : 6);
            }
}

/* Tables and arguments such that f is done, with these keys. */
static void begin_with_keys(const struct function *f, uint64_t title_key, uint64_t sti_key)
{
    begin(f, 64, 5, 7);
    a.title_key = title_key;
    a.sti_key = sti_key;
    f->ready();
}

/*
 * A filler that leaves a key is refused, whatever its top byte; the last bit decides. "In picture calls condition 16 looks at
 * f1 only": there an f2 that leaves the STI key is written like any other, which shows in the reserved byte before the key.
 */
static void fillers_for(const struct function *f, uint64_t title_key, uint64_t sti_key, uint64_t top)
{
    begin_with_keys(f, title_key, sti_key);
    a.f1 = top + title_key;
    CHECK(f, 16);
    begin_with_keys(f, title_key, sti_key);
    a.f1 = top + (title_key ^ 1);
    CHECK(f, 0);
    begin_with_keys(f, title_key, sti_key);
    a.f2 = top + sti_key;
    put(&rules, 32 * 7, 8, ((uint64_t)0x5a << 56) + sti_key); /* beside a copy it is no key */
    CHECK(f, f->kind == FULL && pair == COUNTER_AUDIO ? 16 : 0);
    begin_with_keys(f, title_key, sti_key);
    a.f2 = top + (sti_key ^ (KEY_LIMIT >> 1));
    CHECK(f, 0);
    begin_with_keys(f, title_key, sti_key);
    a.f1 = top + sti_key;
    a.f2 = top + title_key;
    CHECK(f, 0);
    begin_with_keys(f, title_key, sti_key);
    a.f1 = top + title_key;
    a.f2 = top + sti_key;
    CHECK(f, 16);
}

static void fillers(void)
{
    static const uint64_t keys[][2] = {{0x11223344556677, 0x8899aabbccddee}, {0, KEY_LIMIT - 1}, {KEY_LIMIT - 1, 0}};
    static const uint64_t tops[] = {0, 1, 0x80, 0xff};

    for (size_t i = 0; i < FUNCTIONS; i++)
        for (size_t n = 0; n < COUNT_OF(keys) && refuses(&functions[i], 16); n++)
            for (size_t k = 0; k < COUNT_OF(tops); k++)
                fillers_for(&functions[i], keys[n][0], keys[n][1], tops[k] << 56);
}

/* A copy has no STI key: for its delete f2 to f4 are any numbers, also that in its rule half. */
static void fillers_beside_a_copy(void)
{
    const struct function *f = named("delete of a copy");
    static const uint64_t any[] = {0, 1, 0x11223344556677, 0x8899aabbccddee, KEY_LIMIT - 1, KEY_LIMIT, TOP};

    for (size_t k = 0; k < COUNT_OF(any); k++) {
        begin(f, 64, 5, 7);
        put(&rules, 32 * 7 + 1, 7, any[k]);
        a.f2 = a.f3 = a.f4 = any[k];
        CHECK(f, 0);
        begin(f, 64, 5, 7);
        put(&rules, 32 * 7 + 1, 7, any[k]);
        a.f2 = a.f3 = a.f4 = any[k];
        a.f1 = a.title_key;
        CHECK(f, 16);
    }
}

static void hashes(void)
{
    static const uint64_t stored[] = {0, 1, 0x0123456789abcdef, TOP};

    for (size_t k = 0; k < COUNT_OF(stored); k++)
        for (unsigned bit = 0; bit <= 64; bit++) {
            begin(named("move out"), 64, 5, 7);
            put(&rules, 32 * 7 + 18, 8, stored[k]);
            a.h = bit < 64 ? stored[k] ^ ((uint64_t)1 << bit) : stored[k];
            CHECK(named("move out"), bit < 64 ? 13 : 0);
        }
}

static void arguments(void)
{
    content_ids();
    entry_numbers();
    facts();
    fillers();
    fillers_beside_a_copy();
    hashes();
}

/* ---------------------------------------------------------------- tables */

/* Wrong lengths; a buffer of no bytes is passed as a pointer to the page behind the room, which must not be touched. */
static void lengths(void)
{
    static const size_t ledger_lengths[] = {0, 1, 23, 24, 25, 64 * 24, 65 * 24 - 1, 65 * 24 + 1, 66 * 24, 24000};
    static const size_t title_lengths[] = {0, 1, 15, 16, 15984, 15999, 16001, 16016, 32000};
    static const size_t rule_lengths[] = {0, 1, 31, 32, 16000, 31968, 31999, 32001, 32032};

    for (size_t i = 0; i < FUNCTIONS; i++) {
        const struct function *f = &functions[i];

        for (size_t k = 0; k < COUNT_OF(ledger_lengths) && refuses(f, 7); k++) {
            begin(f, 64, 5, 7);
            resize(&ledger, ledger_lengths[k]);
            CHECK(f, 7);
        }
        for (size_t k = 0; k < COUNT_OF(title_lengths) && refuses(f, 8); k++) {
            begin(f, 64, 5, 7);
            resize(&titles, title_lengths[k]);
            CHECK(f, 8);
        }
        for (size_t k = 0; k < COUNT_OF(rule_lengths) && refuses(f, 9); k++) {
            begin(f, 64, 5, 7);
            resize(&rules, rule_lengths[k]);
            CHECK(f, 9);
        }
    }
}

/*
 * Each byte of a head one more and one less. In `ignored`, for each byte: 0 tested, 1 ignored, v a version of which more is
 * no error, a the card's application number, r the ledger's, which is wrong in a card's sight.
 */
static void heads(struct buffer *b, const char *ignored, unsigned number)
{
    for (size_t i = 0; i < FUNCTIONS; i++) {
        const struct function *f = &functions[i];

        if (!refuses(f, number) || f->ready == ready_format)
            continue;
        for (size_t at = 0; ignored[at] != 0; at++)
            for (unsigned step = 1; step < 256; step += 254) {
                int kept = ignored[at] == '1' || (ignored[at] == 'a' && !refuses(f, 7)) ||
                           (ignored[at] == 'v' && step == 1) || (ignored[at] == 'r' && !refuses(f, 8));

                begin(f, 64, 5, 7);
                put_byte(b, at, wanted(b)[at] + step);
                CHECK(f, kept ? 0 : ignored[at] == 'r' ? 9 : number);
            }
    }
}

static void all_heads(void)
{
    heads(&ledger, "rr0011111111111111111111", 7);
    heads(&titles, "0010000000000011", 8);
    heads(&rules, "001v0000aa0000111111111111111111", 9);
}

/*
 * Each title table beside each rule table. A card of the other pair meets 8, as any title table does that is not of the
 * call's pair; the rule table is tested after it.
 */
static void pairs(void)
{
    static const struct { uint64_t titles, rules, audio, picture; } cards[] = {
        {A1, M1, 0, 8}, {A1, P1, 9, 8}, {A1, A1, 9, 8}, {P1, P1, 8, 0}, {P1, M1, 8, 9}, {P1, A1, 8, 9},
        {M1, M1, 8, 8}, {M1, P1, 8, 8}, {M1, A1, 8, 8},
    };

    for (size_t i = 0; i < FUNCTIONS; i++) {
        const struct function *f = &functions[i];

        for (size_t k = 0; k < COUNT_OF(cards) && refuses(f, 8) && f->ready != ready_format; k++) {
            begin(f, 64, 5, 7);
            put(&titles, 0, 2, cards[k].titles);
            put(&rules, 0, 2, cards[k].rules);
            CHECK(f, pair == COUNTER_AUDIO ? cards[k].audio : cards[k].picture);
        }
    }
}

static void versions(void)
{
    for (size_t i = 0; i < FUNCTIONS; i++) {
        const struct function *f = &functions[i];

        for (unsigned version = 0; version < 256 && f->ready != ready_format; version++) {
            if (refuses(f, 8)) {
                begin(f, 64, 5, 7);
                put_byte(&titles, 3, version);
                CHECK(f, version == 0x09 || version == 0x10 ? 0 : 8);
            }
            if (refuses(f, 9)) {
                begin(f, 64, 5, 7);
                put_byte(&rules, 3, version);
                CHECK(f, version >= 0x11 ? 0 : 9);
            }
        }
    }
}

/* A head that says another R than its length. */
static void row_counts(void)
{
    static const uint64_t said[] = {0, 1, 63, 65, 999, 1000, 64 + 256, 65535};

    for (size_t i = 0; i < FUNCTIONS; i++) {
        const struct function *f = &functions[i];

        if (!refuses(f, 7) || f->ready == ready_format)
            continue;
        for (size_t k = 0; k < COUNT_OF(said); k++) {
            begin(f, 64, 5, 7);
            put(&ledger, 2, 2, said[k]);
            CHECK(f, 7);
        }
        begin(f, 64, 5, 7);
        resize(&ledger, 24);
        put(&ledger, 2, 2, 0);
        CHECK(f, 7);
        begin(f, 64, 5, 7);
        resize(&ledger, 24 * 1001);
        put(&ledger, 2, 2, 1000);
        CHECK(f, 7);
    }
}

/* Rows and entries at the ends of their tables and past 255, and rows above R, which an entry may name too. */
static void places(void)
{
    static const struct { uint64_t rows, c, j; } places[] = {
        {1, 1, 999}, {1, 2, 999}, {999, 999, 1}, {999, 1, 999}, {300, 256, 512}, {64, 64, 7}, {64, 65, 7}, {64, 999, 7},
    };

    for (size_t i = 0; i < FUNCTIONS; i++) {
        const struct function *f = &functions[i];

        for (size_t k = 0; k < COUNT_OF(places) && refuses(f, 7) && f->ready != ready_format; k++) {
            begin(f, places[k].rows, places[k].c, places[k].j);
            CHECK(f, places[k].c > places[k].rows && refuses(f, 11) ? 11 : 0);
        }
    }
}

/* Applications of which ledger and card agree; and a trigger of 1, which goes along where nothing asks for it. */
static void applications_and_triggers(void)
{
    static const uint64_t applications[] = {0, 1, 0x00ff, 0xff00, 0xffff};

    for (size_t i = 0; i < FUNCTIONS; i++) {
        const struct function *f = &functions[i];

        for (size_t k = 0; k < COUNT_OF(applications) && f->ready != ready_format; k++) {
            begin(f, 64, 5, 7);
            put(&ledger, 0, 2, applications[k]);
            put(&rules, 8, 2, applications[k]);
            CHECK(f, 0);
        }
        begin(f, 64, 5, 7);
        a.trigger = 1;
        f->ready();
        CHECK(f, f == named("move out") || f == named("move in") ? 12 : 0);
    }
}

static void formatting(void)
{
    static const uint64_t rows[] = {0, 1, 2, 64, 255, 256, 998, 999, 1000, 65535, 65536 + 2, ((uint64_t)1 << 61) + 1, TOP};
    static const uint64_t applications[] = {0, 1, 0x00ff, 0xff00, 0xeeee, 0xffff};
    /* the lengths that an R out of range would ask for, also with R cut to 16 or 32 bits, or 24 (R + 1) to 64 */
    static const struct { uint64_t rows; size_t length; } out_of_range[] = {
        {0, 0}, {0, 24}, {1000, 24024}, {65535, 24}, {65536 + 2, 72}, {(uint64_t)1 << 32, 24}, {((uint64_t)1 << 61) + 1, 48},
        {TOP, 0}, {TOP, 24},
    };

    for (size_t k = 0; k < COUNT_OF(out_of_range); k++) {
        begin(named("format ledger"), 64, 5, 7);
        a.rows = out_of_range[k].rows;
        resize(&ledger, out_of_range[k].length);
        CHECK(named("format ledger"), 4);
    }
    for (size_t k = 0; k < COUNT_OF(rows); k++)
        for (size_t step = 0; step < 3; step++) {
            begin(named("format ledger"), 64, 5, 7);
            a.rows = rows[k];
            resize(&ledger, (24 * (size_t)(rows[k] % 1001 + 1)) + step - 1);
            ready_format();
            CHECK(named("format ledger"), rows[k] < 1 || 999 < rows[k] ? 4 : step == 1 ? 0 : 7);
        }
    for (size_t k = 0; k < COUNT_OF(applications); k++) {
        begin(named("format ledger"), 64, 5, 7);
        a.application = applications[k];
        CHECK(named("format ledger"), 0);
        begin(named("format card"), 64, 5, 7);
        a.application = applications[k];
        CHECK(named("format card"), 0);
    }
}

/* Formatting looks at no bytes: a used card of either pair becomes a fresh one of the call's pair. */
static void formatting_anew(void)
{
    const struct function *f = named("format card");

    for (unsigned other = 0; other < 2; other++) {
        begin(f, 64, 5, 7);
        fresh_card(0xeeee);
        ready_full();
        if (other) {
            of_other_pair(&titles);
            of_other_pair(&rules);
        }
        CHECK(f, 0);
    }
}

static void heads_and_places(void)
{
    lengths();
    all_heads();
    pairs();
    versions();
    row_counts();
    places();
    applications_and_triggers();
    formatting();
    formatting_anew();
}

/* ---------------------------------------------------------------- entries and rows */

/* No title, the title of the row and another, and the limits of the IDs of titles. */
static const uint64_t ids[] = {0, 1, 5, 6, 999, 1000, 1023};

typedef void with_entry(uint64_t title_flag, uint64_t title_id, uint64_t cci, uint64_t rule_flag, uint64_t rule_id);

/* All flags, IDs and CCI of an entry. */
static void each_entry(with_entry *with)
{
    for (size_t n = 0; n < 2 * 2 * 4 * COUNT_OF(ids) * COUNT_OF(ids); n++) {
        size_t k = n / 16;

        with(n % 2, ids[k % COUNT_OF(ids)], n / 4 % 4, n / 2 % 2, ids[k / COUNT_OF(ids)]);
    }
}

/* "at which no record, check-out or move in is answered 10" */
static void told_vacant(int vacant)
{
    CHECK(named("first vacant"), COUNTER_DONE);
    same(__LINE__, "first vacant", "told entry 7", *place_told(VACANCY) == 7, vacant);
}

/*
 * Each entry of flags and IDs, for each function that needs a kind. A call that finds its kind finds its row too if that is row 5.
 * "Calls that needed a free entry accept free or spent, so no earlier answer changes": they need what free was before.
 */
static void kinds_of(const struct function *f, uint64_t title_flag, uint64_t title_id, uint64_t cci)
{
    for (uint64_t rule_flag = 0; rule_flag < 2; rule_flag++)
        for (size_t k = 0; k < COUNT_OF(ids); k++) {
            enum kind kind = kind_of(title_flag, title_id, cci, rule_flag, ids[k]);
            int no_half_usable = !usable(title_flag, title_id) && !usable(rule_flag, ids[k]);
            int other_row = f->kind != VACANT && f->state != ANY_STATE && title_id != 5;

            begin(f, 64, 5, 7);
            a.cci = f->kind == VACANT ? a.cci : cci;
            halves(7, title_flag, title_id, rule_flag, ids[k]);
            put(&titles, 16 * 7, 1, cci);
            if (f->kind == VACANT)
                told_vacant(no_half_usable);
            if (f->kind == COPY && kind == FULL && f->call == call_delete)
                CHECK(f, 11);
            else if (f->kind == FULL && kind == COPY && f->call == call_delete)
                CHECK(named("delete of a copy"), 0);
            else if (f->kind == VACANT ? no_half_usable : kind == f->kind)
                CHECK(f, other_row ? 11 : 0);
            else
                CHECK(f, 10);
        }
}

static void kinds(void)
{
    for (size_t i = 0; i < FUNCTIONS; i++)
        for (uint64_t title_flag = 0; title_flag < 2 && functions[i].kind != NO_ENTRY; title_flag++)
            for (size_t k = 0; k < COUNT_OF(ids); k++)
                for (uint64_t cci = 0; cci < 4; cci++)
                    kinds_of(&functions[i], title_flag, ids[k], cci);
}

/* Each state of the row, the facts of a row that is here each in range and past it. */
static void states(void)
{
    for (size_t i = 0; i < FUNCTIONS; i++) {
        const struct function *f = &functions[i];

        for (unsigned state = 0; state < 256 && f->kind != NO_ENTRY; state++) {
            begin(f, 64, 5, 7);
            put_byte(&ledger, 24 * 5, state);
            CHECK(f, f->state == ANY_STATE || state == (unsigned)f->state ? 0 : 11);
        }
    }
}

/* Bytes 1 to 4 of a row that is here, for a call that needs it here; in any other state they are not looked at. */
static void facts_of_rows(void)
{
    static const unsigned most[] = {0, 3, 1, 15, 15};

    for (size_t i = 0; i < FUNCTIONS; i++) {
        const struct function *f = &functions[i];

        for (size_t at = 1; at < 5 && f->state != ANY_STATE; at++)
            for (unsigned value = most[at] + 1; value < 256; value += 17) {
                begin(f, 64, 5, 7);
                put_byte(&ledger, 24 * 5 + at, value);
                CHECK(f, f->state == HERE ? 11 : 0);
                begin(f, 64, 5, 7);
                here_row(5);
                put_byte(&ledger, 24 * 5 + at, value);
                CHECK(f, 11);
            }
        if (f->state == HERE) {
            begin(f, 64, 5, 7);
            put_byte(&ledger, 24 * 5 + 1, 1);
            CHECK(f, 11);
        }
    }
}

/* The zero bytes of a row are not looked at, kept where a byte 4 alone changes, and written where the state changes. */
static void zero_bytes_of_rows(void)
{
    static const size_t zeros[] = {5, 6, 7, 15, 23};

    for (size_t i = 0; i < FUNCTIONS; i++) {
        const struct function *f = &functions[i];

        for (size_t k = 0; k < COUNT_OF(zeros); k++) {
            begin(f, 64, 5, 7);
            if (f->ready == ready_format)
                continue;
            put_byte(&ledger, 24 * 5 + zeros[k], 0x81);
            CHECK(f, 0);
        }
        /* "Other states have bytes 1-23 written as zero. Reading ignores the zero bytes" */
        for (size_t at = 1; at < 24 && (f->state == EMPTY || f->state == AWAY); at++) {
            begin(f, 64, 5, 7);
            put_byte(&ledger, 24 * 5 + at, 0xff);
            CHECK(f, 0);
        }
    }
}

static void set_bits(struct buffer *b, size_t at, unsigned bits)
{
    put_byte(b, at, wanted(b)[at] | bits);
}

/* Sets every reserved bit of a half. */
static void set_reserved_bits_of(struct buffer *b, uint64_t j)
{
    static const uint8_t title_bits[16] = {0xfc, 0, 0, 0, 0, 0, 0, 0, 0x7f, 0xff, 0xff, 0xff, 0xff, 0xff, 0xfc, 0};
    static const uint8_t rule_bits[32] = {0xff, 0, 0, 0, 0, 0, 0, 0, 0x7f, 0xff, 0xff, 0xff, 0xff, 0xff, 0xfc, 0,
                                          0x7f, 0, 0, 0, 0, 0, 0, 0, 0, 0, 0xff, 0xff, 0xff, 0xff, 0xff, 0xff};
    const uint8_t *bits = b == &titles ? title_bits : rule_bits;
    size_t size = b == &titles ? sizeof title_bits : sizeof rule_bits;

    for (size_t at = 0; at < size; at++)
        set_bits(b, size * j + at, bits[at]);
}

/* The same of both halves of an entry. */
static void set_reserved_bits(uint64_t j)
{
    set_reserved_bits_of(&titles, j);
    set_reserved_bits_of(&rules, j);
}

/* Reserved bits before a write or a wipe: a write leaves none, a wipe keeps those that it does not name. */
static void reserved_bits(void)
{
    for (size_t i = 0; i < FUNCTIONS; i++) {
        const struct function *f = &functions[i];

        if (f->kind == NO_ENTRY)
            continue;
        begin(f, 64, 5, 7);
        set_reserved_bits(7);
        CHECK(f, 0);
        /* stale IDs with flag 0, of which 999 is the last of a spent entry, and any key */
        for (uint64_t id = 998; id < 1024 && f->kind == VACANT; id++) {
            begin(f, 64, 5, 7);
            put(&titles, 16 * 7, 8, TOP);
            put(&titles, 16 * 7 + 8, 8, (TOP >> 1) - 1023 + id);
            put(&rules, 32 * 7, 8, TOP);
            put(&rules, 32 * 7 + 8, 8, TOP >> 1);
            put(&rules, 32 * 7 + 16, 8, TOP);
            put(&rules, 32 * 7 + 24, 8, TOP);
            CHECK(f, 0);
        }
    }
}

/* Bytes of the rows and halves beside those of a call: a step over the edge shows, also one that writes zeros. */
static void neighbours(void)
{
    for (size_t i = 0; i < FUNCTIONS; i++) {
        const struct function *f = &functions[i];

        if (f->ready == ready_format)
            continue;
        begin(f, 64, 5, 7);
        put_byte(&ledger, 24 * 5 - 1, 0xff);
        put_byte(&ledger, 24 * 6, 0xff);
        put_byte(&titles, 16 * 7 - 1, 0xff);
        put_byte(&titles, 16 * 8, 0xff);
        put_byte(&rules, 32 * 7 - 1, 0xff);
        put_byte(&rules, 32 * 8, 0xff);
        CHECK(f, 0);
    }
}

static void entries_and_rows(void)
{
    kinds();
    states();
    facts_of_rows();
    zero_bytes_of_rows();
    reserved_bits();
    neighbours();
}

/* ---------------------------------------------------------------- counts */

/* Every count of permits: less 1 on a check-out, plus 1 on a check-in, 15 unchanged. */
static void permits(void)
{
    for (uint64_t n = 0; n <= 16; n++) {
        begin(named("check-out"), 64, 5, 7);
        a.permits = n;
        here_row(5);
        CHECK(named("check-out"), n == 0 ? 12 : n == 16 ? 11 : 0);
        begin(named("check-in"), 64, 5, 7);
        a.permits = n;
        here_row(5);
        CHECK(named("check-in"), n == 14 ? 15 : n == 16 ? 11 : 0);
    }
}

/* "Check-out writes CCI 3 where the row has 2; 0 and 3 pass through", and the row keeps its own. */
static void generations(void)
{
    static const struct { uint64_t row, copy; } lent[] = {{0, 0x00}, {2, 0x03}, {3, 0x03}};

    for (size_t k = 0; k < COUNT_OF(lent); k++) {
        begin(named("check-out"), 64, 5, 7);
        a.cci = lent[k].row;
        here_row(5);
        CHECK(named("check-out"), 0);
        same(__LINE__, "check-out", "first byte", bytes(&titles)[16 * 7], lent[k].copy);
        same(__LINE__, "check-out", "CCI of the row", bytes(&ledger)[24 * 5 + 1], lent[k].row);
    }
}

/* A copy of any CCI comes back or is deleted, whatever its row has: one that says 2 was lent by an older library. */
static void copies_of_any_cci(const struct function *f)
{
    for (uint64_t row_cci = 0; row_cci < 4; row_cci++)
        for (uint64_t cci = 0; cci < 4; cci++)
            if (row_cci != 1 && cci != 1) {
                begin(f, 64, 5, 7);
                put(&ledger, 24 * 5 + 1, 1, row_cci);
                put(&titles, 16 * 7, 1, cci);
                CHECK(f, 0);
            }
}

/* Every count of rights, with both triggers: less 1 on a move, 15 unchanged; the permits go along. */
static void rights(void)
{
    for (uint64_t n = 0; n <= 15; n++)
        for (uint64_t trigger = 0; trigger < 2; trigger++) {
            begin(named("move in"), 64, 5, 7);
            a.rights = n;
            a.trigger = trigger;
            a.permits = 15 - n;
            here_row(5);
            CHECK(named("move in"), n == 0 || trigger == 1 ? 12 : 0);
            begin(named("move out"), 64, 5, 7);
            a.rights = n;
            a.trigger = trigger;
            a.permits = 15 - n;
            rule_half(7, 5);
            CHECK(named("move out"), n == 0 || trigger == 1 ? 12 : 0);
        }
}

/* A move in beside a copy: at any entry, of the title itself, and a copy indeed. */
static void copies_beside(void)
{
    const struct function *f = named("move in");
    static const uint64_t entries[] = {1, 2, 3, 4, 6, 8, 500, 998, 999};

    for (size_t k = 0; k < COUNT_OF(entries); k++) {
        begin(f, 64, 5, 7);
        title_half(entries[k], 5);
        CHECK(f, 14);
        begin(f, 64, 5, 7);
        title_half(entries[k], 6);
        CHECK(f, 0);
        begin(f, 64, 5, 7);
        title_half(entries[k], 5);
        halves(entries[k], 0, 5, 0, 0);
        CHECK(f, 0);
        begin(f, 64, 5, 7);
        title_half(entries[k], 5);
        rule_half(entries[k], 5);
        CHECK(f, 0);
        begin(f, 64, 5, 7);
        title_half(entries[k], 5);
        put_byte(&titles, 16 * entries[k], 1);
        CHECK(f, 0);
        begin(f, 64, 5, 7);
        halves(entries[k], 1, 5, 1, 6);
        CHECK(f, 0);
    }
    begin(f, 64, 5, 7);
    halves(0, 1, 5, 0, 0);
    CHECK(f, 8);
}

/* A move in to entry j that is refused where a copy of its title is first in that entry. */
static void found_in(int line, uint64_t first)
{
    check(line, named("move in"), COUNTER_COPY_OUT);
    same(line, "move in", "entries read", entries_read, first);
}

/* How far the search for a copy goes: to the first, whatever stands before and behind it. */
static void entries_read_to_a_copy(void)
{
    for (uint64_t first = 1; first <= 999; first++) {
        begin(named("move in"), 64, 5, first == 7 ? 8 : 7);
        title_half(first, 5);
        found_in(__LINE__, first);
    }
    begin(named("move in"), 64, 5, 7);
    for (uint64_t first = 999; first >= 8; first -= 1 + first % 5) {
        title_half(first, 5);
        found_in(__LINE__, first);
    }
    /* the copies leave from the first on, and then their IDs stand before it, with copies of another title between them */
    for (uint64_t j = 8; j <= 999; j++) {
        if (kind_at(j) != COPY)
            title_half(j, 6);
        else if (id_at(j) == 5) {
            found_in(__LINE__, j);
            halves(j, 0, 5, 0, 0);
        }
    }
    CHECK(named("move in"), 0);
    same(__LINE__, "move in", "entries read", entries_read, 999);
}

static void want_copies(int line, uint64_t count)
{
    settle();
    copies = 0xcccc;
    same(line, "tally", "answered", call_tally(), 0);
    same(line, "tally", "counted", copies, count);
    compare(line, "tally", &titles);
    compare(line, "tally", &rules);
}

static void tallies(void)
{
    static const uint64_t ids[] = {1, 5, 512, 999};

    for (size_t k = 0; k < COUNT_OF(ids); k++) {
        begin(named("format ledger"), 64, ids[k], 7);
        fresh_card(0xffff);
        want_copies(__LINE__, 0);
        for (uint64_t j = 1; j <= 999; j++) {
            title_half(j, ids[k]);
            if (j % 100 < 3)
                want_copies(__LINE__, j);
        }
        want_copies(__LINE__, 999);
        for (uint64_t j = 1; j <= 250; j++)
            halves(j, 0, ids[k], 0, 0);
        want_copies(__LINE__, 749);
        for (uint64_t j = 251; j <= 500; j++)
            rule_half(j, ids[k]);
        want_copies(__LINE__, 499);
        for (uint64_t j = 501; j <= 750; j++)
            title_half(j, ids[k] - 1);
        want_copies(__LINE__, 249);
    }
}

/* Entries 3 to 9 with a title half and entries 5 to 11 with a rule half, of all flags and IDs: only a copy is counted. */
static void tally_of(uint64_t title_flag, uint64_t title_id, uint64_t cci, uint64_t rule_flag, uint64_t rule_id)
{
    uint64_t count = 0;

    begin(named("format ledger"), 64, 5, 7);
    fresh_card(APPLICATION);
    for (uint64_t j = 3; j <= 11; j++) {
        uint64_t title = j <= 9 ? title_flag : 0, rule = j >= 5 ? rule_flag : 0;

        halves(j, title, title_id, rule, rule_id);
        put(&titles, 16 * j, 1, cci);
        if (j % 2 == 0)
            set_reserved_bits(j);
        count += title_id == 5 && kind_of(title, title_id, cci, rule, rule_id) == COPY;
    }
    want_copies(__LINE__, count);
}

/* A title's way through the shop, each call on what the last one left, and the sheet after each. */
static void a_history(void)
{
    static const struct { const char *name; uint64_t j, answer; } steps[] = {
        {"register", 0, 0},    {"register", 0, 11},  {"check-out", 7, 0},  {"check-out", 7, 10}, {"move in", 9, 14},
        {"check-in", 7, 0},    {"check-in", 7, 10},  {"move in", 9, 0},    {"check-out", 8, 11}, {"move out", 9, 0},
        {"check-out", 999, 0}, {"check-out", 1, 12},
    };

    begin(named("register"), 64, 5, 7);
    a.permits = 1;
    a.rights = 2;
    for (size_t k = 0; k < COUNT_OF(steps); k++) {
        const struct function *f = named(steps[k].name);

        a.j = steps[k].j;
        a.permits = f == named("check-in") ? 0 : 1;
        CHECK(f, steps[k].answer);
        CHECK(named("sheet"), 0);
        CHECK(named("inspect title"), 0);
        same(__LINE__, "history", "holders", *place_told(HOLDERS), 1);
        if (f == named("move in") && steps[k].answer == 0)
            a.rights = 1;
    }
    /* the rights are used up, and the row is the one that a copy left */
    same(__LINE__, "history", "rights", bytes(&ledger)[24 * 5 + 3], 0);
    same(__LINE__, "history", "permits", bytes(&ledger)[24 * 5 + 4], 0);
    a.j = 999;
    CHECK(named("delete of a copy"), 0);
    CHECK(named("move in"), 12);
}

/* Calls of both pairs by turns, as in a shop that has both: none leaves anything behind for the next. */
static void by_turns(void)
{
    for (size_t i = 0; i < FUNCTIONS; i++)
        for (unsigned turn = 0; turn < 4; turn++) {
            take(turn % 2 == 0 ? COUNTER_AUDIO : COUNTER_PICTURE);
            begin(&functions[i], 64, 5, 7);
            CHECK(&functions[i], 0);
        }
}

static void permits_rights_and_copies(void)
{
    permits();
    generations();
    copies_of_any_cci(named("check-in"));
    copies_of_any_cci(named("delete of a copy"));
    rights();
    copies_beside();
    entries_read_to_a_copy();
    tallies();
    each_entry(tally_of);
    a_history();
}

/* ---------------------------------------------------------------- sheets */

/* Fresh tables. */
static void fresh(uint64_t rows) { begin(named("register"), rows, 5, 7); }

static void here(uint64_t c, uint64_t row_permits, uint64_t row_rights)
{
    a.permits = row_permits;
    a.rights = row_rights;
    here_row(c);
}

static void full(uint64_t j, uint64_t c, uint64_t entry_permits, uint64_t entry_rights)
{
    a.permits = entry_permits;
    a.rights = entry_rights;
    title_half(j, c);
    rule_half(j, c);
}

/* Bytes 1 to 23 of a row, as a row that is here has them. */
static void facts_left_behind(uint64_t c)
{
    unsigned state = (unsigned)get(&ledger, 24 * c, 1);

    here(c, 14, 13);
    put_byte(&ledger, 24 * c, state);
}

/* Wants this sheet of the tables, in a text of any length up to a few bytes more than it needs, and in one for any sheet. */
static void want_sheet(int line, const char *expected)
{
    const struct function *f = named("sheet");

    checks++;
    if (strcmp(sheet(), expected) != 0) {
        printf("%sand not\n%s", sheet(), expected);
        fail(line, f->name, "of this test differs", 1, 0);
    }
    for (size_t length = 0; length <= strlen(expected) + 3; length++) {
        resize(&text, length);
        check(line, f, length < strlen(expected) ? COUNTER_TOO_SHORT : COUNTER_DONE);
    }
    resize(&text, COUNTER_SHEET_SIZE);
    check(line, f, COUNTER_DONE);
}

#define WANT_SHEET(expected) want_sheet(__LINE__, expected)

/* No row, the first and the last, and numbers that have one digit more than the one before. */
static void sheets_of_rows(void)
{
    static const uint64_t rows[] = {1, 64, 999};

    for (size_t k = 0; k < COUNT_OF(rows); k++) {
        fresh(rows[k]);
        WANT_SHEET("total 0 0\nspent 0\n");
    }
    fresh(1);
    here(1, 3, 2);
    WANT_SHEET("1 1 3 2 0\ntotal 3 0\nspent 0\n");
    fresh(64);
    here(64, 1, 0);
    here(1, 0, 1);
    WANT_SHEET("1 1 0 1 0\n64 1 1 0 0\ntotal 1 0\nspent 0\n");
    fresh(999);
    here(9, 9, 10);
    here(10, 10, 9);
    here(99, 14, 15);
    here(100, 15, 14);
    here(999, 0, 0);
    WANT_SHEET("9 1 9 10 0\n10 1 10 9 0\n99 1 14 15 0\n100 1 15 14 0\n999 1 0 0 0\ntotal 33 0\nspent 0\n");
}

/* "For an away title permits and rights are those on the card": in its first full entry, 0 where there is none. */
static void sheets_of_away_titles(void)
{
    fresh(64);
    plain_row(5, 2);
    facts_left_behind(5);
    WANT_SHEET("5 2 0 0 0\ntotal 0 0\nspent 0\n");
    full(8, 6, 2, 1); /* another title's entry */
    WANT_SHEET("5 2 0 0 0\ntotal 0 0\nspent 0\n");
    title_half(999, 5);
    WANT_SHEET("5 2 0 0 1\ntotal 0 1\nspent 0\n");
    full(999, 5, 15, 0);
    WANT_SHEET("5 2 15 0 0\ntotal 0 0\nspent 0\n");
    full(7, 5, 4, 3);
    WANT_SHEET("5 2 4 3 0\ntotal 4 0\nspent 0\n");
    full(9, 5, 9, 8);
    WANT_SHEET("5 2 4 3 0\ntotal 4 0\nspent 0\n");
    full(1, 5, 14, 15);
    WANT_SHEET("5 2 14 15 0\ntotal 14 0\nspent 0\n");
    put_byte(&titles, 16 * 1, 1); /* torn by its CCI */
    WANT_SHEET("5 2 4 3 0\ntotal 4 0\nspent 0\n");
    full(2, 5, 14, 15);
    halves(2, 1, 5, 1, 6); /* torn by its IDs */
    full(3, 5, 14, 15);
    halves(3, 0, 5, 1, 5); /* torn, with a rule half alone */
    full(4, 5, 14, 15);
    halves(4, 0, 5, 0, 5); /* spent, with the IDs that it had */
    WANT_SHEET("5 2 4 3 0\ntotal 4 0\nspent 1\n");
    halves(6, 1, 5, 0, 5); /* a copy, whose rule half has a stale ID */
    set_reserved_bits(7);
    WANT_SHEET("5 2 4 3 1\ntotal 4 1\nspent 1\n");
}

/* A row that is here has its own permits and rights, and no other state any, whatever the row's bytes and the card are. */
static void sheets_of_states(void)
{
    for (unsigned state = 0; state < 256; state++) {
        char expected[64] = "total 0 0\nspent 0\n";

        fresh(64);
        full(7, 5, 4, 3);
        title_half(8, 5);
        put_byte(&ledger, 24 * 5, state);
        facts_left_behind(5);
        if (state == HERE)
            strcpy(expected, "5 1 14 13 1\ntotal 14 1\nspent 0\n");
        else if (state == AWAY)
            strcpy(expected, "5 2 4 3 1\ntotal 4 1\nspent 0\n");
        else if (state != EMPTY)
            sprintf(expected, "5 %u 0 0 1\ntotal 0 1\nspent 0\n", state);
        WANT_SHEET(expected);
    }
}

/* Byte 0 is 1 and a fact is out of range: in no state, so that neither the row's permits nor the card's are shown. */
static void sheets_of_facts_out_of_range(void)
{
    static const struct { size_t at; unsigned value; } out_of_range[] = {
        {1, 1}, {1, 4}, {1, 255}, {2, 2}, {2, 255}, {3, 16}, {3, 255}, {4, 16}, {4, 255},
    };

    for (size_t k = 0; k < COUNT_OF(out_of_range); k++) {
        fresh(64);
        full(7, 5, 4, 3);
        here(5, 14, 13);
        here(6, 2, 1);
        put_byte(&ledger, 24 * 5 + out_of_range[k].at, out_of_range[k].value);
        WANT_SHEET("5 1 0 0 0\n6 1 2 1 0\ntotal 2 0\nspent 0\n");
    }
}

/* Copies of every state's titles are counted, and those of rows that have no line are not among the totals. */
static void sheets_of_copies(void)
{
    fresh(64);
    here(1, 15, 15);
    for (uint64_t j = 1; j <= 999; j++)
        title_half(j, 1);
    WANT_SHEET("1 1 15 15 999\ntotal 0 999\nspent 0\n");
    for (uint64_t j = 2; j <= 998; j++)
        halves(j, 0, 1, 0, 0);
    WANT_SHEET("1 1 15 15 2\ntotal 0 2\nspent 997\n");
    for (uint64_t j = 10; j < 20; j++)
        title_half(j, 2);
    plain_row(3, 3);
    title_half(20, 3);
    here(64, 3, 2);
    title_half(21, 64);
    title_half(22, 64);
    title_half(23, 65);
    title_half(24, 999);
    halves(25, 1, 1000, 0, 0);
    halves(26, 1, 64, 1, 3);
    WANT_SHEET("1 1 15 15 2\n3 3 0 0 1\n64 1 3 2 2\ntotal 3 5\nspent 980\n");
    plain_row(2, 2);
    WANT_SHEET("1 1 15 15 2\n2 2 0 0 10\n3 3 0 0 1\n64 1 3 2 2\ntotal 3 15\nspent 980\n");
}

/* Title 5 is here and title 6 away, in entry 8; entries 7 and 9 are as given, with facts in them and in 9 every reserved bit. */
static void beside_entry_8(uint64_t title_flag, uint64_t title_id, uint64_t cci, uint64_t rule_flag, uint64_t rule_id)
{
    fresh(64);
    here(5, 3, 2);
    plain_row(6, 2);
    full(8, 6, 5, 4);
    a.trigger = 1;
    for (uint64_t j = 7; j <= 9; j += 2) {
        full(j, 5, j, 1);
        halves(j, title_flag, title_id, rule_flag, rule_id);
        put(&titles, 16 * j, 1, cci);
    }
    set_reserved_bits(9);
}

static void sheet_of(uint64_t title_flag, uint64_t title_id, uint64_t cci, uint64_t rule_flag, uint64_t rule_id)
{
    beside_entry_8(title_flag, title_id, cci, rule_flag, rule_id);
    CHECK(named("sheet"), 0);
}

/* Up to all entries, each with another ID. Where its number gets a digit, they take turns with what no spent entry is. */
static void sheets_of_spent(void)
{
    fresh(64);
    for (unsigned j = 1; j <= 999; j++) {
        char expected[64];

        halves(j, 0, 1000 - j, 0, 0);
        if (j % 90 > 10 && j < 998)
            continue;
        sprintf(expected, "total 0 0\nspent %u\n", j);
        WANT_SHEET(expected);
        halves(j, 0, 1000 - j, 1, 0); /* with a rule half that is not usable */
        WANT_SHEET(expected);
        sprintf(expected, "total 0 0\nspent %u\n", j - 1);
        halves(j, 0, 1000 - j, 1, 1000 - j); /* torn, with a rule half alone */
        WANT_SHEET(expected);
        halves(j, 1, 0, 0, 1000 - j); /* free */
        WANT_SHEET(expected);
        halves(j, 0, 1000 - j, 0, 0);
    }
}

/* Wants a sheet that ends with this number of spent entries. */
static void want_spent(int line, unsigned number)
{
    char last[32];
    size_t length = (size_t)sprintf(last, "\nspent %u\n", number);

    check(line, named("sheet"), COUNTER_DONE);
    same(line, "sheet", "ends otherwise", memcmp(bytes(&text) + used - length, last, length) != 0, 0);
}

/* A call by which entry 7 becomes spent, and has the ID of the title that it had. */
static void into_spent(const struct function *f)
{
    begin(f, 64, 5, 7);
    want_spent(__LINE__, 0);
    CHECK(f, COUNTER_DONE);
    want_spent(__LINE__, 1);
    same(__LINE__, f->name, "leaves other bytes", memcmp(bytes(&titles) + 16 * 7 + 8, "\0\0\0\0\0\0\0\5", 8) != 0, 0);
}

/* Another title put there leaves what it leaves at an entry of zeros; only a check-out leaves the rule half, which may be wiped. */
static void out_of_spent(const struct function *into, const struct function *f)
{
    int wiped = into->kind == FULL && f->request == COUNTER_CHECK_OUT;
    uint8_t title[16], rule[32];

    begin(f, 64, 6, 7);
    CHECK(f, COUNTER_DONE);
    memcpy(title, bytes(&titles) + 16 * 7, sizeof title);
    memcpy(rule, bytes(&rules) + 32 * 7, sizeof rule);
    into_spent(into);
    set_arguments(64, 6, 7);
    f->ready();
    CHECK(f, COUNTER_DONE);
    want_spent(__LINE__, 0);
    same(__LINE__, f->name, "other title half", memcmp(title, bytes(&titles) + 16 * 7, sizeof title) != 0, 0);
    same(__LINE__, f->name, "other rule half", memcmp(rule, bytes(&rules) + 32 * 7, sizeof rule) != 0, wiped);
}

/* Every way into spent, and from there every way out. */
static void ways_of_spent(void)
{
    static const char *const into[] = {"check-in", "move out", "delete of a copy", "delete of a full entry"};
    static const char *const out[] = {"record", "check-out", "move in"};

    for (size_t i = 0; i < COUNT_OF(into); i++)
        for (size_t k = 0; k < COUNT_OF(out); k++)
            out_of_spent(named(into[i]), named(out[k]));
}

/*
 * The longest sheet: three digits in most rows, two in permits and rights or three in a state, and in copies two wherever the 999
 * entries are enough for them, which is for 99 rows with 10 each. A digit more in the number of spent entries is one less there.
 */
static void longest_sheets(void)
{
    static const struct { unsigned state; size_t length; const char *last; } longest[] = {
        {1, 14001, "\ntotal 13986 999\nspent 0\n"}, {255, 13997, "\ntotal 0 999\nspent 0\n"},
    };

    for (size_t k = 0; k < COUNT_OF(longest); k++) {
        const char *last = longest[k].last;

        fresh(999);
        for (uint64_t c = 1; c <= 999; c++) {
            here(c, 14, 15);
            put_byte(&ledger, 24 * c, longest[k].state);
            title_half(c, (c + 9) / 10);
        }
        same(__LINE__, "sheet", "has bytes", strlen(sheet()), longest[k].length);
        same(__LINE__, "sheet", "ends otherwise", strcmp(sheet() + longest[k].length - strlen(last), last) != 0, 0);
        CHECK(named("sheet"), 0);
        resize(&text, longest[k].length);
        CHECK(named("sheet"), 0);
        resize(&text, longest[k].length - 1);
        CHECK(named("sheet"), 1);
        resize(&text, ROOM);
        CHECK(named("sheet"), 0);
    }
}

static void sheets(void)
{
    sheets_of_rows();
    sheets_of_away_titles();
    sheets_of_states();
    sheets_of_facts_out_of_range();
    sheets_of_copies();
    each_entry(sheet_of);
    sheets_of_spent();
    ways_of_spent();
    longest_sheets();
}

/* ---------------------------------------------------------------- inspections */

/* What the last call told in this place and those after it. */
static void want_told(int line, size_t i, size_t count, const uint64_t *expected)
{
    for (size_t k = 0; k < count; k++)
        same(line, "inspection", "told", *place_told(i + k), expected[k]);
}

#define LIST(...) (const uint64_t[]){__VA_ARGS__}
#define WANT_TOLD(place, ...) want_told(__LINE__, place, COUNT_OF((LIST(__VA_ARGS__))), LIST(__VA_ARGS__))

/* Entry 7 of each kind, the same facts in its halves whatever it is, without reserved bits and with those of either half or both. */
static void inspections_of_kinds(void)
{
    static const struct { uint64_t title_flag, title_id, rule_flag, rule_id, kind, content; } entries[] = {
        {0, 0, 0, 0, 0, 0},    {1, 0, 0, 5, 0, 0},     {0, 1000, 0, 5, 0, 0},    {0, 1023, 1, 0, 0, 0},
        {1, 5, 0, 5, 1, 5},    {1, 999, 1, 0, 1, 999}, {1, 5, 1, 5, 2, 5},       {1, 999, 1, 999, 2, 999},
        {1, 5, 1, 6, 3, 0},    {0, 5, 1, 5, 3, 0},     {1, 1000, 0, 0, 3, 0},    {1, 1023, 1, 1023, 3, 0},
        {1, 5, 1, 1000, 3, 0}, {0, 0, 1, 1000, 3, 0},  {0, 5, 0, 5, 4, 5},       {0, 999, 1, 0, 4, 999},
        {0, 1, 0, 1023, 4, 1},
    };

    for (size_t k = 0; k < 4 * COUNT_OF(entries); k++) {
        size_t e = k / 4;

        begin(named("inspect entry"), 64, 5, 7);
        a.trigger = 1;
        full(7, 5, 13, 14);
        halves(7, entries[e].title_flag, entries[e].title_id, entries[e].rule_flag, entries[e].rule_id);
        if (k & 1)
            set_reserved_bits_of(&titles, 7);
        if (k & 2)
            set_reserved_bits_of(&rules, 7);
        CHECK(named("inspect title"), 0);
        WANT_TOLD(HOLDERS, entries[e].kind == FULL && entries[e].content == 5);
        WANT_TOLD(COPIES, entries[e].kind == COPY && entries[e].content == 5);
        CHECK(named("first vacant"), 0);
        WANT_TOLD(VACANCY, entries[e].kind == FREE || entries[e].kind == SPENT ? 7 : 8);
        CHECK(named("inspect entry"), 0);
        WANT_TOLD(KIND, entries[e].kind);
        WANT_TOLD(CONTENT, entries[e].content);
        if (entries[e].kind == FULL)
            WANT_TOLD(FACT_PLACES, 2, 1, 14, 13, a.title_key, a.sti_key);
        else if (entries[e].kind == COPY)
            WANT_TOLD(FACT_PLACES, 2, 0, 0, 0, a.title_key, 0);
        else
            WANT_TOLD(FACT_PLACES, 0, 0, 0, 0, 0, 0);
    }
}

static void entries_6_to_10(void)
{
    for (a.j = 6; a.j <= 10; a.j++)
        CHECK(named("inspect entry"), 0);
}

static void first_vacant_from_each(void)
{
    static const uint64_t from[] = {1, 7, 8, 9};

    for (size_t k = 0; k < COUNT_OF(from); k++) {
        a.j = from[k];
        CHECK(named("first vacant"), 0);
    }
}

static void titles_5_to_7(void)
{
    for (a.c = 5; a.c <= 7; a.c++)
        CHECK(named("inspect title"), 0);
}

/* All entries; and of each whether it is vacant, from it on and from the first on, and what its title has. */
static void inspections_of(uint64_t title_flag, uint64_t title_id, uint64_t cci, uint64_t rule_flag, uint64_t rule_id)
{
    beside_entry_8(title_flag, title_id, cci, rule_flag, rule_id);
    for (uint64_t j = 1; j <= 6; j++)
        title_half(j, 5);
    entries_6_to_10();
    first_vacant_from_each();
    titles_5_to_7();
}

/* Every count and trigger, and keys at their limits: of a full entry, of the copy that its title half alone is, and of a row. */
static void inspections_of_facts(void)
{
    static const uint64_t keys[] = {0, 1, 0x0123456789abcd, KEY_LIMIT - 1}, ccis[] = {0, 2, 3};

    for (uint64_t n = 0; n < 16 * 2 * COUNT_OF(keys); n++) {
        begin(named("inspect entry"), 64, 5, 7);
        a.cci = ccis[n % COUNT_OF(ccis)];
        a.trigger = n / 16 % 2;
        a.title_key = keys[n / 32];
        a.sti_key = keys[COUNT_OF(keys) - 1 - n / 32];
        here(5, n % 16, 15 - n % 16);
        full(7, 5, n % 16, 15 - n % 16);
        CHECK(named("inspect row"), 0);
        WANT_TOLD(FACT_PLACES, FACTS);
        CHECK(named("inspect entry"), 0);
        WANT_TOLD(FACT_PLACES, FACTS);
        halves(7, 1, 5, 0, 5);
        CHECK(named("inspect entry"), 0);
        WANT_TOLD(FACT_PLACES, a.cci, 0, 0, 0, a.title_key, 0);
    }
}

/* Row 5 with these bytes, and its title, which has a copy and a full entry. */
static void inspect_row_5(enum state state)
{
    ready_tally();
    full(8, 5, 4, 3);
    CHECK(named("inspect row"), 0);
    WANT_TOLD(STATE, state);
    CHECK(named("inspect title"), 0);
    WANT_TOLD(HOLDERS, 1 + (state == HERE));
}

/* A byte 0, with facts in range, none, and bytes that no row that is here has. */
static void row_of_byte_0(unsigned value)
{
    enum state state = value < 4 ? (enum state)value : NO_STATE;

    begin(named("inspect row"), 64, 5, 7);
    put_byte(&ledger, 24 * 5, value);
    inspect_row_5(state);
    plain_row(5, value);
    inspect_row_5(state);
    memset(wanted(&ledger) + 24 * 5 + 1, 0xff, 23);
    inspect_row_5(state == HERE ? NO_STATE : state);
}

/* A row that would be here, with a value in the place of each fact. */
static void rows_with_a_fact(unsigned value)
{
    for (size_t at = 1; at <= 4; at++) {
        begin(named("inspect row"), 64, 5, 7);
        put_byte(&ledger, 24 * 5 + at, value);
        inspect_row_5(value > (const unsigned[]){3, 1, 15, 15}[at - 1] || (at == 1 && value == 1) ? NO_STATE : HERE);
    }
}

static void row_of_bytes_not_looked_at(void)
{
    static const size_t not_looked_at[] = {5, 6, 7, 15, 23};

    begin(named("inspect row"), 64, 5, 7);
    for (size_t k = 0; k < COUNT_OF(not_looked_at); k++)
        put_byte(&ledger, 24 * 5 + not_looked_at[k], 0xff);
    inspect_row_5(HERE);
}

static void inspections_of_rows(void)
{
    for (unsigned value = 0; value < 256; value++) {
        row_of_byte_0(value);
        rows_with_a_fact(value);
    }
    row_of_bytes_not_looked_at();
}

static void want_holders(int line, uint64_t holders, uint64_t lent)
{
    check(line, named("inspect title"), COUNTER_DONE);
    want_told(line, HOLDERS, 1, &holders);
    want_told(line, COPIES, 1, &lent);
}

/* Every entry, beside the row, is made a holder of the title. */
static void ever_more_holders(uint64_t c)
{
    for (uint64_t j = 1; j <= 999; j++) {
        full(j, c, 4, 3);
        if (j % 100 < 3)
            want_holders(__LINE__, 1 + j, 0);
    }
}

/* The halves of the entries from one to another, all with the same ID. */
static void halves_from(uint64_t first, uint64_t last, uint64_t title_flag, uint64_t rule_flag, uint64_t id)
{
    for (uint64_t j = first; j <= last; j++)
        halves(j, title_flag, id, rule_flag, id);
}

/* Up to as many holders as there are places; then copies among them, titles beside them, and what has no title. */
static void inspections_of_title(uint64_t c)
{
    begin(named("register"), 999, c, 7);
    want_holders(__LINE__, 0, 0);
    here_row(c);
    want_holders(__LINE__, 1, 0);
    ever_more_holders(c);
    want_holders(__LINE__, 1000, 0);
    plain_row(c, 2);
    want_holders(__LINE__, 999, 0);
    halves_from(1, 250, 1, 0, c);
    want_holders(__LINE__, 749, 250);
    halves_from(251, 500, 0, 0, c);
    want_holders(__LINE__, 499, 250);
    halves_from(501, 750, 1, 0, c % 999 + 1);
    halves_from(751, 999, 1, 1, c % 999 + 1);
    want_holders(__LINE__, 0, 250);
    put_byte(&titles, 16 * 250, 1); /* torn by its CCI */
    want_holders(__LINE__, 0, 249);
}

static void inspections_of_titles(void)
{
    static const uint64_t titles_of[] = {1, 5, 512, 999};

    for (size_t k = 0; k < COUNT_OF(titles_of); k++)
        inspections_of_title(titles_of[k]);
}

static void want_vacant(int line, uint64_t from, uint64_t entry)
{
    a.j = from;
    check(line, named("first vacant"), COUNTER_DONE);
    want_told(line, VACANCY, 1, &entry);
}

/* An entry that is a copy, full or torn. */
static void take_entry(uint64_t j)
{
    full(j, 5, 4, 3);
    halves(j, j % 5 != 0, 5, j % 3 != 0 || j % 5 == 0, j % 3 + 4);
}

/* Free or spent, by every other number. */
static void vacate_entry(uint64_t j)
{
    halves(j, 0, j % 2 * 5, 0, 5);
}

static void vacate_before_the_last(uint64_t j)
{
    vacate_entry(j);
    want_vacant(__LINE__, 999, 999);
}

static void vacant_at_once(uint64_t j)
{
    want_vacant(__LINE__, j, j);
}

static void none_vacant(uint64_t j)
{
    want_vacant(__LINE__, j, 0);
}

/* Where all others are taken. */
static void only_vacant(uint64_t j)
{
    vacate_entry(j);
    want_vacant(__LINE__, 1, j);
    want_vacant(__LINE__, j, j);
    if (j < 999)
        want_vacant(__LINE__, j + 1, 0);
    take_entry(j);
}

static void each_place(void (*with)(uint64_t j))
{
    for (uint64_t j = 1; j <= 999; j++)
        with(j);
}

/* On a card on which every entry is vacant, none, or each alone. */
static void vacant_alone(void)
{
    fresh(64);
    each_place(vacate_before_the_last);
    each_place(vacant_at_once);
    each_place(take_entry);
    each_place(none_vacant);
    each_place(only_vacant);
}

/* The first of 1, 3, 6, 10 and so on, ever further apart, that is not below j. */
static uint64_t next_apart(uint64_t j)
{
    uint64_t next = 1;

    for (uint64_t step = 2; next < j; step++)
        next += step;
    return next;
}

static void take_between(uint64_t j)
{
    if (next_apart(j) != j)
        take_entry(j);
}

static void vacant_next(uint64_t j)
{
    want_vacant(__LINE__, j, next_apart(j) <= 999 ? next_apart(j) : 0);
}

/* From each entry to the next of those that are vacant. */
static void vacant_apart(void)
{
    fresh(64);
    each_place(take_between);
    each_place(vacant_next);
}

static void inspections(void)
{
    inspections_of_kinds();
    each_entry(inspections_of);
    inspections_of_facts();
    inspections_of_rows();
    inspections_of_titles();
    vacant_alone();
    vacant_apart();
}

/* ---------------------------------------------------------------- baskets */

/*
 * A request of a basket: a call on a row or an entry that has these permits and rights, and its answer. A refusal that comes
 * from the arguments is met with them. The kind is that of "perform"; a call that has one of its own does not look at it.
 */
struct step {
    const char *name;
    uint64_t c, j, permits, rights, answer, kind;
};

#define STEPS COUNTER_BASKET_SIZE

/* A title granted, lent, taken back and moved, and another recorded where it stood, on fresh tables. */
static const struct step a_title[STEPS] = {
    {"register", 5, 7, 2, 3, 0, 0},
    {"register", 5, 7, 2, 3, 11, 0},
    {"check-out", 5, 7, 2, 3, 0, 0},
    {"check-out", 5, 7, 1, 3, 10, 0},
    {"move in", 5, 9, 1, 3, 14, 0},
    {"check-out", 5, 8, 1, 3, 0, 0},
    {"check-out", 5, 9, 0, 3, 12, 0},
    {"check-in", 5, 7, 0, 3, 0, 0},
    {"delete of a copy", 5, 8, 1, 3, 0, 0},
    {"move in", 5, 7, 1, 3, 0, 0},
    {"move out", 5, 7, 1, 2, 13, 0},
    {"move out", 5, 7, 1, 2, 16, 0},
    {"move out", 5, 7, 1, 2, 0, 0},
    {"record", 40, 7, 4, 1, 0, 0},
    {"delete of a full entry", 40, 7, 4, 1, 0, 0},
    {"delete of a full entry", 40, 7, 4, 1, 10, 0},
};

/* Refusals between calls that are done, on the tables of `before_refusals`. */
static const struct step refusals[STEPS] = {
    {"check-out", 5, 8, 14, 3, 4, 0},
    {"check-in", 5, 7, 14, 3, 5, 0},
    {"register", 6, 8, 14, 3, 6, 0},
    {"perform", 5, 8, 14, 3, 3, 8},
    {"check-in", 5, 7, 14, 3, 15, 0},
    {"check-out", 5, 8, 14, 3, 0, 0},
    {"check-in", 5, 7, 13, 3, 16, 0},
    {"check-in", 5, 7, 13, 3, 0, 0},
    {"move out", 40, 9, 4, 1, 13, 0},
    {"perform", 5, 10, 14, 3, 3, 0},
    {"delete of a full entry", 40, 9, 4, 1, 16, 0},
    {"delete of a full entry", 40, 9, 4, 1, 0, 0},
    {"register", 40, 9, 4, 1, 11, 0},
    {"record", 64, 9, 4, 1, 0, 0},
    {"perform", 5, 10, 14, 3, 3, TOP},
    {"move in", 5, 10, 14, 3, 14, 0},
};

/* The steps of the basket that is lent. */
static const struct step *steps;

static const struct function *take_step(const struct step *s)
{
    const struct function *f = named(s->name);

    set_arguments(64, s->c, s->j);
    a.permits = s->permits;
    a.rights = s->rights;
    a.kind = s->kind;
    if ((COUNTER_CONTENT_ID <= s->answer && s->answer <= COUNTER_FACTS) || s->answer == COUNTER_HASH ||
        s->answer == COUNTER_FILLER)
        meet(f, (unsigned)s->answer);
    return f;
}

/* All steps stand in the basket; the first of them are to be previewed, on the tables as they are now. */
static void lend_basket(const struct step *next, uint64_t next_count)
{
    steps = next;
    count = next_count;
    lend_scratch();
    for (size_t i = 0; i < STEPS; i++) {
        const struct function *f = take_step(&steps[i]);

        put_request(i, request_of(f->request != 0 ? f->request : a.kind));
    }
}

static void ready_preview(void) { lend_basket(a_title, STEPS); }

/* Each step on what the one before it left. */
static void after_preview(void)
{
    memset(wanted(&answers), 0, answers.length);
    for (size_t i = 0; i < count; i++) {
        const struct function *f = take_step(&steps[i]);

        if (steps[i].answer == COUNTER_DONE)
            f->after();
        put_word(&answers, i, steps[i].answer);
        given_in_basket[pair][steps[i].answer]++;
    }
    to_scratch();
}

/* A preview that is done, and then a commit: it answers what was told, and the originals end as the scratch buffers did. */
static void preview_and_commit(int line)
{
    check(line, named("preview"), COUNTER_DONE);
    from_scratch();
    for (size_t i = 0; i < count; i++) {
        uint64_t told;

        memcpy(&told, bytes(&answers) + i * sizeof told, sizeof told);
        same(line, steps[i].name, "committed", counter_perform(pair, LEDGER, CARD, place(i)), told);
    }
    compare_each(line, "commit", tables_and_text);
    compare_each(line, "commit", for_requests);
}

/* A title with a copy on the card and permits that are full, and another that is away. */
static void before_refusals(void)
{
    fresh(64);
    here(5, 14, 3);
    title_half(7, 5);
    plain_row(40, 2);
    full(9, 40, 4, 1);
}

/* One of the originals, by the refusal that it meets, with a wrong length or head. */
static void damage(unsigned number, unsigned how)
{
    struct buffer *b = originals[number - COUNTER_LEDGER];

    switch (how) {
    case 0: resize(b, b->length + 1); break;
    case 1: resize(b, b->length - 1); break;
    case 2: resize(b, 0); break;
    case 3: put_byte(b, 3, 0x08); break; /* the low byte of R, or a version */
    default: put(b, number == COUNTER_RULES ? 8 : 2, 2, 0x00ff); break; /* the application number, R, or a version */
    }
}

/*
 * Every count. Behind the requests stand the next steps, which could be done too, or anything. Too many are refused whatever
 * else is wrong: the requests, the originals, or a scratch buffer.
 */
static void counts_of_requests(void)
{
    static const uint64_t too_many[] = {
        17, 18, 32, 255, 256, 256 + 3, 65536 + 3, (uint64_t)1 << 32, ((uint64_t)1 << 32) + 3, (uint64_t)1 << 63, TOP,
    };

    for (uint64_t n = 0; n <= STEPS; n++)
        for (unsigned anything = 0; anything < 2; anything++) {
            size_t behind = n * sizeof(struct counter_request);

            fresh(64);
            lend_basket(a_title, n);
            memset(wanted(&basket) + behind, 0xff, anything ? basket.length - behind : 0);
            preview_and_commit(__LINE__);
            before_refusals();
            lend_basket(refusals, n);
            memset(wanted(&basket) + behind, 0xff, anything ? basket.length - behind : 0);
            preview_and_commit(__LINE__);
        }
    for (size_t k = 0; k < COUNT_OF(too_many); k++)
        for (unsigned number = 0; number <= COUNTER_RULES; number++) {
            fresh(64);
            if (number >= COUNTER_LEDGER)
                damage(number, 0);
            lend_basket(a_title, too_many[k]);
            memset(wanted(&basket), 0xff, number > 0 ? basket.length : 0);
            CHECK(named("preview"), 17);
            resize(&scratch_titles, 0);
            CHECK(named("preview"), 17);
        }
}

/* Scratch buffers as long as tables should be, beside an original that is not, and a basket in which nothing is right. */
static void scratch_of_right_lengths(void)
{
    for (unsigned number = COUNTER_LEDGER; number <= COUNTER_RULES; number++)
        for (unsigned how = 0; how < 3; how++) {
            begin(named("preview"), 64, 5, 7);
            damage(number, how);
            CHECK(named("preview"), 18);
            memset(wanted(&basket), 0xff, basket.length);
            CHECK(named("preview"), 18);
        }
}

/* Wrong lengths of each scratch buffer, and of two that are together as long as their originals. 17 comes before 18. */
static void scratch_lengths(void)
{
    static const uint64_t counts[] = {0, 1, 16, 17, TOP};

    for (size_t i = 0; i < 3; i++)
        for (size_t k = 0; k < COUNT_OF(counts); k++)
            for (size_t n = 0; n < 6; n++) {
                struct buffer *b = scratch[i], *next = scratch[(i + 1) % 3];

                begin(named("preview"), 64, 5, 7);
                count = counts[k];
                resize(b, (const size_t[]){0, 1, b->length - 1, b->length + 1, b->length + 32, next->length}[n]);
                CHECK(named("preview"), counts[k] > STEPS ? 17 : 18);
                begin(named("preview"), 64, 5, 7);
                count = counts[k];
                resize(b, b->length + n + 1);
                resize(next, next->length - n - 1);
                CHECK(named("preview"), counts[k] > STEPS ? 17 : 18);
            }
}

/* A kind that is none before each step: it is answered 3 in its place, and the others what they are without it. */
static void kinds_that_are_none(void)
{
    static const uint64_t none[] = {0, 8, 9, 255, 256 + 1, ((uint64_t)1 << 32) + 3, TOP};

    for (size_t k = 0; k < COUNT_OF(none); k++) {
        begin(named("perform"), 64, 5, 7);
        a.kind = none[k];
        CHECK(named("perform"), 3);
        for (size_t at = 0; at < STEPS; at++) {
            struct step more[STEPS];

            memcpy(more, a_title, sizeof more);
            memmove(more + at + 1, more + at, (STEPS - at - 1) * sizeof more[0]);
            more[at].name = "perform";
            more[at].answer = COUNTER_KIND;
            more[at].kind = none[k];
            fresh(64);
            lend_basket(more, STEPS);
            preview_and_commit(__LINE__);
        }
    }
}

/* Damage is no refusal of the preview: it answers each request that meets it, before what comes later in the order of tests. */
static void previews_of_damaged(const struct step *undamaged, void (*before)(void))
{
    for (unsigned number = COUNTER_LEDGER; number <= COUNTER_RULES; number++)
        for (unsigned how = 0; how < 5; how++) {
            struct step met[STEPS];

            memcpy(met, undamaged, sizeof met);
            for (size_t i = 0; i < STEPS; i++)
                if ((met[i].answer == COUNTER_DONE || met[i].answer > number) && refuses(named(met[i].name), number))
                    met[i].answer = number;
            before();
            damage(number, how);
            lend_basket(met, STEPS);
            preview_and_commit(__LINE__);
        }
}

static void fresh_64(void) { fresh(64); }

static void baskets(void)
{
    counts_of_requests();
    scratch_lengths();
    scratch_of_right_lengths();
    kinds_that_are_none();
    previews_of_damaged(a_title, fresh_64);
    previews_of_damaged(refusals, before_refusals);
}

/* ---------------------------------------------------------------- requests */

/* Request bytes stand in the ledger's buffer, so that its guards hold them too; the numbers have guards of their own. */
struct numbers {
    uint64_t before, kind, arguments[COUNTER_ARGUMENTS], used, after;
};

#define MOST_KEY "\xff\xff\xff\xff\xff\xff\xff\x7f"
#define MOST "\xff\xff\xff\xff\xff\xff\xff\xff\xff\x01"

static const struct request {
    const char *bytes;
    size_t length;
    uint64_t kind, arguments[COUNTER_ARGUMENTS];
} written[] = {
    {"\x01\x01\x02\x00\x01\x01\x05\x06", 8, 1, {1, 2, 0, 1, 1, 5, 6}},
    {"\x02\x01\xe7\x07\x03\x01\x0f\x0f\x7f\x80\x01\x00", 12, 2, {1, 999, 3, 1, 15, 15, 127, 128, 0}},
    {"\x03\x05\xe7\x07", 4, 3, {5, 999}},
    {"\x04\x07\xff\xff\xff\xff\xff\xff\xff\xff\xff\x01", 12, 4, {7, TOP}},
    {"\x05\x01\x02\x03\x04\x05\x06", 7, 5, {1, 2, 3, 4, 5, 6}},
    {"\x06\x01\x09\x00", 4, 6, {1, 9, 0}},
    {"\x07\xe7\x07\x01\x02\x03\x04", 7, 7, {999, 1, 2, 3, 4}},
    {"\x02\xe7\x07\xe7\x07\x03\x01\x0f\x0f" MOST_KEY MOST_KEY MOST, 35, 2,
     {999, 999, 3, 1, 15, 15, KEY_LIMIT - 1, KEY_LIMIT - 1, TOP}},
    {"\x05\xe7\x07" MOST MOST MOST MOST MOST, COUNTER_LONGEST_REQUEST, 5, {999, TOP, TOP, TOP, TOP, TOP}},
};

static void lend(const char *front, size_t length)
{
    resize(&ledger, length);
    memset(wanted(&ledger), 0xee, length);
    memcpy(wanted(&ledger), front, length);
    settle();
}

/* Reads what is lent, and wants this answer; done, the request's numbers, else all as they were. */
static void reads(int line, const struct request *r, uint64_t answer)
{
    struct numbers n = {GUARD, 90, {91, 92, 93, 94, 95, 96, 97, 98, 99}, 89, GUARD}, w = n;

    if (answer == COUNTER_DONE) {
        w.kind = r->kind;
        memcpy(w.arguments, r->arguments, sizeof w.arguments);
        w.used = r->length;
    }
    same(line, "read", "answers", counter_read_request(bytes(&ledger), ledger.length, &n.kind, n.arguments, &n.used), answer);
    same(line, "read", "numbers differ", memcmp(&n, &w, sizeof n) != 0, 0);
    compare(line, "read", &ledger);
}

/* Writes a request into what is lent, and wants this answer; done, its bytes, else all as it was. */
static void writes(int line, const struct request *r, uint64_t kind, const uint64_t *arguments, uint64_t answer)
{
    struct numbers n = {GUARD, 0, {0}, 89, GUARD};

    if (answer == COUNTER_DONE)
        memcpy(wanted(&ledger), r->bytes, r->length);
    same(line, "write", "answers", counter_write_request(bytes(&ledger), ledger.length, kind, arguments, &n.used), answer);
    same(line, "write", "uses", n.used, answer == COUNTER_DONE ? r->length : 89);
    same(line, "write", "guards differ", n.before != GUARD || n.after != GUARD, 0);
    compare(line, "write", &ledger);
}

static void requests(void)
{
    for (size_t k = 0; k < COUNT_OF(written); k++) {
        const struct request *r = &written[k];

        for (size_t length = 0; length <= r->length; length++) {
            lend(r->bytes, length);
            reads(__LINE__, r, length == r->length ? COUNTER_DONE : COUNTER_TOO_SHORT);
            lend("", 0);
            resize(&ledger, length);
            settle();
            writes(__LINE__, r, r->kind, r->arguments, length == r->length ? COUNTER_DONE : COUNTER_TOO_SHORT);
        }
        resize(&ledger, r->length + 3);
        settle();
        writes(__LINE__, r, r->kind, r->arguments, COUNTER_DONE);
        settle();
        reads(__LINE__, r, COUNTER_DONE);
    }
}

static void faulty_requests(void)
{
    static const struct {
        const char *bytes;
        size_t length;
        uint64_t answer;
    } faulty[] = {
        {"\x80", 1, 1}, {"\x80\x00", 2, 2}, {"\x00", 1, 3}, {"\x08", 1, 3}, {"\x03\x00", 2, 4}, {"\x03\xe8\x07", 3, 4},
        {"\x03\x05\x00", 3, 5}, {"\x01\x01\x01", 3, 6}, {"\x01\x01\x04", 3, 6}, {"\x01\x01\x02\x02", 4, 6},
        {"\x7f", 1, 3}, {"\x80\x01", 2, 3}, {MOST, 10, 3}, {"\x08\x80\x00", 3, 3}, {"\x83\x00\x01\x01", 4, 2},
    };
    const uint64_t past[] = {1000, 1, 2, 0, 1, 1, 5, 6, 0};

    for (size_t k = 0; k < COUNT_OF(faulty); k++) {
        lend(faulty[k].bytes, faulty[k].length);
        reads(__LINE__, NULL, faulty[k].answer);
    }
    lend("", 0);
    resize(&ledger, COUNTER_LONGEST_REQUEST);
    settle();
    writes(__LINE__, NULL, 0, written[0].arguments, 3);
    writes(__LINE__, NULL, 8, written[0].arguments, 3);
    writes(__LINE__, NULL, TOP, written[0].arguments, 3);
    writes(__LINE__, NULL, 1, past, 4);
    writes(__LINE__, NULL, 5, past, 5);
    writes(__LINE__, NULL, 1, written[2].arguments, 6);
}

/* The arguments of each kind: c content ID, j entry number, i CCI, t trigger, n rights or permits, k a key, x any number. */
static const char *const schemas[] = {"", "citnnkk", "cjitnnkkx", "cj", "jx", "jxxxxx", "cjx", "jxxxx"};

static uint64_t limit(char argument, uint64_t value)
{
    switch (argument) {
    case 'c': return 1 <= value && value <= 999 ? 0 : 4;
    case 'j': return 1 <= value && value <= 999 ? 0 : 5;
    case 'i': return value <= 3 && value != 1 ? 0 : 6;
    case 't': return value <= 1 ? 0 : 6;
    case 'n': return value <= 15 ? 0 : 6;
    case 'k': return value < KEY_LIMIT ? 0 : 6;
    default: return 0;
    }
}

/* A request whose bytes are put together number by number. */
struct made {
    struct request request;
    char bytes[128];
};

static void add(struct made *m, const char *bytes, size_t length)
{
    memcpy(m->bytes + m->request.length, bytes, length);
    m->request.length += length;
}

static void add_number(struct made *m, uint64_t value)
{
    for (; value >= 128; value /= 128)
        m->bytes[m->request.length++] = (char)(value % 128 + 128);
    m->bytes[m->request.length++] = (char)value;
}

/* The same with other arguments. The first limit that is passed is answered; a room that is too short comes after it. What stands behind
 * the arguments of the kind counts for nothing. */
static void with_arguments(const struct request *r, const uint64_t *arguments)
{
    struct made m = {{m.bytes, 0, r->kind, {0}}, {0}};
    uint64_t answer = 0, behind[COUNTER_ARGUMENTS];

    memset(behind, 0xff, sizeof behind);
    memcpy(m.request.arguments, arguments, sizeof m.request.arguments);
    add_number(&m, r->kind);
    for (size_t at = 0; schemas[r->kind][at] != 0; at++) {
        behind[at] = arguments[at];
        add_number(&m, arguments[at]);
        if (answer == 0)
            answer = limit(schemas[r->kind][at], arguments[at]);
    }
    lend(m.bytes, m.request.length);
    reads(__LINE__, &m.request, answer);
    lend(m.bytes, m.request.length - 1);
    writes(__LINE__, &m.request, r->kind, arguments, answer == 0 ? COUNTER_TOO_SHORT : answer);
    lend(r->bytes, 0);
    resize(&ledger, m.request.length);
    settle();
    writes(__LINE__, &m.request, r->kind, behind, answer);
}

/* A limit that is no power of 2, or a side of a power of 2: every seventh is one of 128, where a number gets longer. */
static const uint64_t no_powers[] = {999, 1000, TOP};
#define VALUES (COUNT_OF(no_powers) + 2 * 64)

static uint64_t value_at(size_t n)
{
    if (n < COUNT_OF(no_powers))
        return no_powers[n];
    n -= COUNT_OF(no_powers);
    return ((uint64_t)1 << n / 2) - 1 + n % 2;
}

/* Each argument of each kind at and past its limits and at each length, alone and with all behind it past theirs. */
static void limits_of_requests(void)
{
    for (size_t k = 0; k < COUNT_OF(written); k++)
        for (size_t at = 0; schemas[written[k].kind][at] != 0; at++)
            for (size_t n = 0; n < VALUES; n++) {
                uint64_t arguments[COUNTER_ARGUMENTS];

                memcpy(arguments, written[k].arguments, sizeof arguments);
                arguments[at] = value_at(n);
                with_arguments(&written[k], arguments);
                for (size_t i = at + 1; schemas[written[k].kind][i] != 0; i++)
                    arguments[i] = TOP;
                with_arguments(&written[k], arguments);
            }
}

/* Faulty forms of a number, in the place of the kind and of each argument, with and without bytes behind them. */
static void faulty_numbers(void)
{
#define NINE "\xff\xff\xff\xff\xff\xff\xff\xff\xff"
#define NINE_ZEROS "\x80\x80\x80\x80\x80\x80\x80\x80\x80"
    static const struct { const char *bytes; size_t length; uint64_t answer; } faulty[] = {
        {"\x80", 1, 1}, {NINE, 9, 1}, {NINE_ZEROS, 9, 1}, {"\x80\x00", 2, 2}, {"\x80\x80\x00", 3, 2}, {"\xff\x00", 2, 2},
        {NINE "\x00", 10, 2}, {NINE "\x02", 10, 2}, {NINE "\x7f", 10, 2}, {NINE "\x80", 10, 2}, {NINE "\x81", 10, 2},
        {NINE "\xff", 10, 2}, {NINE_ZEROS "\x00", 10, 2}, {NINE_ZEROS "\x02", 10, 2}, {NINE_ZEROS "\x81", 10, 2},
    };

    for (size_t k = 0; k < COUNT_OF(written); k++)
        for (size_t at = 0; at <= strlen(schemas[written[k].kind]); at++)
            for (size_t n = 0; n < COUNT_OF(faulty); n++) {
                struct made m = {{m.bytes, 0, 0, {0}}, {0}};

                if (at > 0)
                    add_number(&m, written[k].kind);
                for (size_t i = 0; i + 1 < at; i++)
                    add_number(&m, written[k].arguments[i]);
                add(&m, faulty[n].bytes, faulty[n].length);
                lend(m.bytes, m.request.length);
                reads(__LINE__, NULL, faulty[n].answer);
                if (faulty[n].answer == 1)
                    continue;
                add(&m, "\x01\x00", 2);
                lend(m.bytes, m.request.length);
                reads(__LINE__, NULL, faulty[n].answer);
            }
}

/* What the texts are, host/till/constants.sh compares. */
static void texts(void)
{
    for (uint64_t i = 0; i <= COUNTER_SCRATCH; i++)
        same(__LINE__, "text", "differs", strcmp(counter_text(i), counter_text(COUNTER_SCRATCH + 1)) != 0, 1);
    same(__LINE__, "text", "differs", strcmp(counter_text(COUNTER_SCRATCH + 1), counter_text(TOP)) != 0, 0);
}

/* All that is lent a ledger or a card, with tables of one pair. Answers the count of checks. */
static unsigned long all_with(bool next)
{
    unsigned long before = checks;

    take(next);
    sets_of_refusals();
    arguments();
    heads_and_places();
    entries_and_rows();
    permits_rights_and_copies();
    sheets();
    inspections();
    baskets();
    all_answers();
    return checks - before;
}

int main(void)
{
    unsigned long audio, picture;

    each_of(tables_and_text, make);
    each_of(for_inspection, make);
    each_of(for_requests, make);
    audio = all_with(COUNTER_AUDIO);
    picture = all_with(COUNTER_PICTURE);
    by_turns();
    tables = "no tables";
    requests();
    faulty_requests();
    limits_of_requests();
    faulty_numbers();
    texts();
    printf("till: %lu checks, %lu of them with audio tables and %lu with picture tables\n", checks, audio, picture);
    return 0;
}
