/* The two libraries side by side on random shops, calls, requests and previews: the same answers, and the same bytes left. */
#include <inttypes.h>
#include <stdio.h>
#include <stdlib.h>
#include <string.h>

#include "scenes.h"

#define CALLS_ON_A_SHOP 32
#define ANSWERS (COUNTER_SCRATCH + 1)
#define KEY_LIMIT ((uint64_t)1 << 56)

static uint64_t random_state = 0x9e3779b97f4a7c15;

/* xorshift64*: the same numbers in every run. */
static uint64_t random_word(void)
{
    random_state ^= random_state >> 12;
    random_state ^= random_state << 25;
    random_state ^= random_state >> 27;
    return random_state * 0x2545f4914f6cdd1d;
}

static uint64_t below(uint64_t limit)
{
    return (random_word() >> 16) % limit;
}

static int one_in(uint64_t limit)
{
    return below(limit) == 0;
}

/* Mostly from the first `usual` numbers, sometimes at an edge. */
static uint64_t near(uint64_t usual, uint64_t edge)
{
    switch (below(16)) {
    case 0: return edge - 1 + below(3);
    case 1: return one_in(2) ? 0 : random_word();
    default: return below(usual);
    }
}

/* ---------------------------------------------------------------- shops */

/* Lengths and contents; shops are small, so that rows, entries and titles meet. And what calls write beside them. */
struct state {
    struct shop shop;
    size_t ledger_len, titles_len, rules_len;
    uint64_t copies, entries_read, holders, kind, content, row_state, facts[COUNTER_FACT_COUNT], vacant;
    uint8_t text[COUNTER_SHEET_SIZE];
    size_t used;
};

#define L state->shop.ledger, state->ledger_len
#define T state->shop.titles, state->titles_len
#define R state->shop.rules, state->rules_len

#define TITLES_HERE 6

static void store(uint8_t *at, uint64_t value, size_t bytes)
{
    for (size_t i = bytes; i > 0; i--, value >>= 8)
        at[i - 1] = (uint8_t)value;
}

/* Flag and content ID, and reserved bits at random. */
static void random_tail(uint8_t *half)
{
    uint64_t id = one_in(8) ? near(1024, 999) : below(TITLES_HERE);

    store(half + 8, random_word(), 8);
    half[8] = (uint8_t)(one_in(3) ? half[8] & 0x7f : half[8] | 0x80);
    half[14] = (uint8_t)((half[14] & 0xfc) | (id >> 8 & 3));
    half[15] = (uint8_t)id;
}

static void random_entry(struct shop *shop, unsigned entry)
{
    uint8_t *title = shop->titles + 16 * entry, *rule = shop->rules + 32 * entry;

    store(title, below(4) << 56 | below(4), 8);
    random_tail(title);
    store(rule, below(4), 8);
    random_tail(rule);
    if (one_in(2))
        memcpy(rule + 8, title + 8, 8);
    if (one_in(2))
        rule[8] &= 0x7f;
    rule[16] = (uint8_t)(random_word() & 0x9f);
    rule[17] = (uint8_t)random_word();
    store(rule + 18, below(2), 8);
}

static void random_row(struct shop *shop, unsigned content)
{
    uint8_t *row = shop->ledger + 24 * content;

    store(row, random_word(), 8);
    store(row + 8, below(4) << 8, 8);
    store(row + 16, below(4) << 8, 8);
    row[0] = (uint8_t)near(4, 3);
    row[1] = (uint8_t)near(4, 3);
    row[2] = (uint8_t)near(2, 1);
    row[3] = (uint8_t)near(16, 15);
    row[4] = (uint8_t)near(16, 15);
}

static void damage(uint8_t *buffer, size_t *length, size_t head)
{
    if (one_in(4))
        *length = one_in(2) ? *length - 1 : below(head + 8);
    else
        buffer[below(head)] ^= (uint8_t)(1u << below(8));
}

/* An identifier that may be the other pair's, or the other table's. */
static void random_identifier(uint8_t *table)
{
    static const char *const identifiers[] = {"A1", "M1", "P1"};

    memcpy(table, identifiers[below(3)], 2);
}

/*
 * Clears an entry's flags, empties a row and records a title there. Of full entries whose rows are away chance alone makes few, and
 * the fillers are tested after all else.
 */
static void hold(struct state *state, bool pair, unsigned entry, unsigned content)
{
    state->shop.titles[16 * entry + 8] &= 0x7f;
    state->shop.rules[32 * entry + 8] &= 0x7f;
    state->shop.ledger[24 * content] = 0;
    proved.record(pair, L, T, R, content, entry, 2, 0, below(16), below(16), below(4), below(4), below(2));
}

static void random_state_of(struct state *state, bool pair)
{
    struct shop *shop = &state->shop;
    uint64_t rows = one_in(4) ? COUNTER_MOST_ROWS : 1 + below(TITLES_HERE + 2);

    memset(shop, 0, sizeof *shop);
    state->ledger_len = COUNTER_LEDGER_SIZE(rows);
    state->titles_len = COUNTER_TITLES_SIZE;
    state->rules_len = COUNTER_RULES_SIZE;
    proved.format_ledger(shop->ledger, state->ledger_len, rows, 7);
    proved.format_card(pair, TITLES(shop), RULES(shop), 7);
    for (unsigned content = 1; content <= rows; content++)
        random_row(shop, content);
    for (unsigned i = 0; i < 24; i++)
        random_entry(shop, i < 8 ? i + 1 : (unsigned)(1 + below(COUNTER_LAST_ENTRY)));
    random_entry(shop, COUNTER_LAST_ENTRY);
    for (unsigned entry = 1; entry <= 8; entry++)
        if (one_in(8))
            hold(state, pair, entry, (unsigned)(1 + below(TITLES_HERE)));
    if (one_in(8))
        random_identifier(shop->titles);
    if (one_in(8))
        random_identifier(shop->rules);
    if (one_in(4))
        damage(shop->ledger, &state->ledger_len, 24);
    if (one_in(4))
        damage(shop->titles, &state->titles_len, 16);
    if (one_in(4))
        damage(shop->rules, &state->rules_len, 32);
}

/* ---------------------------------------------------------------- calls */

/* A call: which one, and its arguments. */
struct call {
    unsigned operation;
    bool pair;
    uint64_t content, entry, cci, trigger, rights, permits, title_key, sti_key, hash, f[4];
    size_t text_len;
    struct counter_request request;
};

static const struct {
    const char *name;
    bool has_pair;
} operations[] = {{"format ledger", false}, {"format card", true},   {"register", false},      {"record", true},
                  {"check-out", true},      {"check-in", true},      {"move out", true},       {"move in", true},
                  {"delete", true},         {"tally", true},         {"inspect entry", true},  {"inspect row", false},
                  {"inspect title", true},  {"first vacant", true},  {"sheet", true},          {"perform", true}};

#define OPERATIONS (sizeof operations / sizeof operations[0])

/* A call's arguments as a request of one of the seven kinds, or of none. What stands in the places after them is no argument. */
static struct counter_request request_of(const struct call *c, uint64_t kind)
{
    uint64_t rest = random_word();
    struct counter_request requests[] = {
        {kind, {c->content, c->entry, rest, rest, rest, rest, rest, rest, rest}},
        {kind, {c->content, c->cci, c->trigger, c->rights, c->permits, c->title_key, c->sti_key, rest, rest}},
        {kind, {c->content, c->entry, c->cci, c->trigger, c->rights, c->permits, c->title_key, c->sti_key, c->hash}},
        {kind, {c->content, c->entry, rest, rest, rest, rest, rest, rest, rest}},
        {kind, {c->entry, c->f[0], rest, rest, rest, rest, rest, rest, rest}},
        {kind, {c->entry, c->hash, c->f[0], c->f[1], c->f[2], c->f[3], rest, rest, rest}},
        {kind, {c->content, c->entry, c->hash, rest, rest, rest, rest, rest, rest}},
        {kind, {c->entry, c->f[0], c->f[1], c->f[2], c->f[3], rest, rest, rest, rest}},
    };

    return requests[kind <= COUNTER_DELETE ? kind : 0];
}

/* A call for a card that was formatted for `pair`: mostly of that pair. */
static struct call random_call(bool pair)
{
    struct call call = {.pair = one_in(8) ? !pair : pair};

    /* Formatting is rare: it leaves nothing to work on. */
    call.operation = one_in(24) ? (unsigned)below(2) : (unsigned)(2 + below(OPERATIONS - 2));
    call.content = near(TITLES_HERE, 1000);
    call.entry = one_in(8) ? COUNTER_LAST_ENTRY : near(9, 1000);
    call.cci = one_in(2) ? 2 : near(4, 3);
    call.trigger = one_in(2) ? 0 : near(2, 1);
    call.rights = near(16, 15);
    call.permits = near(16, 15);
    call.title_key = near(4, KEY_LIMIT);
    call.sti_key = near(4, KEY_LIMIT);
    call.hash = below(2);
    for (size_t i = 0; i < 4; i++)
        call.f[i] = random_word() << 56 | below(8);
    /* Sheets of small shops fit about as often as not. */
    call.text_len = one_in(4) ? COUNTER_SHEET_SIZE : below(130);
    call.request = request_of(&call, near(8, COUNTER_DELETE));
    return call;
}

static uint64_t perform(const struct counter *counter, struct state *state, const struct call *call)
{
    bool pair = call->pair;

    switch (call->operation) {
    case 0: return counter->format_ledger(L, call->content, (uint16_t)call->hash);
    case 1: return counter->format_card(pair, T, R, (uint16_t)call->hash);
    case 2:
        return counter->register_title(L, call->content, call->cci, call->trigger, call->rights, call->permits,
                                       call->title_key, call->sti_key);
    case 3:
        return counter->record(pair, L, T, R, call->content, call->entry, call->cci, call->trigger, call->rights,
                               call->permits, call->title_key, call->sti_key, call->hash);
    case 4: return counter->check_out(pair, L, T, R, call->content, call->entry);
    case 5: return counter->check_in(pair, L, T, R, call->entry, call->f[0]);
    case 6: return counter->move_out(pair, L, T, R, call->entry, call->hash, call->f[0], call->f[1], call->f[2], call->f[3]);
    case 7: return counter->move_in(pair, L, T, R, call->content, call->entry, call->hash, &state->entries_read);
    case 8: return counter->delete_entry(pair, L, T, R, call->entry, call->f[0], call->f[1], call->f[2], call->f[3]);
    case 9: return counter->tally(pair, T, R, call->content, &state->copies);
    case 10: return counter->inspect_entry(pair, T, R, call->entry, &state->kind, &state->content, state->facts);
    case 11: return counter->inspect_row(L, call->content, &state->row_state, state->facts);
    case 12: return counter->inspect_title(pair, L, T, R, call->content, &state->holders, &state->copies);
    case 13: return counter->first_vacant(pair, T, R, call->entry, &state->vacant);
    case 14: return counter->sheet(pair, L, T, R, state->text, call->text_len, &state->used);
    default: return counter->perform(pair, L, T, R, &call->request);
    }
}

/* Values that show what a call does not write. */
static void forget(struct state *state)
{
    state->copies = state->entries_read = state->used = 77;
    state->holders = state->kind = state->content = state->row_state = state->vacant = 77;
    for (size_t i = 0; i < COUNTER_FACT_COUNT; i++)
        state->facts[i] = 77;
    memset(state->text, 0xa5, sizeof state->text);
}

static void differ(const char *what, uint64_t proved_answer, uint64_t plain_answer)
{
    printf("%s: the libraries differ: proved %" PRIu64 ", plain %" PRIu64 "\n", what, proved_answer, plain_answer);
    exit(1);
}

/* Counts a call's answer with those of its operation and, where it takes one, its pair. */
static void check_calls(const struct state *start, bool pair, uint64_t seen[OPERATIONS][2][ANSWERS])
{
    static struct state one, other;

    one = other = *start;
    for (unsigned i = 0; i < CALLS_ON_A_SHOP; i++) {
        struct call call = random_call(pair);
        uint64_t one_answer, other_answer;

        forget(&one);
        forget(&other);
        one_answer = perform(&proved, &one, &call);
        other_answer = perform(&plain, &other, &call);
        if (one_answer != other_answer || memcmp(&one, &other, sizeof one) != 0)
            differ(operations[call.operation].name, one_answer, other_answer);
        seen[call.operation][operations[call.operation].has_pair && call.pair][one_answer]++;
    }
}

/* ---------------------------------------------------------------- previews */

/* What a preview is lent beside ledger and tables, and where it answers. */
struct preview {
    struct shop scratch;
    size_t ledger_len, titles_len, rules_len;
    struct counter_request basket[COUNTER_BASKET_SIZE];
    uint64_t count, answers[COUNTER_BASKET_SIZE];
};

/* A length of a scratch buffer: mostly its original's. */
static size_t scratch_len(size_t length)
{
    if (one_in(16))
        return one_in(2) && length > 0 ? length - 1 : below(length + 1);
    return length;
}

static void random_preview(struct preview *preview, const struct state *start, bool pair)
{
    memset(preview, 0xa5, sizeof *preview);
    preview->ledger_len = scratch_len(start->ledger_len);
    preview->titles_len = scratch_len(start->titles_len);
    preview->rules_len = scratch_len(start->rules_len);
    preview->count = near(COUNTER_BASKET_SIZE + 1, COUNTER_BASKET_SIZE);
    for (size_t i = 0; i < COUNTER_BASKET_SIZE; i++)
        preview->basket[i] = random_call(pair).request;
}

static uint64_t run_preview(const struct counter *counter, const struct state *state, bool pair, struct preview *preview)
{
    return counter->preview(pair, L, T, R, preview->scratch.ledger, preview->ledger_len, preview->scratch.titles,
                            preview->titles_len, preview->scratch.rules, preview->rules_len, preview->basket, preview->count,
                            preview->answers);
}

/* Counts its answer, and those of the requests in it. */
static void check_preview(const struct state *start, bool pair, uint64_t seen[ANSWERS], uint64_t seen_inside[ANSWERS])
{
    static struct state state;
    static struct preview one, other;
    uint64_t one_answer, other_answer;

    state = *start;
    random_preview(&one, start, pair);
    other = one;
    pair = one_in(8) ? !pair : pair;
    one_answer = run_preview(&proved, &state, pair, &one);
    other_answer = run_preview(&plain, &state, pair, &other);
    if (one_answer != other_answer || memcmp(&one, &other, sizeof one) != 0)
        differ("preview", one_answer, other_answer);
    if (memcmp(&state, start, sizeof state) != 0) {
        printf("preview: ledger or tables changed\n");
        exit(1);
    }
    seen[one_answer]++;
    for (size_t i = 0; one_answer == COUNTER_DONE && i < one.count; i++)
        seen_inside[one.answers[i]]++;
}

/* ---------------------------------------------------------------- requests */

static void check_reading(uint64_t seen[ANSWERS])
{
    uint8_t bytes[100] = {0};
    size_t length = below(sizeof bytes + 1);
    uint64_t one[10] = {0}, other[10] = {0}, arguments[COUNTER_ARGUMENTS], one_answer, other_answer;
    size_t used, one_used = 77, other_used = 77;

    for (size_t i = 0; i < sizeof bytes; i++)
        bytes[i] = (uint8_t)(one_in(3) ? below(4) : near(256, 0x80));
    for (size_t i = 0; i < 9; i++)
        arguments[i] = one_in(3) ? random_word() >> below(64) : below(4);
    bytes[0] = (uint8_t)near(8, 8);
    /* Often a written request, perhaps with one bit turned. */
    if (one_in(2))
        plain.write_request(bytes, sizeof bytes, bytes[0], arguments, &used);
    if (one_in(4))
        bytes[below(sizeof bytes)] ^= (uint8_t)(1u << below(8));
    one_answer = proved.read_request(bytes, length, &one[9], one, &one_used);
    other_answer = plain.read_request(bytes, length, &other[9], other, &other_used);
    if (one_answer != other_answer || one_used != other_used || memcmp(one, other, sizeof one) != 0)
        differ("reading a request", one_answer, other_answer);
    seen[one_answer]++;
}

static void check_writing(uint64_t seen[ANSWERS])
{
    static const uint64_t edges[] = {999, 999, 1, 1, 15, 15, KEY_LIMIT, KEY_LIMIT, UINT64_MAX};
    uint8_t one[100], other[100];
    uint64_t kind = near(8, 8), arguments[COUNTER_ARGUMENTS], one_answer, other_answer;
    size_t length = below(sizeof one + 1), one_used = 77, other_used = 77;

    memset(one, 0xa5, sizeof one);
    memset(other, 0xa5, sizeof other);
    for (size_t i = 0; i < 9; i++)
        arguments[i] = one_in(8) ? random_word() >> below(64) : one_in(3) ? near(4, edges[below(9)]) : below(2) * 2;
    arguments[0] = one_in(16) ? arguments[0] : 1 + below(999);
    one_answer = proved.write_request(one, length, kind, arguments, &one_used);
    other_answer = plain.write_request(other, length, kind, arguments, &other_used);
    if (one_answer != other_answer || one_used != other_used || memcmp(one, other, sizeof one) != 0)
        differ("writing a request", one_answer, other_answer);
    seen[one_answer]++;
}

/* ---------------------------------------------------------------- all of it */

static void show(const char *name, const char *pair, const uint64_t seen[ANSWERS])
{
    printf("  %-17s%-8s", name, pair);
    for (unsigned answer = 0; answer < ANSWERS; answer++)
        if (seen[answer] != 0)
            printf(" %u: %" PRIu64, answer, seen[answer]);
    printf("\n");
}

void check_random(unsigned shops)
{
    static uint64_t seen[OPERATIONS][2][ANSWERS], seen_reading[ANSWERS], seen_writing[ANSWERS], seen_previews[ANSWERS];
    static uint64_t seen_inside[ANSWERS];
    static struct state start;

    for (unsigned i = 0; i < shops; i++) {
        bool pair = one_in(2) ? COUNTER_PICTURE : COUNTER_AUDIO;

        random_state_of(&start, pair);
        check_calls(&start, pair, seen);
        check_preview(&start, pair, seen_previews, seen_inside);
        for (unsigned j = 0; j < CALLS_ON_A_SHOP; j++) {
            check_reading(seen_reading);
            check_writing(seen_writing);
        }
    }
    printf("Checked on random input, the same answers and bytes from both. How often each answer came:\n");
    for (unsigned i = 0; i < OPERATIONS; i++) {
        show(operations[i].name, operations[i].has_pair ? "audio" : "", seen[i][COUNTER_AUDIO]);
        if (operations[i].has_pair)
            show(operations[i].name, "picture", seen[i][COUNTER_PICTURE]);
    }
    show("reading requests", "", seen_reading);
    show("writing requests", "", seen_writing);
    show("previews", "", seen_previews);
    show("requests in them", "", seen_inside);
}
